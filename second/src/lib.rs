//! A second Nios II emulator, written from document 01 alone, so that the
//! proved one has something to be compared with. It is also the yardstick of
//! the benchmark: a plain interpreter that a reader can hold against the paper.

pub mod archive;
pub mod check;
pub mod measured;

use std::marker::PhantomData;

/// The longest memory that is accepted, in bytes.
pub const LONGEST_MEMORY: u64 = 1_048_576;
/// The largest budget that is accepted, in steps.
pub const LARGEST_BUDGET: u32 = 1_000_000;

/// The paper's numbers for what is not accepted.
pub mod refusal {
    pub const MEMORY_LENGTH: u32 = 1;
    pub const MAP_LENGTH: u32 = 2;
    pub const SETTINGS: u32 = 3;
    pub const STATE: u32 = 4;
    pub const BUDGET: u32 = 5;
    pub const RANGE: u32 = 6;
}

/// The paper's numbers for why a run ended.
pub mod reason {
    pub const BUDGET_SPENT: u32 = 0;
    pub const PC_UNALIGNED: u32 = 10;
    pub const PC_OUTSIDE: u32 = 11;
    pub const NOT_LISTED: u32 = 12;
    pub const CUSTOM: u32 = 13;
    pub const DIVISION: u32 = 14;
    pub const DATA_UNALIGNED: u32 = 15;
    pub const DATA_OUTSIDE: u32 = 16;
    pub const CONTROL_STATE: u32 = 17;
}

const EA: usize = 29;
const BA: usize = 30;
const RA: usize = 31;

#[derive(Clone, Debug, Default, PartialEq, Eq)]
pub struct State {
    pub registers: [u32; 32],
    pub pc: u32,
    pub status: u32,
    pub estatus: u32,
    pub bstatus: u32,
    pub ienable: u32,
}

#[derive(Clone, Debug, PartialEq, Eq)]
pub struct Settings {
    pub reset: u32,
    pub exception: u32,
    pub break_address: u32,
    pub cpuid: u32,
    pub multiplier: bool,
    pub divider: bool,
}

#[derive(Clone, Copy, Debug, PartialEq, Eq)]
pub struct Answer {
    /// A refusal, or the reason for stopping.
    pub number: u32,
    pub steps: u32,
}

impl State {
    /// Whether the next step is an interrupt entry.
    pub fn interrupted(&self, lines: u32) -> bool {
        self.status == 1 && self.pending(lines) != 0
    }

    /// The control register ipending.
    pub fn pending(&self, lines: u32) -> u32 {
        lines & self.ienable
    }

    fn has_wide_status(&self) -> bool {
        self.status > 1 || self.estatus > 1 || self.bstatus > 1
    }
}

/// Zeroes the state, sets pc to the reset address and clears both maps.
/// Gives 0, or the number of the refusal, and then nothing is changed.
pub fn fresh(
    memory: &[u8],
    read: &mut [u8],
    written: &mut [u8],
    state: &mut State,
    settings: &Settings,
) -> u32 {
    if let Err(number) = accept_start(memory, read, written, settings) {
        return number;
    }
    read.fill(0);
    written.fill(0);
    *state = State {
        pc: settings.reset,
        ..State::default()
    };
    0
}

/// Makes steps until the budget is spent or a step stops. The marks are set
/// bit by bit, in the paper's words.
#[allow(clippy::too_many_arguments)]
pub fn run(
    memory: &mut [u8],
    read: &mut [u8],
    written: &mut [u8],
    state: &mut State,
    settings: &Settings,
    lines: u32,
    budget: u32,
) -> Answer {
    run_marking::<BitByBit>(memory, read, written, state, settings, lines, budget)
}

/// The same run with the marks of an access set at once, as one would write it
/// for speed: the benchmark's yardstick.
#[allow(clippy::too_many_arguments)]
pub fn run_fast(
    memory: &mut [u8],
    read: &mut [u8],
    written: &mut [u8],
    state: &mut State,
    settings: &Settings,
    lines: u32,
    budget: u32,
) -> Answer {
    run_marking::<AtOnce>(memory, read, written, state, settings, lines, budget)
}

fn run_marking<M: Marking>(
    memory: &mut [u8],
    read: &mut [u8],
    written: &mut [u8],
    state: &mut State,
    settings: &Settings,
    lines: u32,
    budget: u32,
) -> Answer {
    if let Err(number) = accept_run(memory, read, written, state, settings, budget) {
        return Answer { number, steps: 0 };
    }
    let mut machine = Machine::<M> {
        memory,
        read,
        written,
        state,
        settings,
        lines,
        marking: PhantomData,
    };
    for steps in 0..budget {
        if let Err(number) = machine.step() {
            return Answer { number, steps };
        }
    }
    Answer {
        number: reason::BUDGET_SPENT,
        steps: budget,
    }
}

/// Whether a run with this read-first map survives an edit of `start..end`.
pub fn edit(memory_length: u64, read: &[u8], start: u64, end: u64) -> Result<bool, u32> {
    accept_memory_length(memory_length)?;
    accept_map_length(memory_length, read)?;
    if start > end || end > memory_length {
        return Err(refusal::RANGE);
    }
    Ok((start as usize..end as usize).all(|address| !bit(read, address)))
}

/// The bit of one address in a map.
pub fn bit(map: &[u8], address: usize) -> bool {
    map[address / 8] >> (address % 8) & 1 == 1
}

fn set_bit(map: &mut [u8], address: usize) {
    map[address / 8] |= 1 << (address % 8);
}

/// How the marks of an aligned access of 1, 2 or 4 bytes are set.
trait Marking {
    fn mark_read<const WIDTH: usize>(read: &mut [u8], written: &[u8], address: usize);
    fn mark_written<const WIDTH: usize>(written: &mut [u8], address: usize);
}

struct BitByBit;

impl Marking for BitByBit {
    fn mark_read<const WIDTH: usize>(read: &mut [u8], written: &[u8], address: usize) {
        for byte in address..address + WIDTH {
            if !bit(written, byte) {
                set_bit(read, byte);
            }
        }
    }

    fn mark_written<const WIDTH: usize>(written: &mut [u8], address: usize) {
        for byte in address..address + WIDTH {
            set_bit(written, byte);
        }
    }
}

struct AtOnce;

impl AtOnce {
    /// An aligned access has all its bits in one byte of a map.
    fn mask<const WIDTH: usize>(address: usize) -> u8 {
        ((1u8 << WIDTH) - 1) << (address % 8)
    }
}

impl Marking for AtOnce {
    fn mark_read<const WIDTH: usize>(read: &mut [u8], written: &[u8], address: usize) {
        read[address / 8] |= Self::mask::<WIDTH>(address) & !written[address / 8];
    }

    fn mark_written<const WIDTH: usize>(written: &mut [u8], address: usize) {
        written[address / 8] |= Self::mask::<WIDTH>(address);
    }
}

fn accept_memory_length(length: u64) -> Result<(), u32> {
    if (8..=LONGEST_MEMORY).contains(&length) && length.is_multiple_of(8) {
        Ok(())
    } else {
        Err(refusal::MEMORY_LENGTH)
    }
}

fn accept_map_length(memory_length: u64, map: &[u8]) -> Result<(), u32> {
    if map.len() as u64 == memory_length / 8 {
        Ok(())
    } else {
        Err(refusal::MAP_LENGTH)
    }
}

fn accept_start(
    memory: &[u8],
    read: &[u8],
    written: &[u8],
    settings: &Settings,
) -> Result<(), u32> {
    let length = memory.len() as u64;
    accept_memory_length(length)?;
    accept_map_length(length, read)?;
    accept_map_length(length, written)?;
    let starts = [settings.reset, settings.exception, settings.break_address];
    let inside = |start: u32| start.is_multiple_of(4) && u64::from(start) + 4 <= length;
    if starts.into_iter().all(inside) {
        Ok(())
    } else {
        Err(refusal::SETTINGS)
    }
}

fn accept_run(
    memory: &[u8],
    read: &[u8],
    written: &[u8],
    state: &State,
    settings: &Settings,
    budget: u32,
) -> Result<(), u32> {
    accept_start(memory, read, written, settings)?;
    if state.registers[0] != 0 || state.has_wide_status() {
        return Err(refusal::STATE);
    }
    if budget > LARGEST_BUDGET {
        return Err(refusal::BUDGET);
    }
    Ok(())
}

/// An instruction word and its fields.
#[derive(Clone, Copy)]
struct Word(u32);

impl Word {
    fn op(self) -> u32 {
        self.0 & 0x3F
    }

    fn opx(self) -> u32 {
        self.0 >> 11 & 0x3F
    }

    fn a(self) -> usize {
        (self.0 >> 27) as usize
    }

    fn b(self) -> usize {
        (self.0 >> 22 & 0x1F) as usize
    }

    fn c(self) -> usize {
        (self.0 >> 17 & 0x1F) as usize
    }

    fn small(self) -> u32 {
        self.0 >> 6 & 0x1F
    }

    fn signed(self) -> u32 {
        (self.0 >> 6) as u16 as i16 as u32
    }

    fn unsigned(self) -> u32 {
        u32::from((self.0 >> 6) as u16)
    }

    fn high(self) -> u32 {
        self.unsigned() << 16
    }

    fn target(self) -> u32 {
        self.0 >> 6 << 2
    }
}

/// Everything that is lent to one run.
struct Machine<'a, M> {
    memory: &'a mut [u8],
    read: &'a mut [u8],
    written: &'a mut [u8],
    state: &'a mut State,
    settings: &'a Settings,
    lines: u32,
    marking: PhantomData<M>,
}

impl<M: Marking> Machine<'_, M> {
    fn step(&mut self) -> Result<(), u32> {
        if self.state.has_wide_status() {
            return Err(reason::CONTROL_STATE);
        }
        if self.state.interrupted(self.lines) {
            self.state.pc = self.exception();
            return Ok(());
        }
        let word = self.fetch()?;
        self.state.pc = self.execute(word)?;
        Ok(())
    }

    fn fetch(&mut self) -> Result<Word, u32> {
        let pc = self.state.pc;
        if !pc.is_multiple_of(4) {
            return Err(reason::PC_UNALIGNED);
        }
        self.read_bytes(pc)
            .map(|bytes| Word(u32::from_le_bytes(bytes)))
            .ok_or(reason::PC_OUTSIDE)
    }

    /// Carries out an instruction and gives the next pc.
    fn execute(&mut self, word: Word) -> Result<u32, u32> {
        let a = self.state.registers[word.a()];
        let b = self.state.registers[word.b()];
        let next = self.state.pc.wrapping_add(4);
        let value = match word.op() {
            0x00 => {
                self.set(RA, next);
                return Ok(self.state.pc & 0xF000_0000 | word.target());
            }
            0x06 => return Ok(next.wrapping_add(word.signed())),
            0x0E => return Ok(branch((a as i32) >= (b as i32), next, word)),
            0x16 => return Ok(branch((a as i32) < (b as i32), next, word)),
            0x1E => return Ok(branch(a != b, next, word)),
            0x26 => return Ok(branch(a == b, next, word)),
            0x2E => return Ok(branch(a >= b, next, word)),
            0x36 => return Ok(branch(a < b, next, word)),

            0x05 | 0x25 => {
                self.store(a.wrapping_add(word.signed()), (b as u8).to_le_bytes())?;
                return Ok(next);
            }
            0x0D | 0x2D => {
                self.store(a.wrapping_add(word.signed()), (b as u16).to_le_bytes())?;
                return Ok(next);
            }
            0x15 | 0x35 => {
                self.store(a.wrapping_add(word.signed()), b.to_le_bytes())?;
                return Ok(next);
            }

            0x03 | 0x23 => u8::from_le_bytes(self.load(a.wrapping_add(word.signed()))?) as u32,
            0x07 | 0x27 => i8::from_le_bytes(self.load(a.wrapping_add(word.signed()))?) as u32,
            0x0B | 0x2B => u16::from_le_bytes(self.load(a.wrapping_add(word.signed()))?) as u32,
            0x0F | 0x2F => i16::from_le_bytes(self.load(a.wrapping_add(word.signed()))?) as u32,
            0x17 | 0x37 => u32::from_le_bytes(self.load(a.wrapping_add(word.signed()))?),

            0x04 => a.wrapping_add(word.signed()),
            0x08 => u32::from((a as i32) >= (word.signed() as i32)),
            0x0C => a & word.unsigned(),
            0x10 => u32::from((a as i32) < (word.signed() as i32)),
            0x14 => a | word.unsigned(),
            0x18 => u32::from(a != word.signed()),
            0x1C => a ^ word.unsigned(),
            0x20 => u32::from(a == word.signed()),
            0x24 if self.settings.multiplier => a.wrapping_mul(word.signed()),
            0x24 => return Ok(self.exception()),
            0x28 => u32::from(a >= word.unsigned()),
            0x2C => a & word.high(),
            0x30 => u32::from(a < word.unsigned()),
            0x34 => a | word.high(),
            0x3C => a ^ word.high(),

            0x32 => return Err(reason::CUSTOM),
            0x33 | 0x3B => return Ok(next),
            0x3A => return self.execute_register(word, a, b, next),
            _ => return Err(reason::NOT_LISTED),
        };
        self.set(word.b(), value);
        Ok(next)
    }

    /// The R-type words.
    fn execute_register(&mut self, word: Word, a: u32, b: u32, next: u32) -> Result<u32, u32> {
        let value = match word.opx() {
            0x01 => {
                self.state.status = self.state.estatus;
                return Ok(self.state.registers[EA]);
            }
            0x05 => return Ok(self.state.registers[RA]),
            0x09 => {
                self.state.status = self.state.bstatus;
                return Ok(self.state.registers[BA]);
            }
            0x0D => return Ok(a),
            0x1D => {
                self.set(RA, next);
                return Ok(a);
            }
            0x2D => return Ok(self.exception()),
            0x34 => return Ok(self.break_entry()),
            0x2E => {
                self.write_control(word.small(), a)?;
                return Ok(next);
            }
            0x04 | 0x0C | 0x29 | 0x36 => return Ok(next),

            0x07 | 0x17 | 0x1F | 0x27 if !self.settings.multiplier => return Ok(self.exception()),
            0x24 | 0x25 if !self.settings.divider => return Ok(self.exception()),
            0x24 => a.checked_div(b).ok_or(reason::DIVISION)?,
            0x25 => (a as i32).checked_div(b as i32).ok_or(reason::DIVISION)? as u32,

            0x02 => a.rotate_left(word.small()),
            0x03 => a.rotate_left(b % 32),
            0x06 => !(a | b),
            0x07 => ((u64::from(a) * u64::from(b)) >> 32) as u32,
            0x08 => u32::from((a as i32) >= (b as i32)),
            0x0B => a.rotate_right(b % 32),
            0x0E => a & b,
            0x10 => u32::from((a as i32) < (b as i32)),
            0x12 => a << word.small(),
            0x13 => a << (b % 32),
            0x16 => a | b,
            0x17 => ((i64::from(a as i32) * i64::from(b)) >> 32) as u32,
            0x18 => u32::from(a != b),
            0x1A => a >> word.small(),
            0x1B => a >> (b % 32),
            0x1C => next,
            0x1E => a ^ b,
            0x1F => ((i64::from(a as i32) * i64::from(b as i32)) >> 32) as u32,
            0x20 => u32::from(a == b),
            0x26 => self.read_control(word.small())?,
            0x27 => a.wrapping_mul(b),
            0x28 => u32::from(a >= b),
            0x30 => u32::from(a < b),
            0x31 => a.wrapping_add(b),
            0x39 => a.wrapping_sub(b),
            0x3A => ((a as i32) >> word.small()) as u32,
            0x3B => ((a as i32) >> (b % 32)) as u32,
            _ => return Err(reason::NOT_LISTED),
        };
        self.set(word.c(), value);
        Ok(next)
    }

    fn set(&mut self, register: usize, value: u32) {
        if register != 0 {
            self.state.registers[register] = value;
        }
    }

    /// Interrupt, trap or unimplemented instruction; gives the next pc.
    fn exception(&mut self) -> u32 {
        self.state.estatus = self.state.status;
        self.state.status = 0;
        self.set(EA, self.state.pc.wrapping_add(4));
        self.settings.exception
    }

    fn break_entry(&mut self) -> u32 {
        self.state.bstatus = self.state.status;
        self.state.status = 0;
        self.set(BA, self.state.pc.wrapping_add(4));
        self.settings.break_address
    }

    fn read_control(&self, number: u32) -> Result<u32, u32> {
        match number {
            0 => Ok(self.state.status),
            1 => Ok(self.state.estatus),
            2 => Ok(self.state.bstatus),
            3 => Ok(self.state.ienable),
            4 => Ok(self.state.pending(self.lines)),
            5 => Ok(self.settings.cpuid),
            _ => Err(reason::NOT_LISTED),
        }
    }

    fn write_control(&mut self, number: u32, value: u32) -> Result<(), u32> {
        match number {
            0 => self.state.status = value & 1,
            1 => self.state.estatus = value & 1,
            2 => self.state.bstatus = value & 1,
            3 => self.state.ienable = value,
            4 | 5 => {}
            _ => return Err(reason::NOT_LISTED),
        }
        Ok(())
    }

    fn load<const WIDTH: usize>(&mut self, address: u32) -> Result<[u8; WIDTH], u32> {
        if !(address as usize).is_multiple_of(WIDTH) {
            return Err(reason::DATA_UNALIGNED);
        }
        self.read_bytes(address).ok_or(reason::DATA_OUTSIDE)
    }

    fn store<const WIDTH: usize>(&mut self, address: u32, bytes: [u8; WIDTH]) -> Result<(), u32> {
        let address = address as usize;
        if !address.is_multiple_of(WIDTH) {
            return Err(reason::DATA_UNALIGNED);
        }
        self.memory
            .get_mut(address..address + WIDTH)
            .ok_or(reason::DATA_OUTSIDE)?
            .copy_from_slice(&bytes);
        M::mark_written::<WIDTH>(self.written, address);
        Ok(())
    }

    /// Reads and marks the bytes, or gives nothing when one is outside.
    fn read_bytes<const WIDTH: usize>(&mut self, address: u32) -> Option<[u8; WIDTH]> {
        let address = address as usize;
        let mut bytes = [0; WIDTH];
        bytes.copy_from_slice(self.memory.get(address..address + WIDTH)?);
        M::mark_read::<WIDTH>(self.read, self.written, address);
        Some(bytes)
    }
}

fn branch(taken: bool, next: u32, word: Word) -> u32 {
    if taken {
        next.wrapping_add(word.signed())
    } else {
        next
    }
}
