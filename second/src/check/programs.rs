//! Random cases: plausible programs, damaged ones, noise.

use crate::check::case::Case;
use crate::check::rng::Rng;
use crate::check::words::{
    branch, call, ctl, get, immediate, op, opx, put, register, register_small,
};
use crate::State;

const DATA_POINTERS: [u32; 4] = [16, 17, 18, 19];
const COUNTER: u32 = 20;
const WORD_HOLDERS: [u32; 3] = [21, 22, 23];
const CODE_POINTER: u32 = 25;
const EXCEPTION_TEMPORARY: u32 = 24;
const EA: u32 = 29;
const BA: u32 = 30;
const RA: u32 = 31;

/// Shorter memories have no room for a program with handlers.
const SHORTEST_LAID_OUT: u32 = 256;
/// How far a load or store may lie from its pointer.
const REACH: u32 = 64;

#[derive(Clone, Copy, PartialEq, Eq)]
pub enum Kind {
    Plausible,
    Damaged,
    SelfModifying,
    Interrupted,
    Noise,
}

/// Where a program keeps its parts.
struct Layout {
    code: u32,
    code_end: u32,
    data: u32,
    data_end: u32,
}

/// A case of the given kind over memory of an accepted length.
pub fn case(rng: &mut Rng, kind: Kind, length: u32) -> Case {
    let mut case = Case::zeroed(length as usize);
    if kind == Kind::Noise || length < SHORTEST_LAID_OUT {
        fill_with_noise(rng, &mut case);
    } else {
        lay_out_program(rng, kind, &mut case);
    }
    if kind == Kind::Interrupted {
        interrupt(rng, &mut case);
    } else if rng.one_in(4) {
        case.lines = rng.word() & rng.word();
        case.state.ienable = rng.word() & rng.word();
        case.state.status = rng.below(2);
    }
    case.state.estatus = rng.below(2);
    case.state.bstatus = rng.below(2);
    if rng.one_in(8) {
        case.settings[4] = 0;
    }
    if rng.one_in(8) {
        case.settings[5] = 0;
    }
    for present in &mut case.settings[4..] {
        if *present != 0 {
            *present = rng.pick(&[1, 1, 2, 0x8000_0000]);
        }
    }
    case.settings[3] = rng.value();
    fill_maps(rng, &mut case);
    case.budget = budget(rng);
    case
}

fn budget(rng: &mut Rng) -> u32 {
    match rng.below(100) {
        0 => 0,
        1..=9 => 1,
        10..=29 => rng.between(2, 30),
        30..=69 => rng.between(30, 600),
        70..=97 => rng.between(600, 6_000),
        _ => rng.between(6_000, 40_000),
    }
}

fn fill_maps(rng: &mut Rng, case: &mut Case) {
    for map in [&mut case.read, &mut case.written] {
        match rng.below(4) {
            0 => rng.fill(map),
            1 => {
                for _ in 0..8 {
                    let place = rng.below(map.len() as u32) as usize;
                    map[place] |= 1 << rng.below(8);
                }
            }
            _ => {}
        }
    }
}

fn interrupt(rng: &mut Rng, case: &mut Case) {
    let line = 1 << rng.below(32);
    let others = rng.word() & rng.word();
    match rng.below(3) {
        0 => (case.lines, case.state.ienable) = (line, line),
        1 => (case.lines, case.state.ienable) = (line | others, line),
        _ => (case.lines, case.state.ienable) = (line, line | others),
    }
    case.state.status = u32::from(!rng.one_in(4));
    if rng.one_in(8) {
        let anywhere = rng.word();
        case.state.pc = rng.pick(&[anywhere, 0xFFFF_FFFC, 0xFFFF_FFFE]);
    }
}

fn fill_with_noise(rng: &mut Rng, case: &mut Case) {
    let length = case.memory.len() as u32;
    let whole = Layout {
        code: 0,
        code_end: length,
        data: 0,
        data_end: length,
    };
    if rng.one_in(3) {
        rng.fill(&mut case.memory);
    } else {
        for pc in (0..length.min(4_096)).step_by(4) {
            put(&mut case.memory, pc, instruction(rng, &whole, pc));
        }
    }
    for start in &mut case.settings[..3] {
        *start = 4 * rng.below(length / 4);
    }
    set_registers(rng, &whole, &mut case.state);
    case.state.pc = match rng.below(8) {
        0 => rng.word(),
        1 => rng.below(length + 8),
        2 => rng.pick(&[length - 4, length - 2, length, 0xFFFF_FFFC]),
        _ => 4 * rng.below(length.min(4_096) / 4),
    };
}

fn lay_out_program(rng: &mut Rng, kind: Kind, case: &mut Case) {
    let length = case.memory.len() as u32;
    let layout = layout(rng, length);
    rng.fill(&mut case.memory[layout.data as usize..layout.data_end as usize]);
    let handlers = layout.code_end - 40;
    write_main(rng, &layout, handlers, case);
    write_handlers(rng, handlers, case);
    set_registers(rng, &layout, &mut case.state);
    if kind == Kind::SelfModifying {
        aim_at_code(rng, &layout, &mut case.state);
    }
    if kind == Kind::Damaged {
        damage(rng, &layout, &mut case.memory);
    }
    case.state.pc = match rng.below(40) {
        0 => rng.below(length),
        1 => rng.word(),
        2..=8 => layout.code + 4 * rng.below((layout.code_end - layout.code) / 4),
        _ => layout.code,
    };
    case.settings[0] = 4 * rng.below(length / 4);
}

/// An image for the program `nios2`: its exceptions and breaks go to 32, and
/// it has to load the registers that the other programs are handed.
pub fn image(rng: &mut Rng, kind: Kind, length: u32) -> Vec<u8> {
    const HANDLER: u32 = 32;
    const PROLOGUE: u32 = 64;
    const MAIN: u32 = 160;
    let mut case = Case::zeroed(length as usize);
    let code_end = MAIN + 4 * rng.between(20, (length / 8).min(150) - 20);
    let layout = Layout {
        code: MAIN,
        code_end,
        data: code_end,
        data_end: length,
    };
    rng.fill(&mut case.memory[layout.data as usize..]);
    put(&mut case.memory, 0, branch(op::BR, 0, 0, 0, PROLOGUE));
    write_handlers(rng, HANDLER, &mut case);
    set_registers(rng, &layout, &mut case.state);
    if kind == Kind::SelfModifying {
        aim_at_code(rng, &layout, &mut case.state);
    }
    let prologue = prologue(&case.state);
    for (address, word) in (PROLOGUE..MAIN).step_by(4).zip(prologue) {
        put(&mut case.memory, address, word);
    }
    write_main(rng, &layout, layout.code_end, &mut case);
    if kind == Kind::Damaged {
        damage(rng, &layout, &mut case.memory);
    }
    case.memory
}

/// Twenty-four words that load the registers programs rely on and some more.
fn prologue(state: &State) -> Vec<u32> {
    let high = |to: u32| immediate(op::ORHI, 0, to, state.registers[to as usize] >> 16);
    let low = |from: u32, to: u32| immediate(op::ORI, from, to, state.registers[to as usize]);
    let pointers = DATA_POINTERS.into_iter().chain([CODE_POINTER]);
    let mut words: Vec<u32> = pointers.map(|to| low(0, to)).collect();
    for to in WORD_HOLDERS.into_iter().chain([1, 2, 3, 4]) {
        words.extend([high(to), low(to, to)]);
    }
    words.extend([5, 6, 7, 8, 9].map(|to| low(0, to)));
    words
}

fn layout(rng: &mut Rng, length: u32) -> Layout {
    let size = 4 * rng.between(20, (length / 8).min(150));
    let code = if rng.one_in(2) {
        0
    } else {
        4 * rng.below((length / 2 - size) / 4 + 1)
    };
    let code_end = code + size;
    let data = code_end;
    let data_end = if rng.one_in(4) {
        length
    } else {
        length.min(data + rng.between(2, 256) * 16)
    };
    Layout {
        code,
        code_end,
        data,
        data_end,
    }
}

fn write_main(rng: &mut Rng, layout: &Layout, end: u32, case: &mut Case) {
    let mut pc = layout.code;
    while pc < end - 4 {
        let room = (end - 4 - pc) / 4;
        let words = if room > 8 && rng.one_in(12) {
            counted_loop(rng, layout, pc)
        } else {
            vec![instruction(rng, layout, pc)]
        };
        for word in words {
            put(&mut case.memory, pc, word);
            pc += 4;
        }
    }
    put(&mut case.memory, pc, branch(op::BR, 0, 0, pc, layout.code));
}

fn counted_loop(rng: &mut Rng, layout: &Layout, pc: u32) -> Vec<u32> {
    let mut words = vec![immediate(op::ADDI, 0, COUNTER, rng.between(2, 20))];
    let body = rng.between(1, 5);
    for k in 0..body {
        words.push(instruction(rng, layout, pc + 4 + 4 * k));
    }
    words.push(immediate(op::ADDI, COUNTER, COUNTER, u32::MAX));
    let end = pc + 8 + 4 * body;
    words.push(branch(op::BNE, COUNTER, 0, end, pc + 4));
    words
}

/// Six words for exceptions, four for breaks.
fn write_handlers(rng: &mut Rng, start: u32, case: &mut Case) {
    let eret = register(opx::ERET, EA, 0, 0);
    let back = immediate(op::ADDI, EA, EA, 4u32.wrapping_neg());
    let pending = register_small(opx::RDCTL, 0, 0, EXCEPTION_TEMPORARY, ctl::IPENDING);
    let skip = immediate(op::BEQ, EXCEPTION_TEMPORARY, 0, 4);
    let disable = register_small(opx::WRCTL, 0, 0, 0, ctl::IENABLE);
    let count = immediate(op::ADDI, 15, 15, 1);
    let exception = match rng.below(4) {
        0 => vec![count, eret],
        1 => vec![count, back, eret],
        2 => vec![pending, skip, back, count, eret],
        _ => vec![pending, skip, back, count, disable, eret],
    };
    let bret = register(opx::BRET, BA, 0, 0);
    for (address, word) in (start..).step_by(4).zip(exception) {
        put(&mut case.memory, address, word);
    }
    for (address, word) in (start + 24..).step_by(4).zip([count, bret]) {
        put(&mut case.memory, address, word);
    }
    case.settings[1] = start;
    case.settings[2] = start + 24;
}

fn set_registers(rng: &mut Rng, layout: &Layout, state: &mut State) {
    for register in 1..32 {
        state.registers[register] = rng.value();
    }
    for pointer in DATA_POINTERS {
        state.registers[pointer as usize] = data_address(rng, layout);
    }
    for register in [CODE_POINTER, EA, BA, RA] {
        let words = (layout.code_end - layout.code) / 4;
        state.registers[register as usize] = layout.code + 4 * rng.below(words);
    }
    for holder in WORD_HOLDERS {
        state.registers[holder as usize] = instruction(rng, layout, layout.code);
    }
}

/// An address from which all that is in reach lies in the data.
fn data_address(rng: &mut Rng, layout: &Layout) -> u32 {
    let size = layout.data_end - layout.data;
    if size <= 2 * REACH {
        return (layout.data + size / 2) & !3;
    }
    layout.data + REACH + 4 * rng.below((size - 2 * REACH) / 4)
}

fn aim_at_code(rng: &mut Rng, layout: &Layout, state: &mut State) {
    for pointer in &DATA_POINTERS[..2] {
        let words = (layout.code_end - layout.code) / 4;
        state.registers[*pointer as usize] = layout.code + 4 * rng.below(words);
    }
}

/// Turns over one bit in each of a few words.
fn damage(rng: &mut Rng, layout: &Layout, memory: &mut [u8]) {
    for _ in 0..rng.between(1, 3) {
        let address = layout.code + 4 * rng.below((layout.code_end - layout.code) / 4);
        let word = get(memory, address) ^ 1 << rng.below(32);
        put(memory, address, word);
    }
}

/// One instruction, weighted as in programs, that is to stand at `pc`.
fn instruction(rng: &mut Rng, layout: &Layout, pc: u32) -> u32 {
    match rng.below(1_000) {
        0..=279 => immediate(
            rng.pick(&op::ARITHMETIC),
            source(rng),
            destination(rng),
            rng.word(),
        ),
        280..=399 => arithmetic(rng, &opx::ARITHMETIC),
        400..=459 => arithmetic(rng, &opx::SHIFTS),
        460..=619 => load(rng),
        620..=719 => store(rng),
        720..=839 => {
            let target = code_address(rng, layout);
            branch(
                rng.pick(&op::BRANCHES),
                source(rng),
                source(rng),
                pc,
                target,
            )
        }
        840..=849 => branch(op::BR, 0, 0, pc, code_address(rng, layout)),
        850..=874 => call(code_address(rng, layout)),
        875..=894 => jump(rng),
        895..=919 => arithmetic(rng, &opx::PRODUCTS),
        920..=927 => immediate(op::MULI, source(rng), destination(rng), rng.word()),
        928..=939 => arithmetic(rng, &opx::QUOTIENTS),
        940..=949 => system(rng),
        950..=979 => control(rng),
        980..=985 => register_small(
            opx::NEXTPC,
            any(rng),
            any(rng),
            destination(rng),
            rng.below(32),
        ),
        986..=997 => cache(rng),
        998 => immediate(op::CUSTOM, any(rng), any(rng), rng.word()),
        _ => rng.word(),
    }
}

fn arithmetic(rng: &mut Rng, among: &[u32]) -> u32 {
    let opx = rng.pick(among);
    register_small(
        opx,
        source(rng),
        source(rng),
        destination(rng),
        rng.below(32),
    )
}

fn load(rng: &mut Rng) -> u32 {
    let (op, width) = rng.pick(&[
        (op::LDW, 4),
        (op::LDW, 4),
        (op::LDH, 2),
        (op::LDHU, 2),
        (op::LDB, 1),
        (op::LDBU, 1),
    ]);
    let base = rng.pick(&DATA_POINTERS);
    let to = if rng.one_in(20) { 0 } else { destination(rng) };
    immediate(with_io(rng, op), base, to, offset(rng, width))
}

fn store(rng: &mut Rng) -> u32 {
    let (op, width) = rng.pick(&[(op::STW, 4), (op::STW, 4), (op::STH, 2), (op::STB, 1)]);
    let base = rng.pick(&DATA_POINTERS);
    let from = if rng.one_in(3) {
        rng.pick(&WORD_HOLDERS)
    } else {
        source(rng)
    };
    immediate(with_io(rng, op), base, from, offset(rng, width))
}

fn with_io(rng: &mut Rng, op: u32) -> u32 {
    if rng.one_in(4) {
        op | op::IO
    } else {
        op
    }
}

/// An aligned offset within reach, with now and then a wild one.
fn offset(rng: &mut Rng, width: u32) -> u32 {
    if rng.one_in(200) {
        return rng.word();
    }
    (width * rng.below(2 * REACH / width)).wrapping_sub(REACH)
}

fn jump(rng: &mut Rng) -> u32 {
    let opx = rng.pick(&[opx::CALLR, opx::JMP, opx::RET]);
    let through = if rng.one_in(40) {
        any(rng)
    } else {
        CODE_POINTER
    };
    register_small(opx, through, any(rng), any(rng), rng.below(32))
}

fn system(rng: &mut Rng) -> u32 {
    let opx = rng.pick(&[opx::TRAP, opx::TRAP, opx::BREAK, opx::ERET, opx::BRET]);
    register_small(opx, any(rng), any(rng), any(rng), rng.below(32))
}

fn control(rng: &mut Rng) -> u32 {
    let number = if rng.one_in(60) {
        rng.below(32)
    } else {
        rng.pick(&[ctl::STATUS, ctl::STATUS, 1, 2, ctl::IENABLE, 4, 5])
    };
    let opx = rng.pick(&[opx::RDCTL, opx::WRCTL]);
    register_small(opx, source(rng), any(rng), destination(rng), number)
}

fn cache(rng: &mut Rng) -> u32 {
    match rng.below(3) {
        0 => immediate(op::INITD, any(rng), any(rng), rng.word()),
        1 => immediate(op::FLUSHD, any(rng), any(rng), rng.word()),
        _ => arithmetic(rng, &opx::CACHE),
    }
}

fn code_address(rng: &mut Rng, layout: &Layout) -> u32 {
    layout.code + 4 * rng.below((layout.code_end - layout.code) / 4)
}

fn any(rng: &mut Rng) -> u32 {
    rng.below(32)
}

fn source(rng: &mut Rng) -> u32 {
    if rng.one_in(4) {
        any(rng)
    } else {
        rng.below(16)
    }
}

/// Mostly a register that nothing else relies on.
fn destination(rng: &mut Rng) -> u32 {
    if rng.one_in(60) {
        any(rng)
    } else {
        rng.between(1, 15)
    }
}
