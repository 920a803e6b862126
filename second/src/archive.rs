//! The proved archive `libnios2c.a` behind safe functions.

use crate::{Settings, State};

/// The number for a state or settings slice of another length than agreed.
pub const WRONG_LENGTH: u32 = 255;
/// r0 to r31, pc, status, estatus, bstatus, ienable.
pub const STATE_WORDS: usize = 37;
/// Reset, exception and break address, cpuid, multiplier, divider.
pub const SETTINGS_WORDS: usize = 6;
/// Number, steps.
pub const ANSWER_WORDS: usize = 2;

const EDIT_REFUSED: u32 = 256;

mod foreign {
    extern "C" {
        pub fn nios2_fresh(
            memory: *const u8,
            memory_length: usize,
            read: *mut u8,
            read_length: usize,
            written: *mut u8,
            written_length: usize,
            state: *mut u32,
            state_length: usize,
            settings: *const u32,
            settings_length: usize,
        ) -> u32;

        pub fn nios2_run(
            memory: *mut u8,
            memory_length: usize,
            read: *mut u8,
            read_length: usize,
            written: *mut u8,
            written_length: usize,
            state: *mut u32,
            state_length: usize,
            settings: *const u32,
            settings_length: usize,
            lines: u32,
            budget: u32,
            answer: *mut u32,
            answer_length: usize,
        );

        pub fn nios2_edit(
            memory_length: u64,
            read: *const u8,
            read_length: usize,
            start: u64,
            end: u64,
        ) -> u32;
    }
}

/// The archive's fresh start: 0, a refusal or `WRONG_LENGTH`.
pub fn fresh(
    memory: &[u8],
    read: &mut [u8],
    written: &mut [u8],
    state: &mut [u32],
    settings: &[u32],
) -> u32 {
    // SAFETY: every pointer comes with the length of the slice it was taken
    // from, and the slices that may be changed are borrowed for writing.
    unsafe {
        foreign::nios2_fresh(
            memory.as_ptr(),
            memory.len(),
            read.as_mut_ptr(),
            read.len(),
            written.as_mut_ptr(),
            written.len(),
            state.as_mut_ptr(),
            state.len(),
            settings.as_ptr(),
            settings.len(),
        )
    }
}

/// The archive's run, which writes its number and steps to `answer`.
#[allow(clippy::too_many_arguments)]
pub fn run(
    memory: &mut [u8],
    read: &mut [u8],
    written: &mut [u8],
    state: &mut [u32],
    settings: &[u32],
    lines: u32,
    budget: u32,
    answer: &mut [u32],
) {
    // SAFETY: as in `fresh`.
    unsafe {
        foreign::nios2_run(
            memory.as_mut_ptr(),
            memory.len(),
            read.as_mut_ptr(),
            read.len(),
            written.as_mut_ptr(),
            written.len(),
            state.as_mut_ptr(),
            state.len(),
            settings.as_ptr(),
            settings.len(),
            lines,
            budget,
            answer.as_mut_ptr(),
            answer.len(),
        );
    }
}

/// The archive's edit question: yes, no or a refusal.
///
/// # Panics
///
/// If the archive answers with a number that the interface does not know.
pub fn edit(memory_length: u64, read: &[u8], start: u64, end: u64) -> Result<bool, u32> {
    // SAFETY: as in `fresh`; the map is only read.
    let number =
        unsafe { foreign::nios2_edit(memory_length, read.as_ptr(), read.len(), start, end) };
    match number {
        0 => Ok(false),
        1 => Ok(true),
        _ => Err(number
            .checked_sub(EDIT_REFUSED)
            .expect("an edit answer is 0, 1 or 256 and a refusal")),
    }
}

/// A state in the order of the interface.
pub fn state_words(state: &State) -> [u32; STATE_WORDS] {
    let mut words = [0; STATE_WORDS];
    words[..32].copy_from_slice(&state.registers);
    words[32..].copy_from_slice(&[
        state.pc,
        state.status,
        state.estatus,
        state.bstatus,
        state.ienable,
    ]);
    words
}

/// The state that the words of the interface stand for.
pub fn state_from_words(words: &[u32; STATE_WORDS]) -> State {
    let mut registers = [0; 32];
    registers.copy_from_slice(&words[..32]);
    State {
        registers,
        pc: words[32],
        status: words[33],
        estatus: words[34],
        bstatus: words[35],
        ienable: words[36],
    }
}

/// The settings that the words of the interface stand for.
pub fn settings_from_words(words: &[u32; SETTINGS_WORDS]) -> Settings {
    Settings {
        reset: words[0],
        exception: words[1],
        break_address: words[2],
        cpuid: words[3],
        multiplier: words[4] != 0,
        divider: words[5] != 0,
    }
}
