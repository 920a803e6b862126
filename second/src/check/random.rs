//! Part 4: seeded random calls of everything, in full.

use crate::archive;
use crate::check::case::{Case, Outcome};
use crate::check::programs::{self, Kind};
use crate::check::rng::Rng;
use crate::check::words::{op, put};
use crate::check::{case_seed, spread, Tally};
use crate::{bit, reason, refusal};
use std::array::from_fn;

/// How many calls of each sort are made.
pub struct Counts {
    pub runs: u64,
    pub sweeps: u64,
    pub refusals: u64,
    pub starts: u64,
    pub edits: u64,
    pub lengths: u64,
}

impl Default for Counts {
    fn default() -> Self {
        Counts {
            runs: 60_000,
            sweeps: 6,
            refusals: 4_000,
            starts: 4_000,
            edits: 20_000,
            lengths: 400,
        }
    }
}

/// What the random calls came upon.
#[derive(Default)]
pub struct Reached {
    tally: Tally,
    steps: u64,
    /// By number: refusals 1 to 6, reasons 0 and 10 to 17.
    numbers: [u64; 18],
    /// Interrupt entries that one line alone caused.
    entries: [u64; 32],
}

impl Reached {
    fn add(&mut self, other: &Reached) {
        self.tally.add(&other.tally);
        self.steps += other.steps;
        self.numbers = from_fn(|k| self.numbers[k] + other.numbers[k]);
        self.entries = from_fn(|k| self.entries[k] + other.entries[k]);
    }

    fn count(&mut self, number: u32) {
        self.numbers[number as usize] += 1;
    }
}

/// One sort of call: its name, how many are made, and what one checks.
type Sort = (&'static str, u64, fn(u64, &mut Reached));

pub fn check(seed: u64, counts: &Counts) -> Tally {
    let sorts: [Sort; 6] = [
        ("runs", counts.runs, check_run),
        ("single words", counts.sweeps * 64 * 64, check_word),
        ("refusals", counts.refusals, check_refusal),
        ("fresh starts", counts.starts, check_fresh),
        ("edit questions", counts.edits, check_edit),
        ("wrong slice lengths", counts.lengths, check_lengths),
    ];
    let mut reached = Reached::default();
    for (block, (name, count, work)) in (1u64..).zip(sorts) {
        let seed = case_seed(seed, block << 32);
        let parts = spread(count, |index, gathered: &mut Reached| {
            work(case_seed(seed, index), gathered);
        });
        let before = reached.tally.passed;
        parts.iter().for_each(|part| reached.add(part));
        let passed = reached.tally.passed - before;
        println!("  {name}: {count}, {passed} checks passed");
    }
    check_coverage(&mut reached);
    reached.tally
}

fn check_run(seed: u64, reached: &mut Reached) {
    let mut rng = Rng::new(seed);
    let kind = rng.pick(&[
        Kind::Plausible,
        Kind::Plausible,
        Kind::Plausible,
        Kind::Damaged,
        Kind::SelfModifying,
        Kind::Interrupted,
        Kind::Interrupted,
        Kind::Noise,
    ]);
    let length = memory_length(&mut rng);
    let case = programs::case(&mut rng, kind, length);
    let outcome = case.on_second();
    reached.count(outcome.answer.number);
    reached.steps += u64::from(outcome.answer.steps);
    reached
        .tally
        .compare(&format!("part 4, run, seed {seed}"), &case);
    check_fast(seed, &case, &outcome, reached);
    if case.lines != 0 {
        count_entries(&case, reached);
    }
    if rng.one_in(8) {
        check_split(seed, &mut rng, &case, reached);
    }
}

/// The benchmark's yardstick is the same emulator.
fn check_fast(seed: u64, case: &Case, outcome: &Outcome, reached: &mut Reached) {
    let mut fast = case.unchanged(0, 0);
    fast.run_second_fast(case);
    reached.tally.check(fast == *outcome, || {
        let difference = outcome.difference(&fast);
        format!("part 4, run, seed {seed}: second, bit by bit / fast\n    {difference}")
    });
}

fn memory_length(rng: &mut Rng) -> u32 {
    match rng.below(1_000) {
        0..=39 => 8,
        40..=79 => 16,
        80..=119 => 8 * rng.between(3, 31),
        120..=499 => 8 * rng.between(32, 256),
        500..=959 => 4_096,
        960..=991 => 8 * rng.between(513, 8_192),
        992..=995 => 1_048_576,
        _ => 1_048_576 - 8 * rng.between(1, 1_000),
    }
}

/// Walks the run step by step and counts who interrupts it.
fn count_entries(case: &Case, reached: &mut Reached) {
    const WALKED: u32 = 100;
    if case.memory.len() > 8_192 {
        return;
    }
    let mut walk = case.unchanged(0, 0);
    let settings = archive::settings_from_words(&case.settings);
    for _ in 0..case.budget.min(WALKED) {
        let pending = walk.state.pending(case.lines);
        let entered = walk.state.interrupted(case.lines) && pending.is_power_of_two();
        let answer = crate::run(
            &mut walk.memory,
            &mut walk.read,
            &mut walk.written,
            &mut walk.state,
            &settings,
            case.lines,
            1,
        );
        if answer.steps == 0 {
            return;
        }
        if entered {
            reached.entries[pending.trailing_zeros() as usize] += 1;
        }
    }
}

/// A run in two pieces ends like the whole one.
fn check_split(seed: u64, rng: &mut Rng, case: &Case, reached: &mut Reached) {
    let whole = case.on_archive();
    let first_budget = rng.between(0, case.budget);
    let mut first = case.clone();
    first.budget = first_budget;
    let first = first.on_archive();
    let mut joined = first.clone();
    if first.answer.number == reason::BUDGET_SPENT {
        joined = case
            .continued(first, case.budget - first_budget)
            .on_archive();
        joined.answer.steps += first_budget;
    }
    reached.tally.check(whole == joined, || {
        format!(
            "part 4, run, seed {seed}: archive, whole / in two pieces after {first_budget}\n    {}\n{}",
            whole.difference(&joined),
            case.describe()
        )
    });
}

/// Every OP and OPX in turn, whatever stands in the other fields.
fn check_word(seed: u64, reached: &mut Reached) {
    let mut rng = Rng::new(seed);
    let index = seed as u32;
    let opx = index / 64 % 64;
    let op = match index / 4_096 % 2 {
        0 => op::REGISTER,
        _ => index % 64,
    };
    let mut case = programs::case(&mut rng, Kind::Noise, 128);
    let word = rng.word() & !0x0001_F83F | opx << 11 | op;
    case.state.pc = 4 * rng.below(32);
    case.state.status = 0;
    case.budget = 1;
    put(&mut case.memory, case.state.pc, word);
    if rng.one_in(2) {
        let base = (word >> 27) as usize;
        let offset = (word >> 6) as u16 as i16 as u32;
        let near = rng.below(152).wrapping_sub(offset).wrapping_sub(8);
        case.state.registers[base] = if base == 0 { 0 } else { near };
    }
    reached.count(case.on_second().answer.number);
    reached.tally.compare(
        &format!("part 4, word, seed {seed}, word {word:08X}"),
        &case,
    );
}

/// A case with one thing or several that are not accepted.
fn check_refusal(seed: u64, reached: &mut Reached) {
    let mut rng = Rng::new(seed);
    let mut case = programs::case(&mut rng, Kind::Plausible, 512);
    for _ in 0..rng.between(1, 3) {
        spoil(&mut rng, &mut case);
    }
    let answer = case.on_second().answer;
    reached.count(answer.number);
    reached
        .tally
        .compare(&format!("part 4, refusal, seed {seed}"), &case);
}

fn spoil(rng: &mut Rng, case: &mut Case) {
    match rng.below(5) {
        0 => case.memory.resize(wrong_memory_length(rng), 0),
        1 => {
            let length = wrong_map_length(rng, case.memory.len() / 8);
            let map = if rng.one_in(2) {
                &mut case.read
            } else {
                &mut case.written
            };
            map.resize(length, 0xA5);
        }
        2 => {
            let which = rng.below(3) as usize;
            case.settings[which] = wrong_start(rng, case.memory.len() as u32);
        }
        3 => match rng.below(4) {
            0 => case.state.registers[0] = rng.value() | 1,
            1 => case.state.status = rng.value() | 2,
            2 => case.state.estatus = rng.value() | 2,
            _ => case.state.bstatus = rng.value() | 2,
        },
        _ => case.budget = rng.pick(&[1_000_001, 1_000_000, 0, 0x8000_0000, u32::MAX]),
    }
}

fn wrong_memory_length(rng: &mut Rng) -> usize {
    match rng.below(8) {
        0 => rng.below(8) as usize,
        1 => 1_048_576 + rng.between(1, 16) as usize,
        2 => 1_048_584,
        _ => rng.below(1_000) as usize,
    }
}

fn wrong_map_length(rng: &mut Rng, right: usize) -> usize {
    match rng.below(4) {
        0 => 0,
        1 => right + 1,
        2 => right.saturating_sub(1),
        _ => rng.below(200) as usize,
    }
}

fn wrong_start(rng: &mut Rng, length: u32) -> u32 {
    match rng.below(6) {
        0 => length,
        1 => length.wrapping_sub(4),
        2 => length.wrapping_sub(2),
        3 => 0xFFFF_FFFC,
        4 => rng.below(length + 16),
        _ => rng.word(),
    }
}

fn check_fresh(seed: u64, reached: &mut Reached) {
    let mut rng = Rng::new(seed);
    let mut case = programs::case(&mut rng, Kind::Plausible, 256);
    for _ in 0..rng.below(3) {
        spoil(&mut rng, &mut case);
    }
    let mut second = case.unchanged(0, 0);
    second.answer.number = crate::fresh(
        &second.memory,
        &mut second.read,
        &mut second.written,
        &mut second.state,
        &archive::settings_from_words(&case.settings),
    );
    let mut proved = case.unchanged(0, 0);
    let mut words = archive::state_words(&case.state);
    proved.answer.number = archive::fresh(
        &proved.memory,
        &mut proved.read,
        &mut proved.written,
        &mut words,
        &case.settings,
    );
    proved.state = archive::state_from_words(&words);
    reached.tally.check(second == proved, || {
        format!(
            "part 4, fresh start, seed {seed}: second / archive\n    {}\n{}",
            second.difference(&proved),
            case.describe()
        )
    });
}

fn check_edit(seed: u64, reached: &mut Reached) {
    let mut rng = Rng::new(seed);
    let mut length = u64::from(memory_length(&mut rng).min(65_536));
    let mut map = vec![0; length as usize / 8];
    if rng.one_in(2) {
        for _ in 0..rng.between(1, 4) {
            let place = rng.below(map.len() as u32) as usize;
            map[place] |= 1 << rng.below(8);
        }
    }
    let (start, end) = range(&mut rng, length, &map);
    match rng.below(12) {
        0 => map.push(0),
        1 => length = rng.pick(&[0, 4, 12, 1_048_584, 1 << 32, 1 << 63, u64::MAX - 7]),
        _ => {}
    }
    let second = crate::edit(length, &map, start, end);
    let proved = archive::edit(length, &map, start, end);
    if let Err(number) = second {
        reached.count(number);
    }
    reached.tally.check(second == proved, || {
        format!(
            "part 4, edit question, seed {seed}: length {length}, map of {} bytes, \
             {start}..{end}: second {second:?}, archive {proved:?}",
            map.len()
        )
    });
}

/// A range, often one that ends or starts beside a set bit.
fn range(rng: &mut Rng, length: u64, map: &[u8]) -> (u64, u64) {
    let any = |rng: &mut Rng| u64::from(rng.below(length as u32 + 1));
    let set = (0..map.len() * 8).find(|k| bit(map, *k));
    match (rng.below(8), set) {
        (0, _) if rng.one_in(2) => (rng.long(), rng.long()),
        (0, _) => (any(rng), rng.long()),
        (1, _) => (any(rng), any(rng)),
        (2, _) => (length, length + u64::from(rng.below(2))),
        (3, Some(k)) => (0, k as u64 + u64::from(rng.below(2))),
        (4, Some(k)) => (k as u64, k as u64 + 1),
        (5, Some(k)) => (k as u64 + 1, (k as u64 + 8).min(length)),
        _ => {
            let (one, other) = (any(rng), any(rng));
            (one.min(other), one.max(other))
        }
    }
}

/// State, settings or answer of another length: 255, or nothing at all.
fn check_lengths(seed: u64, reached: &mut Reached) {
    let mut rng = Rng::new(seed);
    let case = programs::case(&mut rng, Kind::Plausible, 256);
    let mut state = archive::state_words(&case.state).to_vec();
    state.resize(length_near(&mut rng, archive::STATE_WORDS), 3);
    let mut settings = case.settings.to_vec();
    settings.resize(length_near(&mut rng, archive::SETTINGS_WORDS), 3);
    let answer = vec![7; length_near(&mut rng, archive::ANSWER_WORDS)];
    let right = state.len() == archive::STATE_WORDS && settings.len() == archive::SETTINGS_WORDS;
    if !right {
        let good = fresh_is_refused(&case, &state, &settings);
        reached.tally.check(good, || {
            format!("part 4, slice lengths, fresh start, seed {seed}")
        });
    }
    if !right || answer.len() != archive::ANSWER_WORDS {
        let good = run_is_refused(&case, &state, &settings, &answer);
        reached
            .tally
            .check(good, || format!("part 4, slice lengths, run, seed {seed}"));
    }
}

fn fresh_is_refused(case: &Case, state: &[u32], settings: &[u32]) -> bool {
    let mut after = case.unchanged(0, 0);
    let mut state_after = state.to_vec();
    let number = archive::fresh(
        &after.memory,
        &mut after.read,
        &mut after.written,
        &mut state_after,
        settings,
    );
    number == archive::WRONG_LENGTH && state_after == state && after == case.unchanged(0, 0)
}

fn run_is_refused(case: &Case, state: &[u32], settings: &[u32], answer: &[u32]) -> bool {
    let mut after = case.unchanged(0, 0);
    let mut state_after = state.to_vec();
    let mut answer_after = answer.to_vec();
    archive::run(
        &mut after.memory,
        &mut after.read,
        &mut after.written,
        &mut state_after,
        settings,
        case.lines,
        case.budget,
        &mut answer_after,
    );
    let expected = match answer.len() {
        archive::ANSWER_WORDS => &[archive::WRONG_LENGTH, 0],
        _ => answer,
    };
    answer_after == expected && state_after == state && after == case.unchanged(0, 0)
}

fn length_near(rng: &mut Rng, right: usize) -> usize {
    match rng.below(8) {
        0 => 0,
        1 => right - 1,
        2 => right + 1,
        3 => rng.below(64) as usize,
        _ => right,
    }
}

fn check_coverage(reached: &mut Reached) {
    println!("  steps made: {}", reached.steps);
    println!("  refusals 1 to 6: {:?}", &reached.numbers[1..=6]);
    println!(
        "  reasons 0 and 10 to 16: {} {:?}; 17 cannot follow an accepted start",
        reached.numbers[0],
        &reached.numbers[10..=16]
    );
    println!("  entries by line: {:?}", reached.entries);
    let refusals = refusal::MEMORY_LENGTH..=refusal::RANGE;
    let stops = reason::PC_UNALIGNED..=reason::DATA_OUTSIDE;
    for number in refusals.chain(stops).chain([reason::BUDGET_SPENT]) {
        let count = reached.numbers[number as usize];
        reached.tally.check(count > 0, || {
            format!("part 4: number {number} never reached")
        });
    }
    for line in 0..32 {
        let count = reached.entries[line];
        reached.tally.check(count > 0, || {
            format!("part 4: line {line} never interrupted")
        });
    }
}
