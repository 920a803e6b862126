//! Part 5: demand 3 as an experiment on the archive.

use crate::archive;
use crate::bit;
use crate::check::case::{Case, Outcome};
use crate::check::programs::{self, Kind};
use crate::check::rng::Rng;
use crate::check::shrink::shrink;
use crate::check::words::{branch, immediate, op, opx, put, register, register_small};
use crate::check::{case_seed, spread, Tally};

const PROGRAMS: u64 = 4_000;
const READERS: u64 = 1_000;

/// One byte and the value it is given before the second run.
#[derive(Clone, Copy)]
struct Edit {
    address: usize,
    value: u8,
}

#[derive(Default)]
struct Gathered {
    tally: Tally,
    edited: u64,
    /// Of edits of a byte that was read first: how many were made and seen.
    marked: u64,
    seen: u64,
}

pub fn check(seed: u64) -> Tally {
    let unmarked = gather(PROGRAMS, case_seed(seed, 1 << 32), survive);
    let programs = gather(PROGRAMS, case_seed(seed, 2 << 32), any_program_sees);
    let mut readers = gather(READERS, case_seed(seed, 3 << 32), reader_sees);
    println!("  edited bytes that were not marked: {}", unmarked.edited);
    println!(
        "  edits of a marked byte seen: {} of {} by any programs, {} of {} by readers",
        programs.seen, programs.marked, readers.seen, readers.marked
    );
    let most = readers.seen * 2 > readers.marked;
    readers.tally.check(most, || {
        "part 5: edits of marked bytes mostly went unseen".into()
    });
    let mut tally = unmarked.tally;
    tally.add(&programs.tally);
    tally.add(&readers.tally);
    tally
}

fn gather(count: u64, seed: u64, work: fn(u64, &mut Gathered)) -> Gathered {
    let parts = spread(count, |index, gathered| {
        work(case_seed(seed, index), gathered);
    });
    let mut sum = Gathered::default();
    for part in &parts {
        sum.tally.add(&part.tally);
        sum.edited += part.edited;
        sum.marked += part.marked;
        sum.seen += part.seen;
    }
    sum
}

/// Edits of unmarked bytes, scattered and in a range that got a yes.
fn survive(seed: u64, gathered: &mut Gathered) {
    let mut rng = Rng::new(seed);
    let case = program(&mut rng);
    let first = case.on_archive();
    let scattered = scattered_edits(&mut rng, &case);
    check_survival(seed, &case, &scattered, gathered);
    for _ in 0..4 {
        let (start, end) = range(&mut rng, &first);
        let expected = (start..end).all(|address| !bit(&first.read, address));
        let length = case.memory.len() as u64;
        let answer = archive::edit(length, &first.read, start as u64, end as u64);
        gathered.tally.check(answer == Ok(expected), || {
            format!("part 5, seed {seed}: edit of {start}..{end} answered {answer:?}")
        });
        if answer == Ok(true) {
            let all: Vec<Edit> = (start..end)
                .map(|address| edit(&mut rng, &case, address))
                .collect();
            check_survival(seed, &case, &all, gathered);
        }
    }
}

fn program(rng: &mut Rng) -> Case {
    let kind = rng.pick(&[
        Kind::Plausible,
        Kind::Plausible,
        Kind::SelfModifying,
        Kind::Interrupted,
        Kind::Damaged,
        Kind::Noise,
    ]);
    let length = rng.pick(&[16, 64, 512, 1_024, 4_096, 4_096]);
    let mut case = programs::case(rng, kind, length);
    case.read.fill(0);
    case.written.fill(0);
    case.budget = case.budget.min(3_000);
    case
}

fn scattered_edits(rng: &mut Rng, case: &Case) -> Vec<Edit> {
    let every = rng.pick(&[1, 1, 3, 20, 300]);
    let mut edits = Vec::new();
    for address in 0..case.memory.len() {
        if rng.one_in(every) {
            edits.push(edit(rng, case, address));
        }
    }
    edits
}

/// An edit that changes the byte.
fn edit(rng: &mut Rng, case: &Case, address: usize) -> Edit {
    let change = if rng.one_in(2) {
        1 << rng.below(8)
    } else {
        rng.between(1, 255)
    };
    Edit {
        address,
        value: case.memory[address] ^ change as u8,
    }
}

/// A range, often between two bytes that were read.
fn range(rng: &mut Rng, outcome: &Outcome) -> (usize, usize) {
    let length = outcome.memory.len();
    let start = rng.below(length as u32 + 1) as usize;
    let marked = (start..length).find(|address| bit(&outcome.read, *address));
    let longest = match rng.below(3) {
        0 => length,
        1 => marked.unwrap_or(length),
        _ => (marked.unwrap_or(length) + 1).min(length),
    };
    let end = if rng.one_in(2) {
        longest
    } else {
        rng.between(start as u32, longest.max(start) as u32) as usize
    };
    (start, end.max(start))
}

fn check_survival(seed: u64, case: &Case, edits: &[Edit], gathered: &mut Gathered) {
    let kept = unmarked(&case.on_archive(), edits);
    gathered.edited += kept.len() as u64;
    gathered.tally.check(survives(case, edits), || {
        let small = shrink(case, &|smaller| !survives(smaller, edits));
        let edits = fewest(&small, edits);
        let places: Vec<usize> = edits.iter().map(|edit| edit.address).collect();
        format!(
            "part 5, seed {seed}: unmarked bytes {places:X?} edited, expected / archive\n    {}\n{}",
            expected(&small, &edits).difference(&edited(&small, &edits).on_archive()),
            small.describe()
        )
    });
}

/// Leaves out ever smaller runs of edits while the rest does not survive.
fn fewest(case: &Case, edits: &[Edit]) -> Vec<Edit> {
    let mut best = unmarked(&case.on_archive(), edits);
    let mut block = best.len().next_power_of_two();
    while block >= 1 {
        let mut start = 0;
        while start < best.len() {
            let mut fewer = best.clone();
            fewer.drain(start..best.len().min(start + block));
            if survives(case, &fewer) {
                start += block;
            } else {
                best = fewer;
            }
        }
        block /= 2;
    }
    best
}

/// The edits that demand 3 speaks of: of bytes the first run left unmarked.
fn unmarked(first: &Outcome, edits: &[Edit]) -> Vec<Edit> {
    let free = |edit: &&Edit| !bit(&first.read, edit.address);
    edits.iter().filter(free).copied().collect()
}

fn survives(case: &Case, edits: &[Edit]) -> bool {
    edited(case, edits).on_archive() == expected(case, edits)
}

fn edited(case: &Case, edits: &[Edit]) -> Case {
    let mut second = case.clone();
    for edit in unmarked(&case.on_archive(), edits) {
        second.memory[edit.address] = edit.value;
    }
    second
}

/// The first run's outcome, save edited bytes that nothing stored to.
fn expected(case: &Case, edits: &[Edit]) -> Outcome {
    let mut outcome = case.on_archive();
    for edit in unmarked(&outcome, edits) {
        if !bit(&outcome.written, edit.address) {
            outcome.memory[edit.address] = edit.value;
        }
    }
    outcome
}

fn any_program_sees(seed: u64, gathered: &mut Gathered) {
    let mut rng = Rng::new(seed);
    let case = program(&mut rng);
    count_seen(&mut rng, &case, gathered);
}

fn reader_sees(seed: u64, gathered: &mut Gathered) {
    let mut rng = Rng::new(seed);
    let case = reader(&mut rng);
    count_seen(&mut rng, &case, gathered);
}

/// Edits one byte that was read first and looks for any trace of it.
fn count_seen(rng: &mut Rng, case: &Case, gathered: &mut Gathered) {
    let first = case.on_archive();
    let marked: Vec<usize> = (0..case.memory.len())
        .filter(|address| bit(&first.read, *address))
        .collect();
    if marked.is_empty() {
        return;
    }
    let address = rng.pick(&marked);
    let edit = edit(rng, case, address);
    let mut second = case.clone();
    second.memory[edit.address] = edit.value;
    let mut second = second.on_archive();
    second.memory[edit.address] = first.memory[edit.address];
    gathered.marked += 1;
    gathered.seen += u64::from(second != first);
}

/// A program that mixes a table into r2, word by word, and uses its own code.
fn reader(rng: &mut Rng) -> Case {
    const TABLE: u32 = 0x100;
    let words = rng.between(4, 60);
    let mut case = Case::zeroed(1_024);
    rng.fill(&mut case.memory[TABLE as usize..]);
    let program = [
        immediate(op::ADDI, 0, 3, TABLE),
        immediate(op::ADDI, 0, 4, TABLE + 4 * words),
        immediate(op::LDW, 3, 5, 0),
        register_small(opx::ROLI, 2, 0, 2, 5),
        register(opx::XOR, 2, 5, 2),
        immediate(op::ADDI, 3, 3, 4),
        branch(op::BNE, 3, 4, 24, 8),
        immediate(op::STW, 0, 2, 0x80),
    ];
    for (address, word) in (0..).step_by(4).zip(program) {
        put(&mut case.memory, address, word);
    }
    case.budget = 2 + 5 * words + 1;
    case
}
