//! Times the archive against the second emulator, in one process.

use second::archive;
use second::check::case::{Case, Outcome};
use second::check::words::{get, op};
use second::measured::{LONG, PROGRAMS, SHORT};
use std::hint::black_box;
use std::time::{Duration, Instant};

const RUN_BUDGET: u32 = 1_000_000;
const RUNS: u32 = 20;
const ROUNDS: u32 = 5;

type Run = fn(&mut Outcome, &Case);

const EMULATORS: [(&str, Run); 3] = [
    ("archive", Outcome::run_archive),
    ("second, marks bit by bit", Outcome::run_second),
    ("second, marks at once", Outcome::run_second_fast),
];

fn main() {
    println!("{ROUNDS} rounds of {RUNS} runs of {RUN_BUDGET} steps each; ns per step, best round");
    for (name, program) in PROGRAMS {
        for length in [SHORT, LONG] {
            let title = format!("{name}, {length} bytes");
            compare(&title, &program(length, RUN_BUDGET));
        }
    }
    println!("the edit question over a clear map of {LONG} bytes; ns per question, best round");
    for (length, questions) in [(1, 1_000_000), (4_096, 20_000), (LONG as u64, 200)] {
        compare_edit(length, questions);
    }
}

fn compare(name: &str, case: &Case) {
    let mut best = [Duration::MAX; EMULATORS.len()];
    for round in 0..ROUNDS as usize {
        let mut outcomes = Vec::new();
        for turn in 0..EMULATORS.len() {
            let which = (round + turn) % EMULATORS.len();
            let (time, outcome) = time_runs(case, EMULATORS[which].1);
            best[which] = best[which].min(time);
            outcomes.push(outcome);
        }
        let equal = outcomes.windows(2).all(|pair| pair[0] == pair[1]);
        assert!(equal, "{name}: the results differ");
        let steps = outcomes[0].answer.steps;
        assert_eq!(steps, RUN_BUDGET, "{name}: a run stopped");
    }
    let names = EMULATORS.map(|(name, _)| name);
    print_times(name, &names, &best, f64::from(RUNS * RUN_BUDGET));
    println!("    {}", mix(case));
}

/// The time of all runs of one round, and what the last one left.
fn time_runs(case: &Case, run: Run) -> (Duration, Outcome) {
    let mut outcome = case.unchanged(0, 0);
    let start = Instant::now();
    for _ in 0..RUNS {
        run(&mut outcome, case);
    }
    (start.elapsed(), outcome)
}

/// Prints each time per unit, and the first as a multiple of the others.
fn print_times(title: &str, names: &[&str], times: &[Duration], units: f64) {
    let each: Vec<f64> = times
        .iter()
        .map(|time| time.as_secs_f64() * 1e9 / units)
        .collect();
    println!("{title}: {} {:.2}", names[0], each[0]);
    for (name, time) in names.iter().zip(&each).skip(1) {
        println!("    {name} {time:.2}, ratio {:.2}", each[0] / time);
    }
}

fn compare_edit(length: u64, questions: u32) {
    // An odd start, so that a map byte is cut at either end.
    let start = if length == LONG as u64 { 0 } else { 12_345 };
    let map = vec![0; LONG / 8];
    let mut best = [Duration::MAX; 2];
    for _ in 0..ROUNDS {
        let archive = time_questions(questions, || {
            archive::edit(LONG as u64, black_box(&map), start, start + length)
        });
        let second = time_questions(questions, || {
            second::edit(LONG as u64, black_box(&map), start, start + length)
        });
        best = [best[0].min(archive), best[1].min(second)];
    }
    let title = format!("edit of {length} bytes");
    print_times(
        &title,
        &["archive", "second, bit by bit"],
        &best,
        f64::from(questions),
    );
}

fn time_questions(questions: u32, ask: impl Fn() -> Result<bool, u32>) -> Duration {
    let start = Instant::now();
    for _ in 0..questions {
        assert_eq!(black_box(ask()), Ok(true), "the map is clear");
    }
    start.elapsed()
}

/// The share of each sort of instruction, counted over some steps.
fn mix(case: &Case) -> String {
    const STEPS: u32 = 100_000;
    let mut walk = case.unchanged(0, 0);
    let mut single = case.clone();
    single.budget = 1;
    let (mut immediates, mut loads, mut stores, mut branches) = (0, 0, 0, 0);
    for _ in 0..STEPS {
        let op = get(&walk.memory, walk.state.pc) & 0x3F;
        match op & 0x1F {
            0x03 | 0x07 | 0x0B | 0x0F | 0x17 => loads += 1,
            0x05 | 0x0D | 0x15 => stores += 1,
            0x06 | 0x0E | 0x16 | 0x1E => branches += 1,
            _ if op::ARITHMETIC.contains(&op) => immediates += 1,
            _ => {}
        }
        walk.run_second(&single);
    }
    let percent = |count: u32| f64::from(count) * 100.0 / f64::from(STEPS);
    format!(
        "{:.0} % immediate, {:.0} % loads, {:.0} % stores, {:.0} % branches, {:.0} % others",
        percent(immediates),
        percent(loads),
        percent(stores),
        percent(branches),
        percent(STEPS - immediates - loads - stores - branches)
    )
}
