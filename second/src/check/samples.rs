//! Part 2: the sample words of document 003, as single steps of both.

use crate::check::case::Case;
use crate::check::rng::Rng;
use crate::check::words::put;
use crate::check::{case_seed, spread, Tally};
use crate::reason;

const SAMPLES: &str = include_str!("../../data/chapter20.tsv");
const LENGTH: usize = 1_048_576;
/// Each word is run over this many states.
const STATES: u64 = 8;

/// One "Example:" line of the handbook's chapter 20.
struct Sample {
    word: u32,
    text: &'static str,
    pc: u32,
}

pub fn check(seed: u64) -> Tally {
    let samples = samples();
    let parts = spread(samples.len() as u64 * STATES, |index, tally: &mut Tally| {
        let sample = &samples[(index / STATES) as usize];
        let seed = case_seed(seed, index);
        let case = prepared(sample, index % STATES, &mut Rng::new(seed));
        let place = format!("part 2, seed {seed}, {}", sample.text);
        tally.compare(&place, &case);
        check_listed(tally, &place, sample, &case);
    });
    let mut tally = Tally::default();
    parts.iter().for_each(|part| tally.add(part));
    tally
}

fn samples() -> Vec<Sample> {
    SAMPLES
        .lines()
        .map(|line| {
            let fields: Vec<&str> = line.split('\t').collect();
            Sample {
                word: hex(fields[0]),
                text: fields[1],
                pc: hex(fields[3]),
            }
        })
        .collect()
}

fn hex(text: &str) -> u32 {
    u32::from_str_radix(text, 16).expect("a hex number")
}

fn prepared(sample: &Sample, round: u64, rng: &mut Rng) -> Case {
    let mut case = Case::zeroed(LENGTH);
    put(&mut case.memory, sample.pc, sample.word);
    case.state.pc = sample.pc;
    for register in 1..32 {
        case.state.registers[register] = rng.value();
    }
    // r5 is the base of the handbook's loads and stores, r8 its divisor.
    let base = 4 * rng.between(0, LENGTH as u32 / 4 - 200);
    case.state.registers[5] = base;
    case.state.registers[8] |= 4;
    rng.fill(&mut case.memory[base as usize + 100..][..8]);
    case.state.status = rng.below(2);
    case.state.estatus = rng.below(2);
    case.state.bstatus = rng.below(2);
    case.state.ienable = rng.word();
    case.settings[4] = u32::from(round < 6);
    case.settings[5] = u32::from(round % 4 < 3);
    case
}

/// Of the handbook's samples only three words are stopped by the paper.
fn check_listed(tally: &mut Tally, place: &str, sample: &Sample, case: &Case) {
    let expected = match sample.text {
        "rdctl r3, ctl31" | "wrctl ctl6, r3" => reason::NOT_LISTED,
        text if text.starts_with("custom") => reason::CUSTOM,
        _ => reason::BUDGET_SPENT,
    };
    let answer = case.on_archive().answer;
    let steps = u32::from(expected == reason::BUDGET_SPENT);
    let good = answer.number == expected && answer.steps == steps;
    tally.check(good, || format!("{place}: archive answers {answer:?}"));
}
