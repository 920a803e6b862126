//! Part 3: what QEMU did with single instructions, against both.

use crate::check::case::{Case, Outcome};
use crate::check::words::put;
use crate::check::{spread, Tally};
use crate::State;

const FILES: [(&str, &str); 2] = [
    ("single.txt", include_str!("../../data/single.txt")),
    ("system.txt", include_str!("../../data/system.txt")),
];
const LENGTH: usize = 1_048_576;

/// Buffers of a megabyte that one worker uses for line after line.
struct Bench {
    tally: Tally,
    case: Case,
    expected: Outcome,
    second: Outcome,
    archive: Outcome,
}

impl Default for Bench {
    fn default() -> Self {
        let case = Case::zeroed(LENGTH);
        Bench {
            tally: Tally::default(),
            expected: case.unchanged(0, 0),
            second: case.unchanged(0, 0),
            archive: case.unchanged(0, 0),
            case,
        }
    }
}

pub fn check() -> Tally {
    let lines: Vec<(&str, usize, &str)> = FILES
        .into_iter()
        .flat_map(|(name, text)| {
            let numbered = text.lines().enumerate();
            numbered.map(move |(number, line)| (name, number + 1, line))
        })
        .filter(|(_, _, line)| !line.starts_with('#'))
        .collect();
    let benches = spread(lines.len() as u64, |index, bench: &mut Bench| {
        let (name, number, line) = lines[index as usize];
        bench.check_line(&format!("part 3, {name} line {number}: {line}"), line);
    });
    let mut tally = Tally::default();
    benches.iter().for_each(|bench| tally.add(&bench.tally));
    tally
}

impl Bench {
    /// The record knows no maps: these are compared between the emulators.
    fn check_line(&mut self, place: &str, line: &str) {
        self.prepare(line);
        self.second.reset(&self.case, 0, 0);
        self.second.run_second(&self.case);
        self.archive.reset(&self.case, 0, 0);
        self.archive.run_archive(&self.case);
        for (name, outcome) in [("second", &self.second), ("archive", &self.archive)] {
            self.expected.read.clone_from(&outcome.read);
            self.expected.written.clone_from(&outcome.written);
            self.tally.check(self.expected == *outcome, || {
                let difference = self.expected.difference(outcome);
                format!("{place}\n    vector / {name}\n    {difference}")
            });
        }
        self.tally.check(self.second == self.archive, || {
            let difference = self.second.difference(&self.archive);
            format!("{place}\n    second / archive\n    {difference}")
        });
    }

    /// Reads a line into the case and what is expected of it.
    fn prepare(&mut self, line: &str) {
        let fields: Vec<&str> = line.split('|').map(str::trim).collect();
        let [start, inputs, before, outputs] = fields[..] else {
            panic!("four fields: {line}");
        };
        let case = &mut self.case;
        let cleared = Case::zeroed(0);
        case.memory.fill(0);
        case.state = cleared.state;
        case.settings = cleared.settings;
        case.lines = cleared.lines;
        case.budget = cleared.budget;
        let (word, pc) = start.split_once(' ').expect("word and pc");
        case.state.pc = hex(pc);
        for (name, value) in assignments(inputs) {
            set_input(case, name, hex(value));
        }
        put_bytes(&mut case.memory, before);
        put(&mut case.memory, hex(pc), hex(word));

        let outputs = outputs.strip_prefix("=>").expect("outputs");
        let (changed, after) = outputs.split_once("mem").unwrap_or((outputs, ""));
        self.expected.reset(case, 0, case.budget);
        for (name, value) in assignments(changed) {
            set_state(&mut self.expected.state, name, hex(value));
        }
        put_bytes(&mut self.expected.memory, after);
    }
}

fn assignments(text: &str) -> impl Iterator<Item = (&str, &str)> {
    text.split_whitespace()
        .map(|item| item.split_once('=').expect("name=value"))
}

fn set_input(case: &mut Case, name: &str, value: u32) {
    match name {
        "lines" => case.lines = value,
        "exc" => {
            case.settings[1] = value;
            case.settings[2] = value;
        }
        "cpuid" => case.settings[3] = value,
        "steps" => case.budget = value,
        _ => set_state(&mut case.state, name, value),
    }
}

fn set_state(state: &mut State, name: &str, value: u32) {
    match name {
        "pc" => state.pc = value,
        "status" => state.status = value,
        "estatus" => state.estatus = value,
        "bstatus" => state.bstatus = value,
        "ienable" => state.ienable = value,
        _ => {
            let number = name.strip_prefix('r').and_then(|n| n.parse().ok());
            let number: usize = number.expect("a register");
            state.registers[number] = value;
        }
    }
}

/// Writes the bytes of a field `mem address=bytes`, if it names any.
fn put_bytes(memory: &mut [u8], field: &str) {
    let field = field.trim_start_matches("mem").trim();
    let Some((address, digits)) = field.split_once('=') else {
        return;
    };
    let start = hex(address) as usize;
    for (k, place) in (start..start + digits.len() / 2).enumerate() {
        memory[place] = hex(&digits[2 * k..2 * k + 2]) as u8;
    }
}

fn hex(text: &str) -> u32 {
    u32::from_str_radix(text, 16).expect("a hex number")
}
