//! One call of the run, what came of it, and how both are printed.

use crate::archive;
use crate::check::words::{get, NEUTRAL};
use crate::{bit, Answer, State};
use std::fmt::Write;

/// What a run is handed.
#[derive(Clone)]
pub struct Case {
    pub memory: Vec<u8>,
    pub read: Vec<u8>,
    pub written: Vec<u8>,
    pub state: State,
    pub settings: [u32; archive::SETTINGS_WORDS],
    pub lines: u32,
    pub budget: u32,
}

/// All that a run hands back.
#[derive(Clone, PartialEq, Eq)]
pub struct Outcome {
    pub answer: Answer,
    pub state: State,
    pub memory: Vec<u8>,
    pub read: Vec<u8>,
    pub written: Vec<u8>,
}

impl Case {
    /// Zeroed memory and maps, the program's settings and a budget of one.
    pub fn zeroed(length: usize) -> Self {
        Case {
            memory: vec![0; length],
            read: vec![0; length / 8],
            written: vec![0; length / 8],
            state: State::default(),
            settings: [0, 32, 32, 1, 1, 1],
            lines: 0,
            budget: 1,
        }
    }

    /// The outcome of a run that changed nothing, with the given answer.
    pub fn unchanged(&self, number: u32, steps: u32) -> Outcome {
        Outcome {
            answer: Answer { number, steps },
            state: self.state.clone(),
            memory: self.memory.clone(),
            read: self.read.clone(),
            written: self.written.clone(),
        }
    }

    pub fn on_second(&self) -> Outcome {
        let mut outcome = self.unchanged(0, 0);
        outcome.run_second(self);
        outcome
    }

    pub fn on_archive(&self) -> Outcome {
        let mut outcome = self.unchanged(0, 0);
        outcome.run_archive(self);
        outcome
    }

    /// The case that goes on where a run ended.
    pub fn continued(&self, outcome: Outcome, budget: u32) -> Case {
        Case {
            memory: outcome.memory,
            read: outcome.read,
            written: outcome.written,
            state: outcome.state,
            settings: self.settings,
            lines: self.lines,
            budget,
        }
    }

    pub fn describe(&self) -> String {
        let mut text = String::new();
        let _ = writeln!(
            text,
            "  memory {} bytes, maps {} and {} bytes, lines {:08X}, budget {}, settings {:X?}",
            self.memory.len(),
            self.read.len(),
            self.written.len(),
            self.lines,
            self.budget,
            self.settings
        );
        let _ = writeln!(text, "  before: {}", describe_state(&self.state));
        let _ = writeln!(
            text,
            "  read first: {}; written: {}",
            describe_map(&self.read),
            describe_map(&self.written)
        );
        text + &describe_words(&self.memory)
    }
}

impl Outcome {
    /// Becomes `case.unchanged(number, steps)` without allocating anew.
    pub fn reset(&mut self, case: &Case, number: u32, steps: u32) {
        self.answer = Answer { number, steps };
        self.state.clone_from(&case.state);
        self.memory.clone_from(&case.memory);
        self.read.clone_from(&case.read);
        self.written.clone_from(&case.written);
    }

    /// Runs the second emulator on what is held here.
    pub fn run_second(&mut self, case: &Case) {
        self.answer = crate::run(
            &mut self.memory,
            &mut self.read,
            &mut self.written,
            &mut self.state,
            &archive::settings_from_words(&case.settings),
            case.lines,
            case.budget,
        );
    }

    /// Runs the second emulator with its quicker marks.
    pub fn run_second_fast(&mut self, case: &Case) {
        self.answer = crate::run_fast(
            &mut self.memory,
            &mut self.read,
            &mut self.written,
            &mut self.state,
            &archive::settings_from_words(&case.settings),
            case.lines,
            case.budget,
        );
    }

    /// Runs the archive on what is held here.
    pub fn run_archive(&mut self, case: &Case) {
        let mut state = archive::state_words(&self.state);
        let mut answer = [u32::MAX; archive::ANSWER_WORDS];
        archive::run(
            &mut self.memory,
            &mut self.read,
            &mut self.written,
            &mut state,
            &case.settings,
            case.lines,
            case.budget,
            &mut answer,
        );
        self.state = archive::state_from_words(&state);
        self.answer = Answer {
            number: answer[0],
            steps: answer[1],
        };
    }

    /// What differs, in words.
    pub fn difference(&self, other: &Outcome) -> String {
        let mut parts = Vec::new();
        if self.answer != other.answer {
            parts.push(format!("{:?} / {:?}", self.answer, other.answer));
        }
        if self.state != other.state {
            parts.push(format!(
                "{} / {}",
                describe_state(&self.state),
                describe_state(&other.state)
            ));
        }
        parts.extend(bytes_difference("memory", &self.memory, &other.memory));
        parts.extend(bytes_difference("read first", &self.read, &other.read));
        parts.extend(bytes_difference("written", &self.written, &other.written));
        parts.join("\n    ")
    }
}

fn bytes_difference(name: &str, one: &[u8], other: &[u8]) -> Option<String> {
    let place = one.iter().zip(other).position(|(x, y)| x != y)?;
    Some(format!(
        "{name} byte {place:X}: {:02X} / {:02X}",
        one[place], other[place]
    ))
}

fn describe_state(state: &State) -> String {
    let mut text = format!(
        "pc={:X} status={:X} estatus={:X} bstatus={:X} ienable={:X}",
        state.pc, state.status, state.estatus, state.bstatus, state.ienable
    );
    for (number, value) in state.registers.iter().enumerate() {
        if *value != 0 {
            let _ = write!(text, " r{number}={value:X}");
        }
    }
    text
}

fn describe_map(map: &[u8]) -> String {
    let set: Vec<usize> = (0..map.len() * 8).filter(|k| bit(map, *k)).collect();
    match set.as_slice() {
        [] => "none".into(),
        few if few.len() <= 16 => format!("{few:X?}"),
        many => format!("{} bits", many.len()),
    }
}

fn describe_words(memory: &[u8]) -> String {
    const MOST: usize = 48;
    let mut text = String::new();
    let places = (0..memory.len() as u32 / 4).map(|k| k * 4);
    let shown: Vec<u32> = places
        .filter(|k| ![0, NEUTRAL].contains(&get(memory, *k)))
        .collect();
    for address in shown.iter().take(MOST) {
        let _ = writeln!(text, "  {address:05X}: {:08X}", get(memory, *address));
    }
    if shown.len() > MOST {
        let _ = writeln!(text, "  and {} words more", shown.len() - MOST);
    }
    let neutral = memory.len() / 4 - shown.len();
    if neutral > 0 {
        let _ = writeln!(text, "  the others are 0 or {NEUTRAL:08X}");
    }
    text
}
