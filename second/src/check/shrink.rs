//! Making a failing case small.

use crate::check::case::Case;
use crate::check::words::NEUTRAL;

const TRIALS: u32 = 5_000;

/// The smallest case found that still fails.
pub fn shrink(case: &Case, fails: &dyn Fn(&Case) -> bool) -> Case {
    let mut shrinking = Shrinking {
        best: case.clone(),
        fails,
        trials: TRIALS,
    };
    shrinking.budget();
    shrinking.words();
    shrinking.state();
    shrinking.maps();
    shrinking.budget();
    shrinking.best
}

struct Shrinking<'a> {
    best: Case,
    fails: &'a dyn Fn(&Case) -> bool,
    trials: u32,
}

impl Shrinking<'_> {
    fn attempt(&mut self, change: impl FnOnce(&mut Case)) -> bool {
        if self.trials == 0 {
            return false;
        }
        self.trials -= 1;
        let mut smaller = self.best.clone();
        change(&mut smaller);
        let still = (self.fails)(&smaller);
        if still {
            self.best = smaller;
        }
        still
    }

    fn budget(&mut self) {
        let mut passing = 0;
        while self.best.budget > passing {
            let middle = passing + (self.best.budget - passing) / 2;
            if !self.attempt(|case| case.budget = middle) {
                passing = middle + 1;
            }
        }
    }

    /// Replaces ever smaller blocks of memory by neutral words.
    fn words(&mut self) {
        let mut block = self.best.memory.len().next_power_of_two();
        while block >= 4 {
            for start in (0..self.best.memory.len()).step_by(block) {
                self.attempt(|case| {
                    let end = case.memory.len().min(start + block);
                    for word in case.memory[start..end].chunks_mut(4) {
                        word.copy_from_slice(&NEUTRAL.to_le_bytes()[..word.len()]);
                    }
                });
            }
            block /= 2;
        }
    }

    fn state(&mut self) {
        for register in 0..32 {
            self.attempt(|case| case.state.registers[register] = 0);
        }
        self.attempt(|case| case.state.status = 0);
        self.attempt(|case| case.state.estatus = 0);
        self.attempt(|case| case.state.bstatus = 0);
        self.attempt(|case| case.state.ienable = 0);
        self.attempt(|case| case.lines = 0);
    }

    fn maps(&mut self) {
        self.attempt(|case| case.read.fill(0));
        self.attempt(|case| case.written.fill(0));
    }
}
