//! The comparison of the second emulator with the proved archive.

pub mod case;
pub mod edits;
pub mod images;
pub mod paper;
pub mod programs;
pub mod random;
pub mod rng;
pub mod samples;
pub mod shrink;
pub mod vectors;
pub mod words;

use case::Case;
use shrink::shrink;
use std::thread;

/// How many failures one worker prints in full.
const PRINTED: u64 = 2;

/// The checks of one part.
#[derive(Default)]
pub struct Tally {
    pub passed: u64,
    pub failed: u64,
}

impl Tally {
    pub fn check(&mut self, good: bool, describe: impl FnOnce() -> String) {
        if good {
            self.passed += 1;
            return;
        }
        self.failed += 1;
        if self.failed <= PRINTED {
            println!("FAILED {}", describe());
        }
    }

    /// Compares both emulators on one case, in full.
    pub fn compare(&mut self, place: &str, case: &Case) {
        self.check(agree(case), || {
            let small = shrink(case, &|smaller| !agree(smaller));
            format!(
                "{place}: second / archive\n    {}\n{}",
                small.on_second().difference(&small.on_archive()),
                small.describe()
            )
        });
    }

    pub fn add(&mut self, other: &Tally) {
        self.passed += other.passed;
        self.failed += other.failed;
    }
}

fn agree(case: &Case) -> bool {
    case.on_second() == case.on_archive()
}

/// Does `work` for every index below `count`, on all cores, and gives what
/// each core gathered.
pub fn spread<T: Default + Send>(count: u64, work: impl Fn(u64, &mut T) + Sync) -> Vec<T> {
    let workers = thread::available_parallelism().map_or(1, |n| n.get() as u64);
    let gather = |worker: u64| {
        let mut gathered = T::default();
        for index in (worker..count).step_by(workers as usize) {
            work(index, &mut gathered);
        }
        gathered
    };
    let gather = &gather;
    thread::scope(|scope| {
        let started: Vec<_> = (0..workers)
            .map(|worker| scope.spawn(move || gather(worker)))
            .collect();
        let joined = started.into_iter().map(|handle| handle.join());
        joined.map(|done| done.expect("a worker ends")).collect()
    })
}

/// The seed of one case of a part.
pub fn case_seed(part_seed: u64, index: u64) -> u64 {
    part_seed.wrapping_mul(0x0001_0000_0001) ^ index
}
