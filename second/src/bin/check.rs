//! Compares the second emulator with the proved archive and, when its path is
//! given, with the program `nios2`.

use second::check::{edits, images, paper, random, samples, vectors, Tally};
use std::env;
use std::path::PathBuf;
use std::process::ExitCode;
use std::time::Instant;

const SEED: &str = "NIOS2_CHECK_SEED";

fn main() -> ExitCode {
    let program = env::args_os().nth(1).map(PathBuf::from);
    let seed = env::var(SEED).map_or(2004, |text| text.parse().expect("a seed is a number"));
    let mut total = Tally::default();
    let mut part = |number: u32, name: &str, seed: Option<u64>, work: &dyn Fn() -> Tally| {
        let shown = seed.map_or("no seed".into(), |seed| format!("seed {seed}"));
        println!("part {number}, {name}, {shown}");
        let start = Instant::now();
        let tally = work();
        println!(
            "part {number}: {} passed, {} failed, {:.1} s",
            tally.passed,
            tally.failed,
            start.elapsed().as_secs_f64()
        );
        total.add(&tally);
    };
    part(1, "the paper's examples", None, &|| {
        paper::check(program.as_deref())
    });
    part(2, "the handbook's samples", Some(seed + 2), &|| {
        samples::check(seed + 2)
    });
    part(3, "outside vectors", None, &vectors::check);
    part(4, "random calls", Some(seed + 4), &|| {
        random::check(seed + 4, &random::Counts::default())
    });
    part(5, "edits", Some(seed + 5), &|| edits::check(seed + 5));
    match &program {
        Some(path) => part(6, "the program", Some(seed + 6), &|| {
            images::check(seed + 6, path)
        }),
        None => println!("part 6 and the program's share of part 1 skipped: no path given"),
    }
    println!("{} passed, {} failed", total.passed, total.failed);
    if total.failed == 0 {
        ExitCode::SUCCESS
    } else {
        ExitCode::FAILURE
    }
}
