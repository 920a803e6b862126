//! Part 6: the program `nios2` on images, through standard input.

use crate::archive;
use crate::check::case::Case;
use crate::check::programs::{self, Kind};
use crate::check::rng::Rng;
use crate::check::{case_seed, spread, Tally};
use crate::refusal;
use std::fmt::Write as _;
use std::io::Write as _;
use std::path::Path;
use std::process::{Command, Stdio};
use std::thread;

const IMAGES: u64 = 600;
const LONGEST_IMAGE: usize = 32_768;
const BUDGET: u32 = 1_000;

pub fn check(seed: u64, program: &Path) -> Tally {
    let parts = spread(IMAGES, |index, tally: &mut Tally| {
        let seed = case_seed(seed, index);
        let image = random_image(index, &mut Rng::new(seed));
        check_one(&format!("part 6, seed {seed}"), program, &image, tally);
    });
    let mut tally = Tally::default();
    parts.iter().for_each(|part| tally.add(part));
    tally
}

fn check_one(place: &str, program: &Path, image: &[u8], tally: &mut Tally) {
    let expected = expected(image);
    let output = run(program, image);
    tally.check(output.as_deref() == Ok(&expected), || {
        let small = shortest(program, image);
        format!(
            "{place}: image of {} bytes {:02X?}\n  expected:\n{}  program: {:?}",
            small.len(),
            &small[..small.len().min(256)],
            self::expected(&small),
            run(program, &small)
        )
    });
}

/// Zeroes words and cuts the end while the program still differs.
fn shortest(program: &Path, image: &[u8]) -> Vec<u8> {
    const TRIALS: usize = 600;
    let fails = |image: &[u8]| run(program, image).as_deref() != Ok(&expected(image));
    let mut best = image.to_vec();
    while best.len() > 80 && fails(&best[..best.len() / 16 * 8]) {
        best.truncate(best.len() / 16 * 8);
    }
    for start in (0..best.len()).step_by(4).take(TRIALS) {
        let mut smaller = best.clone();
        let end = smaller.len().min(start + 4);
        smaller[start..end].fill(0);
        if fails(&smaller) {
            best = smaller;
        }
    }
    best
}

/// What document 01 says the program prints.
pub fn expected(image: &[u8]) -> String {
    if image.len() > LONGEST_IMAGE {
        return format!("refused {}\n", refusal::MEMORY_LENGTH);
    }
    let mut case = Case::zeroed(image.len());
    case.memory.copy_from_slice(image);
    case.budget = BUDGET;
    let settings = archive::settings_from_words(&case.settings);
    let number = crate::fresh(
        &case.memory,
        &mut case.read,
        &mut case.written,
        &mut case.state,
        &settings,
    );
    if number != 0 {
        return format!("refused {number}\n");
    }
    let outcome = case.on_second();
    let state = &outcome.state;
    let mut text = format!(
        "stop {} steps {} pc {:08X}\nctl {} {} {} {:08X}\n",
        outcome.answer.number,
        outcome.answer.steps,
        state.pc,
        state.status,
        state.estatus,
        state.bstatus,
        state.ienable
    );
    for (number, value) in state.registers.iter().enumerate() {
        if *value != 0 {
            let _ = writeln!(text, "r{number} {value:08X}");
        }
    }
    let _ = writeln!(
        text,
        "read {} written {}",
        ones(&outcome.read),
        ones(&outcome.written)
    );
    text
}

fn ones(map: &[u8]) -> u32 {
    map.iter().map(|byte| byte.count_ones()).sum()
}

/// The program's output on an image; it ends with status 0 in any case.
pub fn run(program: &Path, image: &[u8]) -> Result<String, String> {
    let mut child = Command::new(program)
        .stdin(Stdio::piped())
        .stdout(Stdio::piped())
        .spawn()
        .map_err(|error| error.to_string())?;
    let mut input = child.stdin.take().expect("a piped input");
    // Written from a thread of its own: a program that answers before it has
    // read all must not block, and one that refuses need not read all.
    let output = thread::scope(|scope| {
        scope.spawn(move || input.write_all(image));
        child.wait_with_output()
    });
    let output = output.map_err(|error| error.to_string())?;
    if !output.status.success() {
        return Err(format!("ended with {}", output.status));
    }
    String::from_utf8(output.stdout).map_err(|error| error.to_string())
}

fn random_image(index: u64, rng: &mut Rng) -> Vec<u8> {
    const EDGES: [usize; 16] = [
        0, 1, 4, 7, 8, 16, 32, 36, 39, 40, 44, 32_760, 32_767, 32_768, 32_769, 32_776,
    ];
    const LONG: [usize; 4] = [40_000, 65_536, 1_048_576, 1_048_584];
    if let Some(length) = EDGES.iter().chain(&LONG).nth(index as usize) {
        return filled(rng, *length);
    }
    match rng.below(10) {
        0 => {
            let length = rng.below(400) as usize;
            filled(rng, length)
        }
        1 => {
            let length = rng.between(32_700, 33_000) as usize;
            filled(rng, length)
        }
        2 => {
            let length = 8 * rng.between(5, 4_096) as usize;
            let mut image = vec![0; length];
            rng.fill(&mut image);
            image
        }
        3 | 4 => program_image(rng, Kind::Damaged),
        5 | 6 => program_image(rng, Kind::SelfModifying),
        _ => program_image(rng, Kind::Plausible),
    }
}

/// Instructions over the whole length.
fn filled(rng: &mut Rng, length: usize) -> Vec<u8> {
    let mut image = programs::case(rng, Kind::Noise, 4_096).memory;
    image.resize(length, 0x3A);
    image
}

fn program_image(rng: &mut Rng, kind: Kind) -> Vec<u8> {
    let length = 8 * rng.between(64, 1_024);
    programs::image(rng, kind, length)
}
