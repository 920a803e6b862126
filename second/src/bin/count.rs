//! Runs the archive, and nothing else, on one of the measured programs, so
//! that its instructions can be counted from outside.

use second::measured::{PROGRAMS, SHORT};
use std::env;

fn main() {
    let arguments: Vec<String> = env::args().skip(1).collect();
    let [name, steps] = arguments.as_slice() else {
        panic!("the arguments are a program's name and its steps");
    };
    let (_, program) = PROGRAMS
        .into_iter()
        .find(|(known, _)| name == known)
        .expect("the name is a program's");
    let steps: u32 = steps.parse().expect("the steps are a number");
    let outcome = program(SHORT, steps).on_archive();
    assert_eq!(outcome.answer.steps, steps, "{name}: the run stopped");
}
