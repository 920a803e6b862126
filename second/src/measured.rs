//! The programs on which the archive is measured: in time by the benchmark, in
//! instructions by the count.

use crate::check::case::Case;
use crate::check::rng::Rng;
use crate::check::words::{branch, call, immediate, op, opx, put, register, register_small};

/// The two lengths of memory that the programs are laid out for, in bytes.
pub const SHORT: usize = 4_096;
pub const LONG: usize = 1_048_576;

/// A program's case for one of the two lengths and a budget.
pub type Program = fn(usize, u32) -> Case;

/// The programs by name. Neither stops before its budget is spent.
pub const PROGRAMS: [(&str, Program); 2] = [("tight loop", tight), ("mixed program", mixed)];

fn empty(length: usize, budget: u32) -> Case {
    let mut case = Case::zeroed(length);
    case.budget = budget;
    case
}

fn write(case: &mut Case, start: u32, words: &[u32]) {
    for (address, word) in (start..).step_by(4).zip(words) {
        put(&mut case.memory, address, *word);
    }
}

fn tight(length: usize, budget: u32) -> Case {
    let mut case = empty(length, budget);
    let program = [
        immediate(op::ADDI, 2, 2, 1),
        immediate(op::LDW, 4, 3, 0),
        register(opx::ADD, 5, 3, 5),
        immediate(op::STW, 4, 5, 4),
        branch(op::BNE, 2, 0, 16, 0),
        branch(op::BR, 0, 0, 20, 0),
    ];
    write(&mut case, 0, &program);
    case.state.registers[4] = length as u32 - 64;
    Rng::new(1).fill(&mut case.memory[length - 64..]);
    case
}

const SUBROUTINE: u32 = 8;
const BODY: u32 = 16;
const DECKS: u32 = 4;
const WINDOW: u32 = 16;
const MASK: u32 = 17;
const BASE: u32 = 18;
const POINTER: u32 = 19;

/// What a deck of a hundred instructions is made of.
#[derive(Clone, Copy)]
enum Card {
    Immediate,
    Load,
    Store,
    Branch,
    Shift,
    Multiply,
    Call,
}

/// An endless pass over shuffled decks; each pass moves on in the data.
fn mixed(length: usize, budget: u32) -> Case {
    let mut case = empty(length, budget);
    let mut rng = Rng::new(2004);
    let (data, mask, stride) = if length == SHORT {
        (2_048, 0x7C0, 64)
    } else {
        (65_536, 0x7_FFC0, 4_160)
    };
    let head = [
        branch(op::BR, 0, 0, 0, BODY),
        0,
        immediate(op::ADDI, 9, 9, 1),
        register(opx::RET, 31, 0, 0),
    ];
    write(&mut case, 0, &head);
    let dealt = deal(&mut rng, &mut case);
    // A branch of the last cards may skip two words.
    let pass = [
        register(opx::ADD, 0, 0, 0),
        register(opx::ADD, 0, 0, 0),
        immediate(op::ADDI, WINDOW, WINDOW, stride),
        register(opx::AND, WINDOW, MASK, WINDOW),
        register(opx::ADD, BASE, WINDOW, POINTER),
    ];
    write(&mut case, dealt, &pass);
    let last = dealt + 4 * pass.len() as u32;
    put(&mut case.memory, last, branch(op::BR, 0, 0, last, BODY));
    case.state.registers[MASK as usize] = mask;
    case.state.registers[BASE as usize] = data;
    case.state.registers[POINTER as usize] = data;
    rng.fill(&mut case.memory[data as usize..]);
    case
}

/// Writes all decks from `BODY` on, and gives the address behind them.
fn deal(rng: &mut Rng, case: &mut Case) -> u32 {
    let mut pc = BODY;
    for _ in 0..DECKS {
        for card in shuffled_deck(rng) {
            put(&mut case.memory, pc, play(rng, card));
            pc += 4;
        }
    }
    pc
}

fn shuffled_deck(rng: &mut Rng) -> Vec<Card> {
    let parts = [
        (Card::Immediate, 47),
        (Card::Load, 20),
        (Card::Store, 10),
        (Card::Branch, 20),
        (Card::Shift, 1),
        (Card::Multiply, 1),
        (Card::Call, 1),
    ];
    let mut deck: Vec<Card> = parts
        .into_iter()
        .flat_map(|(card, count)| vec![card; count])
        .collect();
    for k in (1..deck.len()).rev() {
        deck.swap(k, rng.below(k as u32 + 1) as usize);
    }
    deck
}

fn play(rng: &mut Rng, card: Card) -> u32 {
    let (from, with, to) = (rng.between(2, 9), rng.between(2, 9), rng.between(2, 9));
    let word_offset = 4 * rng.below(16);
    match card {
        Card::Immediate => {
            let op = rng.pick(&[op::ADDI, op::ADDI, op::ADDI, op::ANDI, op::ORI, op::XORI]);
            immediate(op, from, to, rng.word())
        }
        Card::Load => {
            let op = rng.pick(&[op::LDW, op::LDW, op::LDW, op::LDHU, op::LDBU]);
            immediate(op, POINTER, to, word_offset)
        }
        Card::Store => {
            let op = rng.pick(&[op::STW, op::STW, op::STH, op::STB]);
            immediate(op, POINTER, from, word_offset)
        }
        Card::Branch => {
            let op = rng.pick(&op::BRANCHES);
            immediate(op, from, with, 4 * rng.below(3))
        }
        Card::Shift => register_small(
            rng.pick(&[opx::SLLI, opx::SRLI]),
            from,
            0,
            to,
            rng.below(32),
        ),
        Card::Multiply => register(opx::MUL, from, with, to),
        Card::Call => call(SUBROUTINE),
    }
}
