//! Part 1: "Settled by example" of document 01, every row, on both emulators,
//! and rows from its text for what neither the table nor the vectors execute.

use crate::check::case::{Case, Outcome};
use crate::check::words::{immediate, op, opx, put, register, register_small};
use crate::check::{images, Tally};
use crate::reason;
use std::path::Path;

const LENGTH: u32 = 64;

/// One row: what is run and what the paper says of it.
struct Row {
    name: &'static str,
    case: Case,
    expected: Outcome,
}

impl Row {
    /// A row whose word is executed at `pc`, over some registers.
    fn executed(name: &'static str, pc: u32, word: u32, registers: &[(usize, u32)]) -> Self {
        let case = prepared(pc, word, registers);
        let mut expected = case.unchanged(reason::BUDGET_SPENT, 1);
        expected.state.pc = pc + 4;
        mark(&mut expected.read, pc, 4);
        Row {
            name,
            case,
            expected,
        }
    }

    /// A row whose word is fetched at 0 and stops the run.
    fn stopped(name: &'static str, number: u32, word: u32, registers: &[(usize, u32)]) -> Self {
        let case = prepared(0, word, registers);
        let mut expected = case.unchanged(number, 0);
        mark(&mut expected.read, 0, 4);
        Row {
            name,
            case,
            expected,
        }
    }

    fn register(mut self, register: usize, value: u32) -> Self {
        self.expected.state.registers[register] = value;
        self
    }

    fn pc(mut self, pc: u32) -> Self {
        self.expected.state.pc = pc;
        self
    }

    fn memory_word(mut self, address: u32, word: u32) -> Self {
        put(&mut self.case.memory, address, word);
        put(&mut self.expected.memory, address, word);
        self
    }

    fn also_read(mut self, address: u32, width: u32) -> Self {
        mark(&mut self.expected.read, address, width);
        self
    }

    fn without_divider(mut self) -> Self {
        self.case.settings[5] = 0;
        self
    }
}

pub fn check(program: Option<&Path>) -> Tally {
    let mut tally = Tally::default();
    for row in rows() {
        let runs = [
            ("second", row.case.on_second()),
            ("archive", row.case.on_archive()),
        ];
        for (emulator, outcome) in runs {
            tally.check(outcome == row.expected, || {
                format!(
                    "part 1, {} on the {emulator}: paper / {emulator}\n    {}\n{}",
                    row.name,
                    row.expected.difference(&outcome),
                    row.case.describe()
                )
            });
        }
    }
    check_image(&mut tally, program);
    tally
}

fn rows() -> Vec<Row> {
    let mut rows = starred();
    rows.extend(unstarred());
    rows.extend([trap(), eret()]);
    rows.extend((0..6).map(rdctl));
    rows
}

fn starred() -> Vec<Row> {
    let product = |opx| register(opx, 2, 3, 4);
    vec![
        Row::executed("00BFFFC4", 0, 0x00BF_FFC4, &[]).register(2, 0xFFFF_FFFF),
        Row::executed("1006913A", 0, 0x1006_913A, &[(2, 0xFFFF_FFFF)]).register(3, 0xFFFF_FFF0),
        Row::executed("00000144", 0, 0x0000_0144, &[]),
        Row::executed("00000000 at pc 8", 8, 0, &[])
            .register(31, 12)
            .pc(0),
        Row::stopped("00000001", reason::NOT_LISTED, 1, &[]),
        Row::executed("div", 0, 0x10C9_283A, &[(2, 0xFFFF_FFF9), (3, 2)]).register(4, 0xFFFF_FFFD),
        Row::stopped(
            "div of the least number by -1",
            reason::DIVISION,
            0x10C9_283A,
            &[(2, 0x8000_0000), (3, 0xFFFF_FFFF)],
        ),
        Row::executed("div by 0 without divider", 8, 0x10C9_283A, &[(2, 7)])
            .without_divider()
            .register(29, 12)
            .pc(32),
        Row::executed(
            "mulxss",
            0,
            product(opx::MULXSS),
            &[(2, 0x8000_0000), (3, 0x8000_0000)],
        )
        .register(4, 0x4000_0000),
        Row::executed(
            "mulxsu",
            0,
            product(opx::MULXSU),
            &[(2, 0xFFFF_FFFF), (3, 2)],
        )
        .register(4, 0xFFFF_FFFF),
        Row::executed("ror", 0, product(opx::ROR), &[(2, 0x8000_0001), (3, 1)])
            .register(4, 0xC000_0000),
        interrupt(),
        status_write(),
    ]
}

fn unstarred() -> Vec<Row> {
    let ldw = immediate(op::LDW, 2, 3, 0);
    let ldb = immediate(op::LDB, 2, 3, 1);
    let at = |address: u32| [(2, address)];
    vec![
        Row::executed("ldw at length - 4", 0, ldw, &at(LENGTH - 4))
            .memory_word(LENGTH - 4, 0x8765_4321)
            .also_read(LENGTH - 4, 4)
            .register(3, 0x8765_4321),
        Row::stopped(
            "ldw at length - 2",
            reason::DATA_UNALIGNED,
            ldw,
            &at(LENGTH - 2),
        ),
        Row::stopped("ldw at length", reason::DATA_OUTSIDE, ldw, &at(LENGTH)),
        Row::executed("ldb 1(r2), r2 = FFFFFFFF", 4, ldb, &at(0xFFFF_FFFF))
            .memory_word(0, 0x1234_56A5)
            .also_read(0, 1)
            .register(3, 0xFFFF_FFA5),
        Row::executed(
            "sra",
            0,
            register(opx::SRA, 2, 3, 4),
            &[(2, 0x8000_0000), (3, 31)],
        )
        .register(4, 0xFFFF_FFFF),
    ]
}

fn interrupt() -> Row {
    let mut case = Case::zeroed(LENGTH as usize);
    case.state.status = 1;
    case.state.ienable = 1;
    case.lines = 1;
    let mut expected = case.unchanged(reason::BUDGET_SPENT, 1);
    expected.state.registers[29] = 4;
    expected.state.estatus = 1;
    expected.state.status = 0;
    expected.state.pc = 32;
    Row {
        name: "interrupt",
        case,
        expected,
    }
}

fn status_write() -> Row {
    let mut row = Row::executed("1001703A", 0, 0x1001_703A, &[(2, 0xFFFF_FFFF)]);
    row.expected.state.status = 1;
    row
}

fn trap() -> Row {
    let mut row = Row::executed("trap", 8, register(opx::TRAP, 0, 0, 29), &[])
        .register(29, 12)
        .pc(32);
    row.case.state.status = 1;
    row.expected.state.estatus = 1;
    row
}

fn eret() -> Row {
    let mut row = Row::executed("eret", 8, register(opx::ERET, 29, 0, 0), &[(29, 44)]).pc(44);
    row.case.state.estatus = 1;
    row.expected.state.estatus = 1;
    row.expected.state.status = 1;
    row
}

/// status is 0, so that no interrupt is entered.
fn rdctl(number: u32) -> Row {
    let word = register_small(opx::RDCTL, 0, 0, 2, number);
    let value = [0, 1, 1, 0x8000_0006, 0x8000_0002, 0x1234_5678][number as usize];
    let mut row = Row::executed("rdctl", 0, word, &[]).register(2, value);
    row.case.lines = 0x8000_000A;
    row.case.settings[3] = 0x1234_5678;
    for state in [&mut row.case.state, &mut row.expected.state] {
        (state.estatus, state.bstatus, state.ienable) = (1, 1, 0x8000_0006);
    }
    row
}

fn prepared(pc: u32, word: u32, registers: &[(usize, u32)]) -> Case {
    let mut case = Case::zeroed(LENGTH as usize);
    put(&mut case.memory, pc, word);
    case.state.pc = pc;
    for (register, value) in registers {
        case.state.registers[*register] = *value;
    }
    case
}

fn mark(map: &mut [u8], address: u32, width: u32) {
    for byte in address..address + width {
        map[byte as usize / 8] |= 1 << (byte % 8);
    }
}

const PAPER_IMAGE: [u32; 4] = [0x00BF_FFC4, 0x1006_913A, 0x0080_0805, 0x0000_0001];
const PAPER_TEXT: &str = "stop 12 steps 3 pc 0000000C
ctl 0 0 0 00000000
r2 FFFFFFFF
r3 FFFFFFF0
read 16 written 1
";

fn check_image(tally: &mut Tally, program: Option<&Path>) {
    let mut image = vec![0; 40];
    for (place, word) in (0..).step_by(4).zip(PAPER_IMAGE) {
        put(&mut image, place, word);
    }
    let second = images::expected(&image);
    tally.check(second == PAPER_TEXT, || {
        format!("part 1, the paper's image on the second emulator:\n{second}")
    });
    if let Some(program) = program {
        let output = images::run(program, &image);
        tally.check(output.as_deref() == Ok(PAPER_TEXT), || {
            format!("part 1, the paper's image on the program: {output:?}")
        });
    }
}
