//! Programs: many lines in one call, against the same lines one by one, and against the Rust.

use crate::cases::{self, Case, Program};
use crate::raw::{self, Order};
use crate::{lower, proved, BASE, BUDGET};
use oracle::asm::ItemDefs;
use std::hint::black_box;

/// Room for the answers of all lines.
const ROOM: usize = 1 << 16;

/// The base of each line of the longest program.
const BASES: [u32; 256] = [BASE; 256];

/// What is run on a program: all of its lines each time.
#[derive(Clone, Copy, PartialEq)]
enum Side {
    /// One call of the proved library.
    Call,
    /// The same with a row's word too few: it ends in number 17, after the table's check.
    Table,
    /// The same with budgets 0: each line ends in number 5, after its checks.
    Checks,
    /// A single call for each line.
    Singles,
    /// The Rust, its definitions and prefix map at hand.
    Rust,
    /// The Rust from the packed words: definitions and prefix map are built once, then the lines are matched.
    FromTable,
}

const SIDES: [(&str, Side); 6] = [
    ("call", Side::Call),
    ("table", Side::Table),
    ("checks", Side::Checks),
    ("singles", Side::Singles),
    ("rust", Side::Rust),
    ("from_table", Side::FromTable),
];

fn call(program: &Program, lookup: bool, budgets: &[u32], rows: &mut [u32], answers: &mut [u32]) -> raw::Answer {
    let order = if lookup { Order::Lookup } else { Order::Scan };
    let lines = raw::Program {
        text: &program.text,
        ends: &program.ends,
        sheets: &program.sheets,
        budgets,
        bases: &BASES[..program.lines.len()],
    };
    raw::program(order, &program.table, lines, rows, answers)
}

/// Its lines one by one, each into the room that is left.
fn singles(program: &Program, lookup: bool, answers: &mut [u32]) -> usize {
    let mut used = 0;
    for case in &program.lines {
        used += proved(case, lookup, BUDGET, &mut answers[used..]).words as usize;
    }
    used
}

fn rust(program: &Program, lookup: bool, defs: &ItemDefs) -> usize {
    let run = |case: &Case| crate::rust(defs, case, lookup).len();
    program.lines.iter().map(run).sum()
}

/// What runs a side, with memory of its own to write to.
fn runner<'a>(program: &'a Program, lookup: bool, defs: &'a ItemDefs, side: Side) -> Box<dyn FnMut() + 'a> {
    let lines = program.lines.len();
    let budgets = vec![if side == Side::Checks { 0 } else { BUDGET }; lines];
    let mut rows = vec![0; if side == Side::Table { 2 * lines - 1 } else { 2 * lines }];
    let mut answers = vec![0; ROOM];
    match side {
        Side::Call | Side::Table | Side::Checks => Box::new(move || {
            black_box(call(black_box(program), lookup, &budgets, &mut rows, &mut answers).words);
        }),
        Side::Singles => Box::new(move || {
            black_box(singles(black_box(program), lookup, &mut answers));
        }),
        Side::Rust => Box::new(move || {
            black_box(rust(black_box(program), lookup, defs));
        }),
        Side::FromTable => Box::new(move || {
            let defs = oracle::unpack_table(&black_box(program).table);
            black_box(rust(program, lookup, &defs));
        }),
    }
}

/// The two sides must agree before they are timed, on every line. The visits of all lines.
fn agree(program: &Program, lookup: bool) -> u32 {
    let lines = program.lines.len();
    let defs = oracle::unpack_table(&program.table);
    let (mut rows, mut answers, mut room) = (vec![0; 2 * lines], vec![0; ROOM], vec![0; ROOM]);
    let told = call(program, lookup, &vec![BUDGET; lines], &mut rows, &mut answers);
    assert!(told.number == 0, "{}", program.name);
    let (mut visits, mut expected) = (0, Vec::new());
    for (case, row) in program.lines.iter().zip(rows.chunks(2)) {
        let words = crate::words(&crate::rust(&defs, case, lookup));
        assert!(
            *row == [words.is_empty() as u32, expected.len() as u32],
            "{}",
            program.name
        );
        expected.extend(words);
        visits += proved(case, lookup, BUDGET, &mut room).visits;
    }
    assert!(expected == answers[..told.words as usize], "{}", program.name);
    visits
}

/// A program by one way, and each side's least time of all lines together.
pub struct Row {
    program: Program,
    lookup: bool,
    visits: u32,
    least: [f64; SIDES.len()],
}

/// Every program by scan and by lookup.
pub fn rows() -> Vec<Row> {
    let both = |program: Program| {
        [false, true].map(|lookup| Row {
            visits: agree(&program, lookup),
            program: program.clone(),
            lookup,
            least: [f64::INFINITY; SIDES.len()],
        })
    };
    cases::programs().into_iter().flat_map(both).collect()
}

impl Row {
    pub fn time(&mut self) {
        let defs = oracle::unpack_table(&self.program.table);
        let mut runners = SIDES.map(|(_, side)| runner(&self.program, self.lookup, &defs, side));
        lower(
            &mut self.least,
            runners.each_mut().map(|run| &mut **run as &mut dyn FnMut()),
        );
    }
}

pub fn print(rows: &[Row]) {
    println!("| program | way | visits | call | its table | its checks | one by one | Rust | Rust from the table | Rust / call | from the table / call |");
    println!("|---|---|---|---|---|---|---|---|---|---|---|");
    for row in rows {
        let lines = row.program.lines.len() as f64;
        let [call, table, checks, singles, rust, from_table] = row.least.map(|all| all / lines);
        println!(
            "| {} | {} | {:.0} | {call:.0} | {table:.0} | {checks:.0} | {singles:.0} | {rust:.0} | {from_table:.0} | {:.2} | {:.1} |",
            row.program.name,
            if row.lookup { "lookup" } else { "scan" },
            row.visits as f64 / lines,
            rust / call,
            from_table / call,
        );
    }
}

/// What callgrind counts: this and what it calls.
#[no_mangle]
#[inline(never)]
fn counted_program(run: &mut dyn FnMut()) {
    run();
    black_box(run);
}

/// Runs a program twice on one side; the second run is the one that is counted.
pub fn once(name: &str, lookup: bool, side: &str) {
    let program = cases::programs().into_iter().find(|p| p.name == name);
    let program = program.expect("no such program");
    let side = SIDES.iter().find(|(name, _)| *name == side).expect("no such side").1;
    let defs = oracle::unpack_table(&program.table);
    let mut run = runner(&program, lookup, &defs, side);
    run();
    counted_program(&mut *run);
}
