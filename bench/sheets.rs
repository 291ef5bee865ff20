//! Sheets: what filling one from its line takes, against what the check of the same sheet takes in a match call.

use crate::raw::{self, Order};
use crate::{cases, lower, BASE};
use std::hint::black_box;

/// A line, and the sheet that filling gives it.
pub struct Filled {
    pub name: String,
    line: Vec<u8>,
    sheet: Vec<u8>,
}

/// What is run on a line.
#[derive(Clone, Copy)]
enum Side {
    /// The call that fills its sheet.
    Fill,
    /// A match call on that sheet with budget 0 and a table without rules: it ends in number 5, after its checks.
    Checks,
    /// The same with a sheet of no bytes: it ends in number 4, before any entry is looked at.
    Before,
}

const SIDES: [(&str, Side); 3] = [("fill", Side::Fill), ("checks", Side::Checks), ("before", Side::Before)];

/// One ruleset, no rule, no part; the ruleset is a top one.
const NO_RULES: [u16; 4] = [1, 0, 0, 0];

/// Every kind of line at every length.
pub fn all() -> Vec<Filled> {
    let mut all = Vec::new();
    for (kind, line) in cases::EXPRESSIONS {
        for n in [10, 20, 30, 60, 90, 120] {
            let line = line(n);
            assert!(line.len() == n);
            let mut sheet = vec![0; 2 * (n + 1) * (n + 1)];
            assert!(raw::fill_sheet(&line, &mut sheet).number == 0);
            let name = format!("{kind}, {n} bytes");
            all.push(Filled { name, line, sheet });
        }
    }
    all
}

/// What runs a side, with memory of its own to write to.
fn runner(filled: &Filled, side: Side) -> Box<dyn FnMut() + '_> {
    let mut sheet = filled.sheet.clone();
    let checks = |filled: &Filled, sheet: &[u8]| {
        let told = raw::call(Order::Scan, &NO_RULES, &filled.line, sheet, 0, BASE, &mut []);
        black_box(told.number)
    };
    match side {
        Side::Fill => Box::new(move || {
            black_box(raw::fill_sheet(black_box(&filled.line), &mut sheet).words);
        }),
        Side::Checks => Box::new(move || {
            assert!(checks(black_box(filled), &filled.sheet) == 5);
        }),
        Side::Before => Box::new(move || {
            assert!(checks(black_box(filled), &[]) == 4);
        }),
    }
}

/// Least times of each side.
pub fn time(filled: &Filled, least: &mut [f64; SIDES.len()]) {
    let mut runners = SIDES.map(|(_, side)| runner(filled, side));
    lower(least, runners.each_mut().map(|run| &mut **run as &mut dyn FnMut()));
}

pub fn print(rows: &[(Filled, [f64; SIDES.len()])]) {
    println!("| line | fill | check | fill / check |\n|---|---|---|---|");
    for (filled, [fill, checks, before]) in rows {
        let check = checks - before;
        println!("| {} | {fill:.0} | {check:.0} | {:.1} |", filled.name, fill / check);
    }
}

/// What callgrind counts: this and what it calls.
#[no_mangle]
#[inline(never)]
fn counted_sheet(run: &mut dyn FnMut()) {
    run();
    black_box(run);
}

/// Runs a line twice on one side; the second run is the one that is counted.
pub fn once(name: &str, side: &str) {
    let filled = all().into_iter().find(|f| f.name == name).expect("no such line");
    let side = SIDES.iter().find(|(name, _)| *name == side).expect("no such side").1;
    let mut run = runner(&filled, side);
    run();
    counted_sheet(&mut *run);
}
