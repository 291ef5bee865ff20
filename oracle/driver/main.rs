//! Compares the proved code with the Rust, in one process: walker moves and cuts, prefix queries, match calls by scan and by
//! lookup, programs of many lines, filled sheets, and selection. What the Rust does not decide is held to a third reading of
//! documents 01 and 02 (model.rs, and grammar.rs for expressions).
//!
//!     compare [--cases N] [--seed S] [--only walker|prefixes|matching|programs|expressions|selection] [--quick]
//!             [--record FOLDER]
//!
//! `--cases` is how many random cases of the seed are made; `--quick` leaves out the exhaustive short ones. `--record` writes
//! the recorded sample (record.rs) and compares nothing. The last line is 'N passed, M failed', where each of the six is one
//! test, which passes if nothing differs. Ends with 1 if anything differs, 2 if it is used wrongly.
mod bases;
mod cases;
mod expressions;
mod grammar;
mod ground;
mod matching;
mod model;
mod notation;
mod programs;
mod random;
// The crate in rust/ has a layout of its own, and functions for which the Rust has none.
#[path = "../../rust/src/raw.rs"]
#[rustfmt::skip]
#[allow(dead_code)]
mod raw;
#[path = "../../rust/src/readings.rs"]
#[rustfmt::skip]
#[allow(dead_code)]
mod readings;
mod record;
mod report;
mod selection;
#[path = "../rust/shown.rs"]
mod shown;
mod sides;
mod ways;

use report::Report;

/// What can be compared alone: a name, and what compares it.
const PARTS: [(&str, fn(&mut Report, &Args)); 6] = [
    ("walker", walker),
    ("prefixes", prefixes),
    ("matching", matching),
    ("programs", programs),
    ("expressions", expressions),
    ("selection", selection),
];

struct Args {
    cases: u64,
    seed: u64,
    only: Option<String>,
    quick: bool,
    record: Option<String>,
}

fn args() -> Option<Args> {
    let mut args = Args {
        cases: 100_000,
        seed: 1,
        only: None,
        quick: false,
        record: None,
    };
    let mut words = std::env::args().skip(1);
    while let Some(word) = words.next() {
        match word.as_str() {
            "--cases" => args.cases = words.next()?.parse().ok()?,
            "--seed" => args.seed = words.next()?.parse().ok()?,
            "--only" => args.only = Some(words.next().filter(|part| PARTS.iter().any(|(name, _)| name == part))?),
            "--quick" => args.quick = true,
            "--record" => args.record = Some(words.next()?),
            _ => return None,
        }
    }
    Some(args)
}

fn walker(report: &mut Report, args: &Args) {
    if !args.quick {
        ground::all_bytes(report);
        ground::short_lines(report);
        ground::short_walkers(report);
    }
    ground::random_lines(report, args.seed, args.cases);
}

fn prefixes(report: &mut Report, args: &Args) {
    if !args.quick {
        ground::short_queries(report);
    }
    ground::random_queries(report, args.seed, args.cases / 10);
}

fn matching(report: &mut Report, args: &Args) {
    matching::numbers(report);
    matching::edges(report);
    matching::checks(report);
    if !args.quick {
        matching::short(report);
    }
    matching::random(report, args.seed, args.cases);
    matching::deep(report, args.seed, args.cases / 50);
}

fn programs(report: &mut Report, args: &Args) {
    programs::numbers(report);
    programs::shapes(report);
    programs::random(report, args.seed, args.cases / 5);
}

fn expressions(report: &mut Report, args: &Args) {
    expressions::numbers(report);
    if !args.quick {
        expressions::all_bytes(report);
        expressions::short(report);
    }
    expressions::random(report, args.seed, args.cases / 10);
}

fn selection(report: &mut Report, args: &Args) {
    selection::numbers(report);
    if !args.quick {
        selection::short(report);
    }
    selection::random(report, args.seed, args.cases);
}

fn main() {
    let Some(args) = args() else {
        eprintln!(
            "usage: compare [--cases N] [--seed S] [--only walker|prefixes|matching|programs|expressions|selection] \
             [--quick] [--record FOLDER]"
        );
        std::process::exit(2);
    };
    if let Some(folder) = &args.record {
        record::write(folder).expect("the sample can't be written");
        return;
    }
    println!("seed {}, {} random cases", args.seed, args.cases);
    let (mut tests, mut failed, mut differences) = (0, 0, 0);
    for (name, part) in PARTS {
        if args.only.as_deref().map_or(true, |only| only == name) {
            let report = &mut Report::default();
            part(report, &args);
            report.print(name);
            differences += report.differences;
            tests += 1;
            failed += (report.differences > 0) as usize;
        }
    }
    println!("{differences} differences");
    println!("{} passed, {failed} failed", tests - failed);
    std::process::exit((failed > 0) as i32);
}
