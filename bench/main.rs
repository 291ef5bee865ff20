//! Times the proved library and the Rust text in one process on the same inputs (docs/PERFORMANCE.md says how).
//!
//!     bench                     times every case, every program and every sheet and prints the tables
//!     bench --list              prints the cases' names
//!     bench --once NAME SIDE    runs one case once on one side, for a count of instructions: `proved`, `checks` or `rust`
//!     bench --programs          prints the programs' names, each after the number of its lines
//!     bench --program NAME SIDE the same of one program: `call`, `table`, `checks`, `singles`, `rust` or `from_table`
//!                               (programs.rs says what each is)
//!     bench --sheets            prints the names of the lines whose sheets are filled
//!     bench --sheet NAME SIDE   the same of one such line: `fill`, `checks` or `before` (sheets.rs says what each is)
//!     bench --worst-cases       prints the worst calls' names, each after the sides that `--once` can run it on
//!     bench --worst [SEED [SECONDS]]
//!                               times those, and searches for worse ones, so many seconds in each family (worst.rs says how)
mod cases;
#[path = "../oracle/driver/notation.rs"]
mod notation;
mod programs;
// The crate in rust/ has a layout of its own, and functions that are not timed.
#[path = "../rust/src/raw.rs"]
#[rustfmt::skip]
#[allow(dead_code)]
mod raw;
mod sheets;
mod worst;

use cases::Case;
use raw::Order;
use std::hint::black_box;
use std::time::{Duration, Instant};

const BUDGET: u32 = 1_000_000;
const ROOM: usize = 4096;

/// Where every line begins in its file, on both sides.
const BASE: u32 = 1000;

/// Rounds over all cases, and samples of each side in a round, taken in turn; the least of all counts.
const ROUNDS: usize = 5;
const SAMPLES: usize = 8;
/// How long a sample takes at least.
const SAMPLE: Duration = Duration::from_millis(4);

/// A call of the proved library. With budget 0 it ends after its checks, in number 5.
fn proved(case: &Case, lookup: bool, budget: u32, room: &mut [u32]) -> raw::Answer {
    let order = if lookup { Order::Lookup } else { Order::Scan };
    raw::call(order, &case.table, &case.line, &case.sheet, budget, BASE, room)
}

/// The matches that the Rust finds.
fn rust(defs: &oracle::asm::ItemDefs, case: &Case, lookup: bool) -> oracle::asm::InstructionMatches {
    oracle::run_match(defs, &case.line, &case.sheet, BASE as usize, lookup)
}

/// The answer words of the Rust's matches: no place of these is past 32 bits.
fn words(matches: &oracle::asm::InstructionMatches) -> Vec<u32> {
    oracle::pack_answer(matches)
        .into_iter()
        .map(|word| word as u32)
        .collect()
}

// What callgrind counts: these three and what they call.

#[no_mangle]
#[inline(never)]
fn counted_proved(case: &Case, lookup: bool, room: &mut [u32]) -> u32 {
    proved(case, lookup, BUDGET, room).visits
}

#[no_mangle]
#[inline(never)]
fn counted_checks(case: &Case, lookup: bool, room: &mut [u32]) -> u32 {
    proved(case, lookup, 0, room).number
}

#[no_mangle]
#[inline(never)]
fn counted_rust(defs: &oracle::asm::ItemDefs, case: &Case, lookup: bool) -> usize {
    rust(defs, case, lookup).len()
}

/// How long `f` takes, in nanoseconds: calls enough for a sample, once.
fn sample(calls: u32, f: &mut dyn FnMut()) -> f64 {
    let start = Instant::now();
    for _ in 0..calls {
        f();
    }
    start.elapsed().as_nanos() as f64 / calls as f64
}

fn calls_for(f: &mut dyn FnMut()) -> u32 {
    let mut calls = 1;
    loop {
        let start = Instant::now();
        for _ in 0..calls {
            f();
        }
        if start.elapsed() >= SAMPLE {
            return calls;
        }
        calls *= 2;
    }
}

/// Lowers each side's least time, sampled in turn so that a disturbance meets all alike. The first samples, which find out how
/// many calls a sample has, also warm caches and the branch predictor, and are not counted.
pub fn lower<const N: usize>(least: &mut [f64; N], mut sides: [&mut dyn FnMut(); N]) {
    let calls = sides.each_mut().map(|f| calls_for(*f));
    for _ in 0..SAMPLES {
        for (i, f) in sides.iter_mut().enumerate() {
            least[i] = least[i].min(sample(calls[i], *f));
        }
    }
}

/// The two sides must agree before they are timed.
fn agree(case: &Case, lookup: bool, defs: &oracle::asm::ItemDefs) -> u32 {
    let mut room = vec![0; worst::ROOM];
    let told = proved(case, lookup, BUDGET, &mut room);
    let words = words(&rust(defs, case, lookup));
    assert!(
        told.number <= 1 && words == room[..told.words as usize],
        "{}",
        case.name
    );
    told.visits
}

/// Least times of a call: proved, its checks alone, the Rust, the Rust from the packed table.
fn time_case(case: &Case, lookup: bool, least: &mut [f64; 4]) {
    let defs = oracle::unpack_table(&case.table);
    let mut room = vec![0; ROOM];
    let mut other = vec![0; ROOM];
    lower(
        least,
        [
            &mut || {
                black_box(proved(black_box(case), lookup, BUDGET, &mut room).visits);
            },
            &mut || {
                black_box(proved(black_box(case), lookup, 0, &mut other).number);
            },
            &mut || {
                black_box(rust(black_box(&defs), case, lookup));
            },
            &mut || {
                let defs = oracle::unpack_table(black_box(&case.table));
                black_box(rust(&defs, case, lookup));
            },
        ],
    );
}

fn time_selection(count: usize, least: &mut [f64; 2]) {
    let mut words = cases::outcomes(count);
    let mut room = vec![0; count];
    let mut outcomes = oracle::Outcomes::new(&words);
    let (own, rust) = (raw::select(&mut words, true, &mut room), outcomes.select(false));
    assert!((own.number, own.count as usize) == (rust.number, rust.count));
    assert!(room.iter().zip(&rust.chosen).all(|(own, rust)| *own as usize == *rust));
    lower(
        least,
        [
            &mut || {
                black_box(raw::select(black_box(&mut words), true, &mut room).count);
            },
            &mut || {
                black_box(outcomes.select(false).count);
            },
        ],
    );
}

fn print_matching(rows: &[(Case, bool, [f64; 4])]) {
    println!("| case | way | visits | call | checks | Rust | Rust from the table | Rust / call | from the table / call | per visit | Rust | ratio |");
    println!("|---|---|---|---|---|---|---|---|---|---|---|---|");
    for (case, lookup, [call, checks, rust, from_table]) in rows {
        let visits = agree(case, *lookup, &oracle::unpack_table(&case.table)) as f64;
        let own = (call - checks) / visits;
        println!(
            "| {} | {} | {visits} | {call:.0} | {checks:.0} | {rust:.0} | {from_table:.0} | {:.2} | {:.1} | {own:.1} | {:.1} | {:.1} |",
            case.name,
            if *lookup { "lookup" } else { "scan" },
            rust / call,
            from_table / call,
            rust / visits,
            rust / visits / own,
        );
    }
}

fn time_all() {
    let both = |case: Case| [false, true].map(|lookup| (case.clone(), lookup, [f64::INFINITY; 4]));
    let mut rows: Vec<_> = cases::all().into_iter().flat_map(both).collect();
    let mut selections = [1, 2, 4, 16, 64, 256, 1024, 4096].map(|count| (count, [f64::INFINITY; 2]));
    let mut programs = programs::rows();
    let mut sheets: Vec<_> = sheets::all().into_iter().map(|f| (f, [f64::INFINITY; 3])).collect();
    for (case, lookup, _) in &rows {
        agree(case, *lookup, &oracle::unpack_table(&case.table));
    }
    for _ in 0..ROUNDS {
        for row in &mut programs {
            row.time();
        }
        for (case, lookup, least) in &mut rows {
            time_case(case, *lookup, least);
        }
        for (count, least) in &mut selections {
            time_selection(*count, least);
        }
        for (filled, least) in &mut sheets {
            sheets::time(filled, least);
        }
    }
    print_matching(&rows);
    println!("\n| outcomes | proved | Rust | Rust / proved |\n|---|---|---|---|");
    for (count, [own, rust]) in selections {
        println!("| {count} | {own:.0} | {rust:.0} | {:.1} |", rust / own);
    }
    println!("\nPrograms, nanoseconds a line.\n");
    programs::print(&programs);
    println!("\nSheets, nanoseconds a line.\n");
    sheets::print(&sheets);
    print_worst();
}

fn print_worst() {
    println!("\nWorst calls, milliseconds; the least of three.\n");
    worst::print_cases();
}

/// The name without its way, and whether that is lookup.
fn way(name: &str) -> (&str, bool) {
    match name.strip_suffix(" lookup") {
        Some(name) => (name, true),
        None => (name.trim_end_matches(" scan"), false),
    }
}

/// Runs a case twice on one side; the second run is the one that is counted.
fn once(name: &str, side: &str) {
    let (name, lookup) = way(name);
    let mut cases = cases::all();
    cases.extend(worst::cases().into_iter().map(|(case, _)| case));
    let case = cases.into_iter().find(|c| c.name == name).expect("no such case");
    let defs = oracle::unpack_table(&case.table);
    let mut room = vec![0; worst::ROOM];
    match side {
        "proved" => {
            proved(&case, lookup, BUDGET, &mut room);
            black_box(counted_proved(&case, lookup, &mut room));
        }
        "checks" => {
            proved(&case, lookup, 0, &mut room);
            black_box(counted_checks(&case, lookup, &mut room));
        }
        _ => {
            black_box(rust(&defs, &case, lookup));
            black_box(counted_rust(&defs, &case, lookup));
        }
    }
}

fn main() {
    let args: Vec<String> = std::env::args().skip(1).collect();
    let args: Vec<&str> = args.iter().map(String::as_str).collect();
    match args[..] {
        [] => {
            println!(
                "Nanoseconds; the least of {} samples of at least {} ms.\n",
                ROUNDS * SAMPLES,
                SAMPLE.as_millis()
            );
            time_all();
        }
        ["--list"] => {
            for case in cases::all() {
                println!("{} scan\n{} lookup", case.name, case.name);
            }
        }
        ["--once", name, side] => once(name, side),
        ["--programs"] => {
            for program in cases::programs() {
                for way in ["scan", "lookup"] {
                    println!("{} {} {way}", program.lines.len(), program.name);
                }
            }
        }
        ["--program", name, side] => {
            let (name, lookup) = way(name);
            programs::once(name, lookup, side);
        }
        ["--sheets"] => {
            for filled in sheets::all() {
                println!("{}", filled.name);
            }
        }
        ["--sheet", name, side] => sheets::once(name, side),
        ["--worst-cases"] => {
            for (case, both) in worst::cases() {
                println!("{} {}", if both { "both" } else { "proved" }, case.name);
            }
        }
        ["--worst", ref rest @ ..] if rest.len() <= 2 => {
            let number = |i: usize, else_| rest.get(i).map_or(else_, |text| text.parse().expect("a number"));
            print_worst();
            worst::search(number(0, 1), number(1, 30));
        }
        _ => {
            eprintln!(
                "usage: bench [--list | --once NAME SIDE | --programs | --program NAME SIDE | --sheets | --sheet NAME SIDE | \
                 --worst-cases | --worst [SEED [SECONDS]]]"
            );
            std::process::exit(2);
        }
    }
}
