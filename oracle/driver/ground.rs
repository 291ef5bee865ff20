//! Compares a walker's moves and cuts, and the rules that lookup tries, one by one: with the Rust where the cursor is at most
//! the limit and that at most the line's length, and with the model everywhere. The Rust's walker knows where its line begins
//! in the file, the proved one does not: so each move of the Rust's is made under some base, and must be the same under all.
use crate::bases;
use crate::cases;
use crate::model;
use crate::random::Random;
use crate::report::Report;
use crate::sides::{self, Moves, Place, Walker, Walkers};

/// The walker held to its line, as document 01 says.
fn held(line: &[u8], w: Walker) -> Walker {
    let limit = w.limit.min(line.len());
    Walker {
        cursor: w.cursor.min(limit),
        limit,
    }
}

fn model_moves(line: &[u8], w: Walker, wanted: u8) -> Moves {
    let useful = model::useful(line, w.cursor, w.limit);
    let found = useful < w.limit && model::lowered(line[useful]) == model::lowered(wanted);
    let is_over = w.cursor >= w.limit;
    Moves {
        is_over,
        useful,
        char: Place {
            found: found as usize,
            place: if found { useful + 1 } else { w.cursor },
        },
        whitespace: is_over || model::is_white(line[w.cursor]),
        cut: model::cut(line, w.cursor, w.limit, wanted),
    }
}

fn moves(report: &mut Report, line: &[u8], base: u32, w: Walker, wanted: u8) {
    let text = String::from_utf8_lossy(line);
    let here = held(line, w);
    let told = sides::proved_moves(line, w, wanted);
    let expected = model_moves(line, here, wanted);
    report.see("walker moves, cuts and tests against document 01", true);
    if told != expected {
        report.differ(format!(
            "{text:?} {w:?} {wanted}: proved {told:?}, document 01 {expected:?}"
        ));
    }
    // The Rust's line is text, and it finds a byte 0 at the limit (docs/DIFFERENCES.md); no line and no part has one.
    if w == here && line.is_ascii() && wanted.is_ascii() && wanted != 0 {
        let rust = sides::rust_moves(line, base, w, wanted);
        report.see("walker moves, cuts and tests against the Rust", true);
        report.see("  under a base past 0", base > 0);
        report.see("  a cut found", told.cut.is_some());
        if told != rust {
            report.differ(format!(
                "{text:?} {w:?} {wanted}: proved {told:?}, Rust at base {base} {rust:?}"
            ));
        }
    }
}

/// The moves to another place and to another limit: each holds the walker first, and then what it has moved.
fn walkers(report: &mut Report, line: &[u8], w: Walker, place: usize, end: usize) {
    let here = held(line, w);
    let at_place = Walker { cursor: place, ..here };
    let with_end = Walker { limit: end, ..here };
    let expected = Walkers {
        tested: here.cursor,
        at_place: held(line, at_place),
        with_end: held(line, with_end),
    };
    let told = sides::proved_walkers(line, w, place, end);
    report.see("walkers at another place, and with another limit", true);
    // Where the first holding shows: a cursor past its limit, and then a later limit.
    let unheld = held(line, Walker { limit: end, ..w });
    report.see("  holding first decides", unheld != expected.with_end);
    report.see("  a place past the limit held", at_place != expected.at_place);
    report.see(
        "  a limit past the line held",
        with_end.limit != expected.with_end.limit,
    );
    report.see(
        "  a cursor past the new limit held",
        here.cursor != expected.with_end.cursor,
    );
    if told != expected {
        report.differ(format!(
            "{} bytes, {w:?}, place {place}, limit {end}: proved {told:?}, document 01 {expected:?}",
            line.len()
        ));
    }
}

/// Every line of at most four bytes out of letters in both cases, a sign, brackets and whitespace; every walker within it;
/// every wanted byte among those.
pub fn short_lines(report: &mut Report) {
    let random = &mut bases::stream(0, 0);
    let bytes = b"aA+(){} \r";
    for line in cases::all_up_to(bytes, 4) {
        for limit in 0..=line.len() {
            for cursor in 0..=limit {
                for wanted in bytes {
                    moves(report, &line, bases::good(random), Walker { cursor, limit }, *wanted);
                }
            }
        }
    }
}

/// Lines of at most four bytes; every cursor and limit inside, at and past their ends; every such place and end. These moves
/// look at no byte.
pub fn short_walkers(report: &mut Report) {
    for n in 0..=4 {
        let line = &b"a +("[..n];
        let places: Vec<usize> = (0..=n + 2).chain([1 << 32, usize::MAX - 1, usize::MAX]).collect();
        for limit in &places {
            for cursor in &places {
                for to in &places {
                    let w = Walker {
                        cursor: *cursor,
                        limit: *limit,
                    };
                    walkers(report, line, w, *to, *to);
                }
            }
        }
    }
}

/// Every byte wanted in every line of one byte.
pub fn all_bytes(report: &mut Report) {
    let random = &mut bases::stream(0, 0);
    for byte in 0..=255 {
        for wanted in 0..=255 {
            moves(
                report,
                &[byte],
                bases::good(random),
                Walker { cursor: 0, limit: 1 },
                wanted,
            );
        }
    }
}

/// Longer lines, cursors and limits past their ends.
pub fn random_lines(report: &mut Report, seed: u64, cases: u64) {
    for number in 0..cases {
        let random = &mut Random::new(seed ^ 0x6C69_6E65, number);
        let alphabet: &[u8] = *random.pick(&[&b"ab+"[..], b"aA+-,() \t\r", b"a+(){} \r", b"(){}[]+ "]);
        let most = *random.pick(&[5, 20, 120]);
        let n = random.between(0, most);
        let line: Vec<u8> = (0..n).map(|_| *random.pick(alphabet)).collect();
        let far = [n, n + 1, n + 2, 1 << 32, usize::MAX];
        let place = |random: &mut Random| match random.below(4) {
            0 => *random.pick(&far),
            _ => random.between(0, n),
        };
        let w = Walker {
            cursor: place(random),
            limit: place(random),
        };
        let end = place(random);
        let base = bases::good(&mut bases::stream(seed, number));
        moves(report, &line, base, w, *random.pick(alphabet));
        moves(report, &line, base, held(&line, w), *random.pick(alphabet));
        // Drawn last: what is drawn before it stays the same for a seed.
        let other = place(random);
        walkers(report, &line, w, other, end);
    }
}

/// The rules to try, their order, and the length at which each is found: so the line's prefix and each rule's.
fn query(report: &mut Report, table: &[u16], line: &[u8]) {
    let Some(read) = model::read_table(table) else {
        return;
    };
    let told = sides::proved_query(table, line, read.rules.len());
    let expected: Vec<u16> = model::order(&read, line, true).iter().map(|r| *r as u16).collect();
    let rust = sides::rust_query(table, line);
    let named = |r: &u16| {
        let rule = &read.rules[*r as usize];
        let length = model::rule_prefix(&rule.parts).len() as u16;
        [length, rule.set as u16, rule.number as u16]
    };
    let names: Vec<[u16; 3]> = told.iter().map(named).collect();
    report.see("prefix queries", true);
    report.see("  with rules found", !told.is_empty());
    if told != expected || names != rust {
        report.differ(format!(
            "query of {:?} in {table:?}: proved {names:?}, Rust {rust:?}, document 01 {expected:?}",
            String::from_utf8_lossy(line)
        ));
    }
}

/// Every rule of at most 5 parts out of two letters and whitespace in one table, against every line of at most 6 bytes out of
/// those letters, one of them in both cases, a space and a carriage return.
pub fn short_queries(report: &mut Report) {
    let rules = cases::all_up_to(&[b'a' as u16, b'B' as u16, 256], 5);
    let words = |rules: &[Vec<u16>]| {
        let mut table = vec![1, rules.len() as u16, rules.iter().map(|r| r.len() as u16).sum(), 0];
        let mut first = 0;
        for rule in rules {
            table.extend([0, first, rule.len() as u16]);
            first += rule.len() as u16;
        }
        table.extend(rules.iter().flatten());
        table
    };
    let table = words(&rules);
    for line in cases::all_up_to(b"aAb \r", 6) {
        query(report, &table, &line);
    }
}

/// Random tables and lines of a seed.
pub fn random_queries(report: &mut Report, seed: u64, cases: u64) {
    for number in 0..cases {
        let random = &mut Random::new(seed ^ 0x7072_6566, number);
        let case = cases::make(random);
        query(report, &case.call(None).table, &case.line);
    }
}
