//! Compares match calls: on every input with the model, on numbers 0 and 1, document 01's domain, with the Rust, lookup with
//! the scan, and an answer under some base with that under base 0.
use crate::bases;
use crate::cases::{self, Case};
use crate::model::{self, Answer, Call, Walked};
use crate::random::Random;
use crate::report::Report;
use crate::sides::{proved_match, proved_match_at, rust_match};
use crate::ways;

/// Compares one call; what it gave.
fn compare(report: &mut Report, call: &Call, lookup: bool) -> Answer {
    let (told, left_alone) = proved_match(call, lookup);
    let (expected, walked) = model::answer(call, lookup);

    let how = if lookup { "lookup" } else { "scan" };
    report.see("match calls", true);
    report.see(number_name(expected.number), true);
    let last = call.line.len().wrapping_sub(1);
    let for_last = expected.number == 3 && expected.place as usize == last && last < 120;
    report.see("  number 3 for a last byte 13", for_last && call.line[last] == 13);
    if told != expected || !left_alone {
        report.differ(format!(
            "{how}: proved {told:?} (rest of the buffer unchanged: {left_alone}), document 01 {expected:?} of {}",
            show(call)
        ));
        return told;
    }
    if told.number <= 1 || told.number == 9 {
        with_rust(report, call, lookup, how, &told, walked);
    }
    if told.number == 19 {
        past_the_greatest(report, call, lookup, how);
    }
    told
}

/// Compares an answer that is not 19 with what the proved code says under base 0: every field is the same, and every start and
/// end is moved by the base. Neither the Rust nor the model has a part in this.
fn beside_zero(report: &mut Report, call: &Call, lookup: bool, told: &Answer) {
    if call.base == 0 || told.number == 19 {
        return;
    }
    let how = if lookup { "lookup" } else { "scan" };
    let (zero, _) = proved_match_at(call, 0, lookup);
    let fields = |a: &Answer| [a.number, a.visits, a.words, a.place];
    let moved = bases::moved(&zero.answer, call.base);
    report.see("held to the answer under base 0", true);
    report.see(
        "  with spans to move",
        zero.words > 0 && moved != Some(wide(&zero.answer)),
    );
    if fields(told) != fields(&zero) || moved != Some(wide(&told.answer)) {
        report.differ(format!(
            "{how}: proved {told:?}, under base 0 {zero:?} of {}",
            show(call)
        ));
    }
}

/// Under a base past the greatest the Rust goes on, in numbers wide enough. What it says is what the model says under base 0,
/// with every start and end moved by the base.
fn past_the_greatest(report: &mut Report, call: &Call, lookup: bool, how: &str) {
    let zero = Call {
        base: 0,
        room: usize::MAX,
        ..call.clone()
    };
    let (expected, _) = model::answer(&zero, lookup);
    if expected.number > 1 {
        return;
    }
    let rust = rust_match(call, lookup).map(|(words, _)| words);
    report.see("where 19 is given, the Rust goes on", true);
    report.see("  to a match", expected.number == 0);
    report.see(
        "  to a place past 2^32 - 1",
        rust.iter().flatten().any(|word| *word > u32::MAX as u64),
    );
    if rust.is_none() || rust != bases::moved(&expected.answer, call.base) {
        report.differ(format!(
            "{how}: Rust {rust:?}, under base 0 {expected:?} of {}",
            show(call)
        ));
    }
}

fn wide(words: &[u32]) -> Vec<u64> {
    words.iter().map(|word| *word as u64).collect()
}

/// Compares an answer of 0, 1 or 9 with the Rust's, and what the Rust's calls show of visits and records with what the model counts.
pub fn with_rust(report: &mut Report, call: &Call, lookup: bool, how: &str, told: &Answer, walked: Walked) {
    let Some((words, seen)) = rust_match(call, lookup) else {
        report.differ(format!("{how}: the Rust panics on {}", show(call)));
        return;
    };
    let same = match told.number {
        9 => words.len() == told.words as usize,
        _ => words == wide(&told.answer),
    };
    if !same {
        report.differ(format!("{how}: proved {told:?}, Rust {words:?} of {}", show(call)));
        return;
    }
    let shown = (
        seen.parts + seen.completed + walked.short_ends,
        seen.kept + seen.completed,
    );
    if shown != (told.visits as u64, walked.records) {
        report.differ(format!(
            "{how}: visits {} and records {}, by the Rust's calls {shown:?} of {}",
            told.visits,
            walked.records,
            show(call)
        ));
    }
    report.see("compared with the Rust", true);
    report.see("  visits all shown by the Rust's calls", walked.short_ends == 0);
    report.see("  with a match", told.number == 0);
    report.see("  with a byte 13 in the line", call.line.contains(&13));
    report.see(
        "  with a match and a byte 13 in the line",
        told.number == 0 && call.line.contains(&13),
    );
    report.see(
        "  with several matches in the answer",
        words.first().is_some_and(|n| *n > 1),
    );
    report.see("  a cut found", walked.cuts > 0);
    report.see("  a cut found under an earlier cut", walked.inner_cuts > 0);
    report.see("  an expression's end dropped as a double", walked.ends_dropped > 0);
    report.see("  an inner match dropped as a double", walked.inner_dropped > 0);
    report.see("  an inner match completed", walked.inner_completed > 0);
    report.see("  nested two deep or more", walked.deepest > 1);
    report.see("  nested eight deep or more", walked.deepest > 7);
    report.see("  a match dropped by the greatest count", walked.dropped_by_count > 0);
    if told.number == 0 {
        bases_seen(report, call, &words);
    }
}

/// Under which base a match is.
fn bases_seen(report: &mut Report, call: &Call, words: &[u64]) {
    let behind = call.base as u64 + call.line.len() as u64;
    let across = |mark: u32| call.base < mark && mark as u64 <= behind;
    let [sixteen, signed] = bases::MARKS;
    report.see("  a match under base 0", call.base == 0);
    report.see("  under a base from 1 to 200", (1..=200).contains(&call.base));
    report.see("  on a line that goes across 2^16", across(sixteen));
    report.see("  across 2^31", across(signed));
    report.see("  under a base past 2^31", call.base > signed);
    report.see("  under the greatest base", call.base == bases::GREATEST);
    report.see("  with an end at 2^32 - 1", words.contains(&(u32::MAX as u64)));
}

pub fn number_name(number: u32) -> &'static str {
    match number {
        0 => "number 0",
        1 => "number 1",
        2 => "number 2",
        3 => "number 3",
        4 => "number 4",
        5 => "number 5",
        6 => "number 6",
        7 => "number 7",
        8 => "number 8",
        9 => "number 9",
        _ => "number 19",
    }
}

/// A call by scan and by lookup, one beside the other, and each beside base 0.
fn both(report: &mut Report, call: &Call) -> [Answer; 2] {
    let [scan, lookup] = both_ways(report, call);
    beside_zero(report, call, false, &scan);
    beside_zero(report, call, true, &lookup);
    [scan, lookup]
}

/// A call by scan and by lookup, and one beside the other.
fn both_ways(report: &mut Report, call: &Call) -> [Answer; 2] {
    let [scan, lookup] = [false, true].map(|lookup| compare(report, call, lookup));
    if ways::decides(&scan) {
        let what = ways::difference(&scan, &lookup);
        report.see("lookup held to the scan", true);
        report.see("  trees compared", scan.number == 0);
        report.see(
            "  trees in another order",
            what.is_none() && scan.answer != lookup.answer,
        );
        if let Some(what) = what {
            report.differ(format!("{what}: scan {scan:?}, lookup {lookup:?} of {}", show(call)));
        }
    }
    [scan, lookup]
}

/// The call under a base that is refused.
fn refused(report: &mut Report, call: &Call, bases: &mut Random) {
    let base = bases::too_great(bases);
    both(report, &Call { base, ..call.clone() });
}

/// The call with just enough, and with too little, budget: where one of 6, 7 and 8 gives way to another.
fn budgets(report: &mut Report, call: &Call, visits: u32) {
    for budget in [visits, visits.saturating_sub(1), visits + 1, visits / 2] {
        let call = Call { budget, ..call.clone() };
        both(report, &call);
    }
}

/// The same with room.
fn rooms(report: &mut Report, call: &Call, words: usize) {
    for room in [words, words.saturating_sub(1), words / 2, words + 1, 0] {
        let call = Call { room, ..call.clone() };
        both(report, &call);
    }
}

/// The pool's limit, with the Rust: it goes on, and its calls show how many records would be due.
fn records_due(report: &mut Report, call: &Call, told: &Answer) {
    let Some((_, seen)) = rust_match(call, false) else {
        report.differ(format!("the Rust panics on {}", show(call)));
        return;
    };
    let due = seen.kept + seen.completed;
    report.see("pool's limit against the Rust's records", true);
    if (told.number == 8) != (due > 4096) {
        report.differ(format!("number {} where the Rust has {due} records", told.number));
    }
}

/// Names the numbers first, so that they stand together.
pub fn numbers(report: &mut Report) {
    report.see("match calls", false);
    for number in (0..10).chain([19]) {
        report.see(number_name(number), false);
    }
}

/// Every edge of the bases on short and long lines, with arguments of both kinds that reach the line's end: under the greatest
/// base the longest line's end at 2^32 - 1.
pub fn edges(report: &mut Report) {
    let rulesets = vec![
        (0, vec![vec![257], vec![513], vec![b'a' as u16, 513], vec![514, 257]]),
        (1, vec![vec![257], vec![514]]),
        (1, vec![vec![257], vec![b'a' as u16]]),
    ];
    for n in [0, 1, 2, 14, 119, 120] {
        let case = Case {
            rulesets: rulesets.clone(),
            line: vec![b'a'; n],
            sheet: cases::to_the_limit(n),
        };
        for base in bases::edges() {
            report.see("edges of the bases", true);
            both(
                report,
                &Call {
                    base,
                    ..case.call(None)
                },
            );
        }
    }
}

/// Every choice of things that are wrong, the base among them: the order of the checks.
pub fn checks(report: &mut Report) {
    let good = Call {
        table: vec![1, 1, 1, 0, 0, 0, 1, b'a' as u16],
        line: b"a".to_vec(),
        sheet: vec![255; 8],
        budget: cases::BUDGET,
        base: bases::GREATEST,
        room: cases::ROOM,
    };
    for wrong in 0..8 {
        let table = if wrong & 1 == 0 { 1 } else { 0 };
        let byte = if wrong & 2 == 0 { b'a' } else { b';' };
        let end = if wrong & 4 == 0 { 255 } else { 2 };
        // A budget of 1 is spent before the match.
        for budget in [0, 1, 2, cases::MOST_BUDGET + 1] {
            for room in [0, cases::ROOM] {
                for base in [bases::GREATEST, bases::GREATEST + 1, u32::MAX] {
                    let mut call = Call {
                        budget,
                        base,
                        room,
                        ..good.clone()
                    };
                    (call.table[0], call.line[0], call.sheet[1]) = (table, byte, end);
                    report.see("choices of what is wrong", true);
                    both(report, &call);
                }
            }
        }
    }
}

/// Random cases of a seed, their boundaries and damaged copies, each under some base.
pub fn random(report: &mut Report, seed: u64, cases: u64) {
    for number in 0..cases {
        let random = &mut Random::new(seed, number);
        let bases = &mut bases::stream(seed, number);
        let case = cases::make(random);
        let mut call = if random.chance(330) {
            case.call(Some(random))
        } else {
            case.call(None)
        };
        if random.chance(10) {
            call.budget = cases::MOST_BUDGET;
        }
        call.base = bases::good(bases);
        let [mut scan, mut lookup] = both(report, &call);
        if scan.number == 9 {
            call.room = cases::MOST_ROOM;
            [scan, lookup] = both(report, &call);
        }
        let crowd = cases::is_crowd(&case);
        if crowd {
            records_due(report, &call, &scan);
        }
        if crowd || random.chance(100) {
            budgets(report, &call, scan.visits);
            budgets(report, &call, lookup.visits);
        }
        if scan.number == 0 && random.chance(100) {
            rooms(report, &call, scan.words as usize);
        }
        if random.chance(300) {
            for _ in 0..3 {
                let mut call = cases::damaged(random, &call);
                call.base = bases::good(bases);
                report.see("damaged copies", true);
                both(report, &call);
                if bases.chance(300) {
                    refused(report, &call, bases);
                }
            }
        }
        if bases.chance(100) {
            refused(report, &call, bases);
        }
        // Drawn last: what is drawn before it stays the same for a seed.
        if !crowd && random.chance(250) {
            let mut call = cases::filled(random, &case).call(None);
            call.base = bases::good(bases);
            let [scan, _] = both(report, &call);
            report.see("lines with filled sheets", true);
            report.see("  matched", scan.number == 0);
        }
    }
}

/// Deep cases of a seed, from a stream of their own, and their boundaries, each under some base.
pub fn deep(report: &mut Report, seed: u64, cases: u64) {
    for number in 0..cases {
        let random = &mut Random::new(!seed, number);
        let case = cases::deep(random);
        let mut call = if random.chance(330) {
            case.call(Some(random))
        } else {
            case.call(None)
        };
        call.budget = cases::MOST_BUDGET;
        call.room = cases::MOST_ROOM;
        call.base = bases::good(random);
        let [scan, lookup] = both(report, &call);
        if random.chance(100) {
            budgets(report, &call, scan.visits);
            budgets(report, &call, lookup.visits);
        }
        if scan.number == 0 && random.chance(100) {
            rooms(report, &call, scan.words as usize);
        }
        report.see("deep cases", true);
        if let [tied, count, ..] = scan.answer[..] {
            report.see("  with a reading", true);
            report.see("  with several tied", tied > 1);
            report.see("  with 16 tied or more", tied >= 16);
            report.see("  with a greatest count of 64 or more", count >= 64);
            report.see("  with one of 120", count == 120);
        }
    }
}

/// Every short case, each under some base, one in ten beside base 0.
pub fn short(report: &mut Report) {
    let bases = &mut bases::stream(0, 0);
    cases::short(|case: &Case| {
        let mut call = case.call(None);
        call.base = bases::good(bases);
        if bases.chance(100) {
            both(report, &call);
        } else {
            both_ways(report, &call);
        }
    });
}

fn show(call: &Call) -> String {
    let ends = call.sheet.iter().enumerate().filter(|(_, e)| **e != 255);
    let ends: Vec<String> = ends.map(|(at, end)| format!("{at}:{end}")).collect();
    format!(
        "table {:?} line {:?} sheet of {} with {} budget {} base {} room {}",
        call.table,
        String::from_utf8_lossy(&call.line),
        call.sheet.len(),
        ends.join(" "),
        call.budget,
        call.base,
        call.room
    )
}
