//! Compares programs: on every input with the model's rows and words, each line of number 0, 1 or 9 with what the Rust answers
//! to that line alone, lookup with the scan, and a program with that of the same lines under base 0.
use crate::bases;
use crate::cases;
use crate::matching::{number_name, with_rust};
use crate::model::{self, Answer, ProgramAnswer, ProgramCall};
use crate::random::Random;
use crate::report::Report;
use crate::sides::proved_program;
use crate::ways;

/// Compares one call; what it gave, and on number 0 each line as a single call of that answer.
fn compare(report: &mut Report, call: &ProgramCall, lookup: bool) -> (ProgramAnswer, Vec<Answer>) {
    let (told, left_alone) = proved_program(call, lookup);
    let (expected, lines) = model::program(call, lookup);

    let how = if lookup { "lookup" } else { "scan" };
    report.see("program calls", true);
    report.see(program_name(expected.number), true);
    if told != expected || !left_alone {
        report.differ(format!(
            "{how}: proved {told:?} (the rest unchanged: {left_alone}), document 02 {expected:?} of {call:?}"
        ));
        return (told, Vec::new());
    }
    let mut answers = Vec::new();
    for (i, (single, own, walked)) in lines.into_iter().enumerate() {
        // What the program says of the line; visits and the words that it needs are not in the rows.
        let (number, before) = (told.rows[2 * i], told.rows[2 * i + 1] as usize);
        let after = told
            .rows
            .get(2 * i + 3)
            .map_or(told.answers.len(), |word| *word as usize);
        let answer = Answer {
            number,
            answer: told.answers[before..after].to_vec(),
            ..own
        };
        report.see("lines", true);
        report.see(number_name(number), true);
        if matches!(number, 0 | 1 | 9) {
            with_rust(report, &single, lookup, how, &answer, walked);
        }
        answers.push(answer);
    }
    seen(report, call, &told);
    if told.number == 0 && !told.rows.iter().step_by(2).any(|number| *number == 19) {
        beside_zero(report, call, lookup, how, &told, &answers);
    }
    (told, answers)
}

/// Compares a program of which no line is refused by 19 with what the proved code says of it under bases 0: the rows are the
/// same, and every start and end is moved by its line's base. (A line that is refused by 19 may leave room to later ones.)
fn beside_zero(
    report: &mut Report,
    call: &ProgramCall,
    lookup: bool,
    how: &str,
    told: &ProgramAnswer,
    lines: &[Answer],
) {
    let at_zero = ProgramCall {
        bases: vec![0; call.bases.len()],
        ..call.clone()
    };
    let (zero, _) = proved_program(&at_zero, lookup);
    let same = zero.rows == told.rows && zero.answers.len() == told.answers.len();
    let moved = |(line, (row, base)): (&Answer, (&[u32], &u32))| {
        let words = zero
            .answers
            .get(row[1] as usize..)
            .and_then(|words| words.get(..line.answer.len()));
        let moved = words.and_then(|words| bases::moved(words, *base));
        moved.is_some_and(|moved| moved.into_iter().eq(line.answer.iter().map(|word| *word as u64)))
    };
    let rows = told.rows.chunks(2).zip(&call.bases);
    report.see("programs held to bases 0", true);
    if !same || !lines.iter().zip(rows).all(moved) {
        report.differ(format!("{how}: proved {told:?}, under bases 0 {zero:?} of {call:?}"));
    }
}

fn program_name(number: u32) -> &'static str {
    match number {
        0 => "program number 0",
        2 => "program number 2",
        _ => "program number 17",
    }
}

/// What a program that is read exercises.
fn seen(report: &mut Report, call: &ProgramCall, told: &ProgramAnswer) {
    if told.number != 0 {
        return;
    }
    let numbers: Vec<u32> = told.rows.iter().copied().step_by(2).collect();
    let first = |number| numbers.iter().position(|n| *n == number);
    let last = |number| numbers.iter().rposition(|n| *n == number);
    let starts = [0].iter().chain(&call.ends);
    let lengths: Vec<u32> = call.ends.iter().zip(starts).map(|(end, start)| end - start).collect();
    report.see("programs without a line", numbers.is_empty());
    report.see("programs of 256 lines", numbers.len() == 256);
    report.see("  an empty line", lengths.contains(&0));
    let longer = lengths.iter().position(|n| *n > 120);
    report.see(
        "  a match after a line of more than 120 bytes",
        longer.is_some_and(|at| last(0).is_some_and(|matched| matched > at)),
    );
    report.see(
        "  a match after an answer that found no room",
        first(9).is_some_and(|full| last(0).is_some_and(|matched| matched > full)),
    );
    report.see(
        "  a match after a base that is too great",
        first(19).is_some_and(|refused| last(0).is_some_and(|matched| matched > refused)),
    );
    report.see(
        "  answers exactly full",
        told.answers.len() == call.room && call.room > 0,
    );
    let end = call.ends.last().map_or(0, |end| *end as usize);
    report.see("  text after the last end", end < call.text.len());
}

/// A program by scan and by lookup, and one beside the other, line by line while the room left is the same.
fn both(report: &mut Report, call: &ProgramCall) -> ProgramAnswer {
    let [(scan, scans), (lookup, lookups)] = [false, true].map(|lookup| compare(report, call, lookup));
    let decided = scans.iter().take_while(|line| !matches!(line.number, 6..=8));
    for (line, (own, other)) in decided.zip(&lookups).enumerate() {
        let what = if own.number == other.number && !ways::decides(own) {
            None
        } else {
            ways::difference(own, other)
        };
        report.see("lines of lookup held to the scan", true);
        if let Some(what) = what {
            report.differ(format!(
                "line {line}: {what}: scan {own:?}, lookup {other:?} of {call:?}"
            ));
        }
    }
    if scan.number == 0 && !scans.iter().any(|line| matches!(line.number, 6..=8)) {
        report.see("programs whose rows by lookup are the scan's", true);
        if scan.rows != lookup.rows {
            report.differ(format!(
                "rows {:?} by scan, {:?} by lookup of {call:?}",
                scan.rows, lookup.rows
            ));
        }
    }
    scan
}

/// Names the numbers first, so that they stand together.
pub fn numbers(report: &mut Report) {
    report.see("program calls", false);
    for number in [0, 2, 17] {
        report.see(program_name(number), false);
    }
    report.see("lines", false);
    for number in [0, 1, 3, 4, 5, 6, 7, 8, 9, 19] {
        report.see(number_name(number), false);
    }
}

/// A base for each line: half of the programs have some that are too great.
fn some_bases(random: &mut Random, lines: usize) -> Vec<u32> {
    let refused = *random.pick(&[0, 250]);
    let one = |_| {
        if random.chance(refused) {
            bases::too_great(random)
        } else {
            bases::good(random)
        }
    };
    (0..lines).map(one).collect()
}

/// Every list of at most three ends from 0 to 4 over the text `aaa`, with as many sheets, budgets, bases and rows as its lines
/// have, and with one byte or word more and fewer of each; and with every room up to what three answers take. The table has
/// a rule that is a nested `a`, one that is `a a` and one of no parts.
pub fn shapes(report: &mut Report) {
    let random = &mut bases::stream(0, 0);
    let table = vec![2, 4, 4, 0, 1, 0, 0, 1, 0, 1, 2, 0, 3, 0, 1, 3, 1, 513, 97, 97, 97];
    for ends in cases::all_up_to(&[0, 1, 2, 3, 4], 3) {
        let starts = [0].iter().chain(&ends);
        let side = |(end, start): (&u32, &u32)| end.saturating_sub(*start) as usize + 1;
        let sheets = ends.iter().zip(starts).map(side).map(|side| 2 * side * side).sum();
        let good = ProgramCall {
            table: table.clone(),
            text: b"aaa".to_vec(),
            sheets: vec![255; sheets],
            budgets: vec![cases::BUDGET; ends.len()],
            bases: some_bases(random, ends.len()),
            rows: 2 * ends.len(),
            room: 64,
            ends,
        };
        both(report, &good);
        // A line that would end before it begins is bad whatever sheet it has: above that of an empty line, here none.
        let falls = |pair: &[u32]| pair[0] > pair[1];
        let fallen = 2 * good.ends.windows(2).filter(|pair| falls(pair)).count();
        if fallen > 0 {
            let mut none = good.clone();
            none.sheets.truncate(good.sheets.len() - fallen);
            both(report, &none);
        }
        for more in [false, true] {
            let resized = |length: usize| if more { length + 1 } else { length.saturating_sub(1) };
            let mut spoilt = [good.clone(), good.clone(), good.clone(), good.clone()];
            spoilt[0].sheets.resize(resized(good.sheets.len()), 255);
            spoilt[1].budgets.resize(resized(good.budgets.len()), cases::BUDGET);
            spoilt[2].rows = resized(good.rows);
            spoilt[3].bases.resize(resized(good.bases.len()), 0);
            for call in &spoilt {
                both(report, call);
            }
        }
        for room in 0..34 {
            both(report, &ProgramCall { room, ..good.clone() });
        }
    }
}

/// Random programs of a seed, in rooms that are enough and too small, and damaged copies.
pub fn random(report: &mut Report, seed: u64, cases: u64) {
    for number in 0..cases {
        let random = &mut Random::new(seed, number);
        let bases = &mut bases::stream(seed, number);
        let mut call = cases::program(random);
        call.bases = some_bases(bases, call.ends.len());
        let told = both(report, &call);
        let words = told.answers.len();
        if told.number == 0 && words > 0 && random.chance(300) {
            for room in [words, words - 1, random.below(words)] {
                both(report, &ProgramCall { room, ..call.clone() });
            }
        }
        if random.chance(300) {
            report.see("damaged programs", true);
            both(report, &cases::damaged_program(random, &call));
        }
        if bases.chance(100) {
            let mut call = call.clone();
            cases::resize(bases, &mut call.bases, 0);
            report.see("bases of another length", call.bases.len() != call.ends.len());
            both(report, &call);
        }
    }
}
