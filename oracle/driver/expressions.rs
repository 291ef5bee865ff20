//! Compares filled sheets: on every line with the grammar (grammar.rs), every entry of both halves, and what a refusal leaves.
use crate::cases;
use crate::grammar;
use crate::model;
use crate::random::Random;
use crate::report::Report;
use crate::sides;

fn room_for(line: &[u8]) -> usize {
    2 * (line.len() + 1) * (line.len() + 1)
}

fn compare(report: &mut Report, line: &[u8], room: usize) {
    let (told, left_alone) = sides::proved_fill(line, room);
    let expected = grammar::fill(line, room);
    report.see("sheets", true);
    report.see(number_name(expected.number), true);
    let same = told == expected && left_alone;
    // Document 01's own check of a sheet.
    let good = told.number != 0 || model::good_sheet(&told.sheet, line.len());
    if !same || !good {
        report.differ(format!(
            "sheet of {:?}, {room} bytes: {} (the rest unchanged: {left_alone}; good: {good})",
            String::from_utf8_lossy(line),
            difference(&told, &expected, line.len())
        ));
        return;
    }
    if told.number == 0 {
        seen(report, line, &told.sheet);
    }
}

/// The fields that differ, or the first entry that does.
fn difference(told: &grammar::Filled, expected: &grammar::Filled, n: usize) -> String {
    let fields = |f: &grammar::Filled| [f.number, f.visits, f.words, f.place];
    let other = told.sheet.iter().zip(&expected.sheet).position(|(a, b)| a != b);
    match other {
        Some(at) if fields(told) == fields(expected) => {
            let half = ["free", "greedy"][at / ((n + 1) * (n + 1))];
            let (c, l) = (at / (n + 1) % (n + 1), at % (n + 1));
            let (own, by_grammar) = (told.sheet[at], expected.sheet[at]);
            format!("{half}({c}, {l}): proved {own}, document 02 {by_grammar}")
        }
        _ => format!("proved {:?}, document 02 {:?}", fields(told), fields(expected)),
    }
}

fn number_name(number: u32) -> &'static str {
    match number {
        0 => "number 0",
        3 => "number 3",
        _ => "number 18",
    }
}

/// What a sheet's entries show.
fn seen(report: &mut Report, line: &[u8], sheet: &[u8]) {
    let n = line.len();
    let (free, greedy) = sheet.split_at(sheet.len() / 2);
    let ends = |half: &[u8]| half.iter().filter(|end| **end != 255).count();
    // Free ends below their limit, and those where the limit parts two bytes that a word may have beside each other.
    let (mut short, mut cut) = (0, 0);
    for (at, end) in free.iter().enumerate().filter(|(_, end)| **end != 255) {
        let (end, limit) = (*end as usize, at % (n + 1));
        short += (end < limit) as usize;
        cut += (end < n && end == limit && line[end - 1..=end].iter().all(u8::is_ascii_alphanumeric)) as usize;
    }
    report.add("entries compared", sheet.len());
    report.add("  free ends", ends(free));
    report.add("  below the limit", short);
    report.add("  at a limit between two letters or digits", cut);
    report.add("  greedy ends", ends(greedy));
    report.see("lines of 100 bytes or more", n >= 100);
    report.see("lines with a byte 13", line.contains(&13));
    // The expression from each start under the last limit, where there is one.
    let whole = (0..=n).filter_map(|c| line.get(c..free[c * (n + 1) + n] as usize));
    let whole: Vec<&[u8]> = whole.collect();
    report.see("an expression of 60 bytes or more", whole.iter().any(|e| e.len() >= 60));
    report.see("one nested more than 16 deep", whole.iter().any(|e| deepest(e) > 16));
}

/// How deep an expression's parentheses nest.
fn deepest(expression: &[u8]) -> usize {
    let (mut open, mut most) = (0, 0);
    for byte in expression {
        match byte {
            b'(' => open += 1,
            b')' => open -= 1,
            _ => {}
        }
        most = most.max(open);
    }
    most
}

/// Names the numbers first, so that they stand together.
pub fn numbers(report: &mut Report) {
    report.see("sheets", false);
    for number in [0, 3, 18] {
        report.see(number_name(number), false);
    }
}

/// Every line of at most six bytes out of a digit, a letter, two signs, both parentheses and a space; and those of at most
/// two with every room up to two more than their sheet's.
pub fn short(report: &mut Report) {
    for line in cases::all_up_to(b"1a-+( )", 6) {
        compare(report, &line, room_for(&line));
        if line.len() <= 2 {
            for room in 0..room_for(&line) + 3 {
                compare(report, &line, room);
            }
        }
    }
}

/// Every byte alone, and between, before and after words.
pub fn all_bytes(report: &mut Report) {
    for byte in 0..=255 {
        for line in [
            &[byte][..],
            &[b'1', byte, b'2'],
            &[b'a', byte, b'b'],
            &[b'(', byte, b')'],
            &[byte, b'1'],
        ] {
            compare(report, line, room_for(line));
        }
    }
}

/// Random lines of a seed, long and deep ones among them, and damaged ones.
pub fn random(report: &mut Report, seed: u64, cases: u64) {
    for number in 0..cases {
        let random = &mut Random::new(seed ^ 0x6578_7072, number);
        let mut line = cases::expression_line(random);
        compare(report, &line, room_for(&line));
        if random.chance(300) {
            cases::damage_line(random, &mut line);
            let room = room_for(&line);
            let room = *random.pick(&[room, room, room, room - 1, room + 1, room / 2, 0]);
            compare(report, &line, room);
        }
    }
}
