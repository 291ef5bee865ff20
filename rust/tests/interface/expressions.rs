//! Sheets filled from their lines, beside a model of the grammar: numbers 0, 3 and 18, and matching
//! on what was filled.
//!
//! The model goes through a line once from each start, and knows only what it stands in and how many
//! parentheses are open: an expression ends where a word or a closer ends and none is open.

use crate::lent::{fill, Call};
use crate::random::Random;
use crate::tables::{table, ALL, T};
use tholdrimash::{fill_sheet, match_line, sheet_len, sheet_of, Answer, FillAnswer};

/// What a start has passed.
#[derive(Clone, Copy, PartialEq)]
enum Passed {
    /// Nothing, or what a term must follow.
    Sign,
    Number,
    Name,
    Closer,
    /// Whitespace after a term.
    Blank,
}

/// What is passed with one more byte, if an expression can still go on so.
fn step(passed: Passed, open: &mut usize, byte: u8) -> Option<Passed> {
    let wants_term = passed == Passed::Sign;
    match byte {
        b'\t' | b'\r' | b' ' if wants_term => Some(Passed::Sign),
        b'\t' | b'\r' | b' ' => Some(Passed::Blank),
        b'0'..=b'9' if passed == Passed::Name => Some(Passed::Name),
        b'0'..=b'9' if wants_term || passed == Passed::Number => Some(Passed::Number),
        b'A'..=b'Z' | b'a'..=b'z' if wants_term || passed == Passed::Name => Some(Passed::Name),
        b'-' => Some(Passed::Sign),
        b'+' | b'*' | b'/' | b'&' | b'|' if !wants_term => Some(Passed::Sign),
        b'(' if wants_term => {
            *open += 1;
            Some(Passed::Sign)
        }
        b')' if !wants_term && *open > 0 => {
            *open -= 1;
            Some(Passed::Closer)
        }
        _ => None,
    }
}

/// Where expressions from c end, ascending.
fn ends(line: &[u8], c: usize) -> Vec<usize> {
    let (mut passed, mut open, mut ends) = (Passed::Sign, 0, vec![]);
    for (at, &byte) in line.iter().enumerate().skip(c) {
        match step(passed, &mut open, byte) {
            Some(next) => passed = next,
            None => break,
        }
        if open == 0 && !matches!(passed, Passed::Sign | Passed::Blank) {
            ends.push(at + 1);
        }
    }
    ends
}

/// Where runs of digits after whitespace end, ascending.
fn digit_ends(line: &[u8], c: usize) -> Vec<usize> {
    let blank = |byte: &&u8| b"\t\r ".contains(*byte);
    let start = c + line[c..].iter().take_while(blank).count();
    let digits = line[start..].iter().take_while(|b| b.is_ascii_digit());
    (1..=digits.count()).map(|count| start + count).collect()
}

/// The sheet of a line: under each limit the last end that it allows.
fn model(line: &[u8]) -> Vec<u8> {
    let mut sheet = vec![];
    for find in [ends, digit_ends] {
        for c in 0..=line.len() {
            let ends = find(line, c);
            for l in 0..=line.len() {
                let last = ends.iter().filter(|&&end| end <= l).last();
                sheet.push(last.map_or(255, |&end| end as u8));
            }
        }
    }
    sheet
}

/// The line's sheet, held to the model, by a buffer of its length and by one that is made.
fn fills(line: &[u8]) -> Vec<u8> {
    let shown = String::from_utf8_lossy(line);
    let sheet = model(line);
    let bytes = sheet.len();
    assert_eq!(bytes, sheet_len(line.len()));
    let told = (FillAnswer::Filled { bytes }, sheet.clone());
    assert_eq!(fill(line, bytes), told, "{shown}");
    assert_eq!(sheet_of(line), Ok(sheet.clone()), "{shown}");
    sheet
}

/// An entry of a half, 0 or 1, of a line's sheet.
fn entry(line: &str, half: usize, c: usize, l: usize) -> u8 {
    let side = line.len() + 1;
    fills(line.as_bytes())[half * side * side + c * side + l]
}

/// Entries that are known without the model.
#[test]
fn ends_by_hand() {
    for (line, c, l, end) in [
        ("mov p", 3, 5, 5),
        ("mov p", 3, 4, 255), // whitespace alone
        ("mov p", 0, 5, 3),
        ("ab", 0, 1, 1), // a name that the limit cuts
        ("ab", 0, 2, 2),
        ("12ab", 0, 4, 2), // a digit begins no name
        ("a1", 0, 2, 2),
        ("1 +2", 0, 3, 1), // no term after the plus, and not the space before it
        ("1 +2", 0, 4, 4),
        ("--1", 0, 3, 3),
        ("1--1", 0, 4, 4),
        ("1++1", 0, 4, 1),
        ("+1", 0, 2, 255),
        ("()", 0, 2, 255),
        ("(1", 0, 2, 255),
        ("(1)", 0, 2, 255),
        ("( 1 )*2", 0, 5, 5),
        ("( 1 )*2", 0, 6, 5),
        ("( 1 )*2", 0, 7, 7),
        ("1 )", 0, 3, 1),
        ("a(1)", 0, 4, 1),
        ("\t\r -\t\r 1", 0, 8, 8),
    ] {
        assert_eq!(entry(line, 0, c, l), end, "free({c}, {l}) of {line}");
    }
    for (line, c, l, end) in [
        ("12", 0, 2, 2),
        ("12", 0, 1, 1),
        (" \t\r12x", 0, 6, 5),
        (" 1", 0, 1, 255),
        ("-1", 0, 2, 255),
        ("a1", 0, 2, 255),
        ("(1", 0, 2, 255),
        ("1 2", 0, 3, 1),
    ] {
        assert_eq!(entry(line, 1, c, l), end, "greedy({c}, {l}) of {line}");
    }
}

/// Entries whose start lies above their limit.
#[test]
fn above_the_limit_is_255() {
    for line in [&b"1"[..], b"a+b", b"-(1)", b"((1)*2)-3"] {
        let side = line.len() + 1;
        for (at, &byte) in fills(line).iter().enumerate() {
            let (c, l) = (at / side % side, at % side);
            assert!(c <= l || byte == 255, "{at}");
            assert!(byte == 255 || (c..=l).contains(&usize::from(byte)), "{at}");
        }
    }
}

/// Every line of up to five bytes out of these; whitespace at the end is number 3.
#[test]
fn short_lines() {
    let bytes = b"1a-+( )";
    for n in 0..=5 {
        for number in 0..bytes.len().pow(n) {
            let digit = |at| number / bytes.len().pow(at) % bytes.len();
            let line: Vec<u8> = (0..n).map(|at| bytes[digit(at)]).collect();
            match line.last() {
                Some(b' ') => refused(&line, sheet_len(line.len()), 3, bad_line(line.len() - 1)),
                _ => drop(fills(&line)),
            }
        }
    }
}

/// Each byte alone, and between two words.
#[test]
fn every_byte() {
    for byte in 0..=255 {
        for line in [&[byte][..], &[b'1', byte, b'2'], &[b'a', byte, b'b']] {
            let place = line.len() / 2;
            let blank = [9, 13, 32].contains(&byte);
            match (33..127).contains(&byte) && byte != b';' || blank && place > 0 {
                true => drop(fills(line)),
                false => refused(line, sheet_len(line.len()), 3, bad_line(place)),
            }
        }
    }
}

/// A line as long as one can be.
fn longest(piece: &[u8], last: &[u8]) -> Vec<u8> {
    let mut line = piece.repeat(120);
    line.truncate(120 - last.len());
    line.extend(last);
    line
}

#[test]
fn longest_lines() {
    for (piece, last) in [
        (&b"1"[..], &b"1"[..]),
        (b"a", b"a"),
        (b"a1", b"b"),
        (b"-", b"1"),
        (b"-", b"-"),
        (b" ", b"1"),
        (b"\t\r ", b"x"),
        (b"(", b"1"),
        (b"1+", b"11"),
        (b"1+", b"+"),
        (b"(1)*", b"a"),
        (b"-(a + 12)\t&\r", b"1"),
        (b"delta 5 + stem*2, (left - 3) ", b"8"),
    ] {
        let sheet = fills(&longest(piece, last));
        assert_eq!(sheet.len(), 29_282);
    }
    let minuses = fills(&longest(b"-", b"1"));
    assert_eq!(minuses[120], 120);
}

/// Parentheses have no bound but the line's length.
#[test]
fn deep_lines() {
    for depth in 1..60 {
        let line = [b"(".repeat(depth), b"1".to_vec(), b")".repeat(depth)].concat();
        let side = line.len() + 1;
        let sheet = fills(&line);
        assert_eq!(sheet[side - 1], line.len() as u8);
        assert_eq!(sheet[side - 2], 255);
    }
    let unclosed = [b"(".repeat(60), b"1".to_vec(), b")".repeat(59)].concat();
    let sheet = fills(&unclosed);
    assert_eq!((sheet[120], sheet[121 + 120]), (255, 120));
}

/// A random line: of pieces that make expressions, with some bytes changed.
fn random_line(random: &mut Random) -> Vec<u8> {
    let most = random.pick(&[8, 16, 40, 120]);
    let pieces: &[&[u8]] = match random.below(4) {
        0 => &[b"(", b"(", b")", b"1", b"+", b"-"],
        1 => &[
            b"12+", b"ab*", b"-", b"(x/", b"y)|", b"7&", b" ", b"\t", b"\r",
        ],
        2 => &[b"1", b"a", b"9Z", b"z0", b" ", b"-", b"+(", b")"],
        _ => &[
            b"(1", b")", b") - ", b"a", b"@", b"[", b"`", b"{", b"/", b":", b"^", b"_",
        ],
    };
    let mut line = vec![];
    while line.len() < most && !random.one_in(60) {
        line.extend(random.pick(pieces));
    }
    for _ in 0..random.below(3) {
        let at = random.below(line.len() + 1);
        line.insert(at, random.pick(b"01azAZ+-*/&|()\t\r ,.#$%"));
    }
    line.truncate(120);
    while line.last().is_some_and(|last| b"\t\r ".contains(last)) {
        line.pop();
    }
    line
}

#[test]
fn random_lines() {
    let random = &mut Random(5);
    for _ in 0..2_000 {
        fills(&random_line(random));
    }
}

fn bad_line(place: usize) -> FillAnswer {
    FillAnswer::BadLine { place }
}

/// A sheet of so many bytes is refused with this number and left as it is.
fn refused(line: &[u8], room: usize, number: u32, refusal: FillAnswer) {
    assert_eq!(fill(line, room), (refusal, vec![]));
    assert_eq!(refusal.number(), number);
    assert_eq!(refusal.written(), Err(refusal));
}

/// The line is judged before the sheet's length.
#[test]
fn bad_line_is_3_with_its_place() {
    for (line, place) in [
        (&[b'1'; 121][..], 120),
        (b"1;2;", 1),
        (b"1\0", 1),
        (b"1 ", 1),
        (b" ", 0),
        (b"a\r", 1),
        (b"\t", 0),
        (b"1\n+2", 1),
        (b"(1)\x7f", 3),
    ] {
        let right = 2 * (line.len() + 1).pow(2);
        for room in [right, right - 1, right + 1, 0, 1] {
            refused(line, room, 3, bad_line(place));
        }
        assert_eq!(sheet_of(line), Err(bad_line(place)));
    }
    let said = |place| bad_line(place).to_string();
    assert_eq!(said(120), "the line is longer than 120 bytes");
    assert_eq!(said(119), "the line is bad at byte 119");
}

#[test]
fn wrong_length_is_18() {
    for n in [0, 1, 2, 60, 119, 120] {
        let line = vec![b'1'; n];
        let right = sheet_len(n);
        for room in [right - 1, right + 1, right / 2, 0, 2 * n * n, 2 * right] {
            refused(&line, room, 18, FillAnswer::BadRoom);
        }
    }
    let said = FillAnswer::BadRoom.to_string();
    assert_eq!(said, "the sheet's length is not that of the line's sheet");
}

#[test]
fn filled_is_0() {
    let told = fill_sheet(b"", &mut [0; 2]);
    assert_eq!(told, FillAnswer::Filled { bytes: 2 });
    assert_eq!((told.number(), told.written()), (0, Ok(2)));
    assert_eq!(told.to_string(), "the sheet is filled: 2 bytes");
}

/// What matching gives on a line's filled sheet.
fn matched(table: &[u16], line: &[u8]) -> (Answer, Vec<u32>) {
    let sheet = &sheet_of(line).expect("a good line");
    Call {
        table,
        line,
        sheet,
        budget: ALL,
        base: 0,
        room: 64,
    }
    .both()
}

#[test]
fn matching_on_filled_sheets() {
    let (told, words) = matched(&T, b"mov 7");
    assert_eq!((told.number(), told.visits()), (0, 13));
    assert_eq!(words, [1, 3, 0, 0, 1, 0, 4, 5]);
    let (told, words) = matched(&T, b"mov p");
    assert_eq!((told.number(), told.visits()), (0, 15));
    assert_eq!(words, [1, 4, 0, 1, 1, 1, 4, 5, 1, 0, 0]);

    let two = table(b"d?,?;");
    let (_, words) = matched(&two, b"d 5 + stem*2, (left - 3)");
    assert_eq!(words, [1, 2, 0, 0, 2, 0, 2, 12, 0, 14, 24]);
    // The expression goes on past the plus; the one that the cut ends is a reading too.
    let sum = table(b"?+?;");
    let (_, words) = matched(&sum, b"1+2+3");
    assert_eq!(words, [1, 1, 0, 0, 2, 0, 0, 1, 0, 2, 5]);
}

/// A filled sheet is never bad.
#[test]
fn never_4() {
    let random = &mut Random(6);
    let rules = table(b"?;?+?;(?);a?;?\x81;|?;-?;");
    for _ in 0..500 {
        let line = random_line(random);
        let sheet = sheet_of(&line).expect("a good line");
        let mut room = vec![0; 4096];
        let told = match_line(&rules, &line, &sheet, ALL, 0, &mut room);
        assert_ne!(told, Answer::BadSheet);
    }
}
