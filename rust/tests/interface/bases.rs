//! Bases: what a base moves beside a model that moves words, and that nothing else depends on it.

use crate::lent::Call;
use crate::random::Random;
use crate::refusals::GOOD;
use crate::tables::{chain, sheet, table, ALL, MOV, T};
use tholdrimash::{lookup_line, match_line, sheet_of, Answer, Kind, Readings, GREATEST_BASE};

/// From both sides of where 16 bits, a sign and 32 bits end.
pub const BASES: [u32; 8] = [
    0,
    1,
    7,
    65_535,
    65_536,
    (1 << 31) - 1,
    1 << 31,
    GREATEST_BASE,
];

pub const TOO_GREAT: [u32; 2] = [GREATEST_BASE + 1, u32::MAX];

/// Document 02's sentence, over answer words: "each start and end becomes base plus offset". A
/// refusal has no words, and none to move.
pub fn moved(words: &[u32], base: u32) -> Vec<u32> {
    let mut moved = words.to_vec();
    if let Some(&matches) = words.first() {
        let end = (0..matches).fold(2, |at, _| move_tree(&mut moved, at, base));
        assert_eq!(end, words.len());
    }
    moved
}

/// Moves the tree that begins here, and says where it ends.
fn move_tree(words: &mut [u32], at: usize, base: u32) -> usize {
    let arguments = words[at + 2];
    (0..arguments).fold(at + 3, |at, _| {
        words[at + 1] += base;
        words[at + 2] += base;
        match words[at] {
            0 => at + 3,
            _ => move_tree(words, at + 3, base),
        }
    })
}

/// At each of these bases scan and lookup give the same number, visits, words and place as at 0, and
/// the words moved; so all else in them stays.
fn alike(call: Call<'_>, bases: &[u32]) {
    assert_eq!(call.base, 0);
    let (scan, lookup) = (call.scan(), call.lookup());
    for &base in bases {
        let call = Call { base, ..call };
        assert_eq!(call.scan(), (scan.0, moved(&scan.1, base)), "base {base}");
        let expected = (lookup.0, moved(&lookup.1, base));
        assert_eq!(call.lookup(), expected, "base {base}");
    }
}

#[test]
fn a_base_moves_starts_and_ends() {
    for base in BASES {
        let matched = Answer::Matched {
            visits: 15,
            words: 11,
        };
        let words = vec![1, 4, 0, 1, 1, 1, base + 4, base + 5, 1, 0, 0];
        assert_eq!(Call { base, ..MOV }.both(), (matched, words));
    }
    alike(MOV, &BASES);
}

/// A register in brackets, which are an operand, and an expression beside it.
#[test]
fn nested_arguments_are_moved() {
    let call = Call {
        table: &table(b"m\x81,?;|(\x82);|p;q;"),
        line: b"m (q),7",
        sheet: &sheet(7, &[(6, 7, 7)]),
        budget: ALL,
        base: 0,
        room: 20,
    };
    for base in BASES {
        let at = |offset: u32| base + offset;
        let operand = [1, 5, 0, 0, 2, 1, at(2), at(5), 1, 0, 1];
        let register = [1, at(3), at(4), 2, 1, 0];
        let words = [&operand[..], &register, &[0, at(6), at(7)]].concat();
        assert_eq!(Call { base, ..call }.both().1, words);
    }
    alike(call, &BASES);
    // A buffer that is too short needs as many words at every base.
    alike(Call { room: 19, ..call }, &BASES);
}

/// The deepest nesting, with eight arguments at each depth.
#[test]
fn the_deepest_match_is_moved() {
    let deepest = Call {
        table: &chain(b"???????", b'?'),
        line: b"",
        sheet: &[0; 2],
        budget: ALL,
        base: 0,
        room: 461,
    };
    assert_eq!(deepest.both().0.number(), 0);
    alike(deepest, &BASES);
}

/// A line of 120 bytes at the greatest base ends at the last place that 32 bits hold.
#[test]
fn the_greatest_end() {
    let mut line = [b'7'; 120];
    line[..2].copy_from_slice(b"m ");
    let sheet = &sheet_of(&line).expect("a good line");
    let base = GREATEST_BASE;
    for (rules, words) in [
        (&b"m?;"[..], &[1, 1, 0, 0, 1, 0, base + 2, u32::MAX][..]),
        (
            b"m\x81;|?;",
            &[
                1,
                1,
                0,
                0,
                1,
                1,
                base + 2,
                u32::MAX,
                1,
                0,
                1,
                0,
                base + 2,
                u32::MAX,
            ],
        ),
        // An argument of no bytes at the line's end.
        (
            b"m?\x81;|;",
            &[
                1,
                1,
                0,
                0,
                2,
                0,
                base + 2,
                u32::MAX,
                1,
                u32::MAX,
                u32::MAX,
                1,
                0,
                0,
            ],
        ),
    ] {
        let call = Call {
            table: &table(rules),
            line: &line,
            sheet,
            budget: ALL,
            base,
            room: 16,
        };
        assert_eq!(call.both().1, words);
        alike(Call { base: 0, ..call }, &BASES);
        let base = base + 1;
        Call { base, ..call }.refused(19, Answer::BadBase);
    }
}

/// Each number but 19 has its visits, its words and its place at every base.
#[test]
fn refusals_are_the_same() {
    let deep = &chain(b"", 128 + 17);
    let full = &table(b"\x81\x81\x81\x81\x81\x81\x81;|;;;");
    let empty = Call {
        line: b"",
        sheet: &[255; 2],
        ..GOOD
    };
    for (number, call) in [
        (0, GOOD),
        (1, Call { line: b"b", ..GOOD }),
        (2, Call { table: &[], ..GOOD }),
        (
            3,
            Call {
                line: b"a;",
                ..GOOD
            },
        ),
        (4, Call { sheet: &[], ..GOOD }),
        (5, Call { budget: 0, ..GOOD }),
        (6, Call { budget: 1, ..GOOD }),
        (
            7,
            Call {
                table: deep,
                ..GOOD
            },
        ),
        (
            8,
            Call {
                table: full,
                ..empty
            },
        ),
        (9, Call { room: 10, ..MOV }),
    ] {
        assert_eq!(call.scan().0.number(), number);
        alike(call, &BASES);
    }
}

/// An inner match that is found under the limit, and again under the cut, counts once.
#[test]
fn the_same_arguments_at_every_base() {
    let call = Call {
        table: &table(b"\x81+\x81;|?;a;"),
        line: b"a+a",
        sheet: &sheet(3, &[(0, 1, 1), (0, 3, 1), (2, 3, 3)]),
        budget: ALL,
        base: 0,
        room: 64,
    };
    let readings = Readings::read(&call.both().1).expect("a whole answer");
    assert_eq!((readings.count, readings.trees.len()), (3, 1));
    alike(call, &BASES);
}

/// Spans of each line of a file, by the place where it begins, are its arguments' bytes.
#[test]
fn spans_index_the_file() {
    let file = b"  mov q\r\nmov 7\n\nmov\t(x - 2)\n";
    let lines = [(0, 7), (9, 14), (16, 27)];
    let arguments = [&b"q"[..], b"7", b"(x - 2)"];
    for ((start, end), argument) in lines.into_iter().zip(arguments) {
        let line = &file[start..end];
        let sheet = sheet_of(line).expect("a good line");
        for function in [match_line, lookup_line] {
            let mut answer = [0; 16];
            let told = function(&T, line, &sheet, ALL, start as u32, &mut answer);
            let words = told.written().expect("a line that matches");
            let readings = Readings::read(&answer[..words]).expect("a whole answer");
            let found = &readings.trees[0].arguments[0];
            assert_eq!(found.bytes(file), Some(argument));
            assert_eq!(matches!(found.kind, Kind::Nested(_)), argument == b"q");
            // Of a file that ends before it, there are none.
            assert_eq!(found.bytes(&file[..end - 1]), None);
        }
    }
}

/// Rules that overlap and nest, so that many lines have readings.
const MANY: &[u8] = b"a;?;a?;?+?;\x81;a\x81;\x81+\x81;?\x81;|a;b;ab;?;a\x82;|b;?;+\x82;";

#[test]
fn random_lines_at_any_base() {
    let mut random = Random(0x3C6E_F372_FE94_F82B);
    let mut matched = 0;
    for _ in 0..2_000 {
        let table = match random.below(4) {
            0 => random.table(),
            _ => table(MANY),
        };
        let line = random.line();
        let call = Call {
            table: &table,
            line: &line.bytes,
            sheet: &line.sheet,
            budget: line.budget,
            base: 0,
            room: random.pick(&[8, 64, 512]),
        };
        let near = random.below(1 << 20) as u32;
        alike(call, &[near, GREATEST_BASE - near, random.pick(&BASES)]);
        matched += usize::from(call.scan().0.number() == 0);

        // Too great a base is told unless a number from 2 to 5 is.
        let base = random.pick(&TOO_GREAT);
        let told = Call { base, ..call }.both();
        let expected = match call.scan().0 {
            earlier @ (Answer::BadTable
            | Answer::BadLine { .. }
            | Answer::BadSheet
            | Answer::BadBudget) => earlier,
            _ => Answer::BadBase,
        };
        assert_eq!(told, (expected, vec![]));
    }
    assert!(matched > 300, "{matched} matched");
}
