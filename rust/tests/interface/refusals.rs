//! Matching's numbers 1 to 9 and 19, each reached by scan and by lookup.

use crate::lent::Call;
use crate::tables::{chain, sheet, table, ALL, MOV};
use tholdrimash::{Answer, Readings, GREATEST_BASE};

/// The rule `a` on `a`: a good call, to be spoilt.
pub const GOOD: Call = Call {
    table: &[1, 1, 1, 0, 0, 0, 1, 97],
    line: b"a",
    sheet: &[255; 8],
    budget: ALL,
    base: 0,
    room: 5,
};

#[test]
fn no_match_is_1() {
    let line = b"b";
    let none = |visits| (Answer::NoMatch { visits }, vec![]);
    assert_eq!(Call { line, ..GOOD }.scan(), none(1));
    assert_eq!(Call { line, ..GOOD }.lookup(), none(0));
    assert_eq!(Answer::NoMatch { visits: 1 }.number(), 1);
}

#[test]
fn bad_table_is_2() {
    let [one_short @ .., _] = GOOD.table else {
        unreachable!()
    };
    let semicolon = [one_short, &[59]].concat();
    let one_long = [GOOD.table, &[97]].concat();
    for table in [&[], one_short, &one_long, &semicolon] {
        Call { table, ..GOOD }.refused(2, Answer::BadTable);
    }
}

#[test]
fn bad_line_is_3_with_its_place() {
    for (line, place) in [
        (&[b'a'; 121][..], 120),
        (b"a;b;", 1),
        (b"a\0", 1),
        (b"a ", 1),
        (b" ", 0),
        (b"a\r", 1),
        (b"\r", 0),
        (b"a\nb", 1),
    ] {
        Call { line, ..GOOD }.refused(3, Answer::BadLine { place });
    }
    let said = |place| Answer::BadLine { place }.to_string();
    assert_eq!(said(120), "the line is longer than 120 bytes");
    assert_eq!(said(119), "the line is bad at byte 119");
}

#[test]
fn bad_sheet_is_4() {
    let end_before_start = sheet(1, &[(1, 1, 0)]);
    let end_past_limit = sheet(1, &[(0, 0, 1)]);
    for sheet in [
        &[][..],
        &[255; 7],
        &[255; 9],
        &end_before_start,
        &end_past_limit,
    ] {
        Call { sheet, ..GOOD }.refused(4, Answer::BadSheet);
    }
    // An entry whose start lies above its limit may hold any byte.
    let sheet = &sheet(1, &[(1, 0, 77)]);
    assert_eq!(Call { sheet, ..GOOD }.both(), GOOD.both());
}

#[test]
fn bad_budget_is_5() {
    for budget in [0, ALL + 1, u32::MAX] {
        Call { budget, ..GOOD }.refused(5, Answer::BadBudget);
    }
}

#[test]
fn bad_base_is_19() {
    for base in [GREATEST_BASE + 1, u32::MAX] {
        Call { base, ..GOOD }.refused(19, Answer::BadBase);
        Call { base, ..MOV }.refused(19, Answer::BadBase);
    }
    let base = GREATEST_BASE;
    assert_eq!(Call { base, ..GOOD }.both(), GOOD.both());
    assert_eq!(Answer::BadBase.visits(), 0);
    let said = Answer::BadBase.to_string();
    assert_eq!(said, "the base is above 4,294,967,175");
}

#[test]
fn checks_run_2_3_4_5_19() {
    let mut call = Call {
        table: &[],
        line: b";",
        sheet: &[],
        budget: 0,
        base: u32::MAX,
        room: 0,
    };
    call.refused(2, Answer::BadTable);
    call.table = GOOD.table;
    call.refused(3, Answer::BadLine { place: 0 });
    call.line = GOOD.line;
    call.refused(4, Answer::BadSheet);
    call.sheet = GOOD.sheet;
    call.refused(5, Answer::BadBudget);
    call.budget = GOOD.budget;
    call.refused(19, Answer::BadBase);
}

/// A bad base is told before all that the walk may meet, and before the room.
#[test]
fn number_19_comes_before_the_walk() {
    let base = GREATEST_BASE + 1;
    let deep = &chain(b"", 128 + 17);
    let full = &table(b"\x81\x81\x81\x81\x81\x81\x81;|;;;");
    let empty = Call {
        line: b"",
        sheet: &[255; 2],
        ..GOOD
    };
    for (number, call) in [
        (1, Call { line: b"b", ..GOOD }),
        (6, Call { budget: 1, ..GOOD }),
        (
            7,
            Call {
                table: deep,
                ..GOOD
            },
        ),
        (
            8,
            Call {
                table: full,
                ..empty
            },
        ),
        (9, Call { room: 4, ..GOOD }),
    ] {
        assert_eq!(call.scan().0.number(), number);
        Call { base, ..call }.refused(19, Answer::BadBase);
    }
}

#[test]
fn spent_budget_is_6() {
    let budget = 1;
    Call { budget, ..GOOD }.refused(6, Answer::Spent { visits: 1 });
}

#[test]
fn depth_17_is_7() {
    let table = &chain(b"", 128 + 17);
    Call { table, ..GOOD }.refused(7, Answer::TooDeep { visits: 17 });
}

/// Ruleset 1 has three rules with no part. A rule that names it k times makes r(k) records on an
/// empty line: r(0) is 1, its match, and r(k) is 3 + 3 * (1 + r(k-1)), 3 inner matches and an
/// argument for each. So r(6) is 2,913 and r(7) is 8,745.
#[test]
fn record_4097_is_8() {
    let six = Call {
        table: &table(b"\x81\x81\x81\x81\x81\x81;|;;;"),
        line: b"",
        sheet: &[255; 2],
        room: 28_433,
        ..GOOD
    };
    let (told, words) = six.both();
    assert_eq!(told.visits(), 2185);
    let readings = Readings::read(&words).expect("a whole answer");
    assert_eq!(readings.trees.len(), 729);

    let table = &table(b"\x81\x81\x81\x81\x81\x81\x81;|;;;");
    Call { table, ..six }.refused(8, Answer::PoolFull { visits: 3077 });
}

#[test]
fn too_long_an_answer_is_9() {
    for room in [0, 1, 10] {
        let (visits, words) = (15, 11);
        Call { room, ..MOV }.refused(9, Answer::TooLong { visits, words });
    }
    let room = 11;
    assert_eq!(Call { room, ..MOV }.both().0.written(), Ok(11));
}
