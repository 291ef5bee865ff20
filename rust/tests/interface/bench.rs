//! Document 01's bench cases. Cases 3, 4 and 5 are cuts, and show by the sheet: it has an end under
//! the cut and none under the line's end, or an end under a place that is no cut. Case 6 shows by
//! the rules that lookup leaves out. Cases 1, 6, 8 and 9 answer the same with a carriage return for
//! a space.

use crate::lent::{selected, Call};
use crate::tables::{sheet, table, ALL, MOV};
use tholdrimash::{Answer, Pass, Selection};

/// A table from its text on a line gives these visits and words: no words are no match.
fn told(text: &[u8], line: &[u8], free: &[(usize, usize, u8)], visits: u32, expected: &[u32]) {
    let words = expected.len();
    let call = Call {
        table: &table(text),
        line,
        sheet: &sheet(line.len(), free),
        budget: ALL,
        base: 0,
        room: words + 1,
    };
    let answer = match words {
        0 => Answer::NoMatch { visits },
        _ => Answer::Matched { visits, words },
    };
    assert_eq!(call.both(), (answer, expected.to_vec()));
}

#[test]
fn case_1_overlapping_rules() {
    let matched = Answer::Matched {
        visits: 15,
        words: 11,
    };
    let whole = vec![1, 4, 0, 1, 1, 1, 4, 5, 1, 0, 0];
    assert_eq!(MOV.both(), (matched, whole));
    let line = b"mov\rp";
    assert_eq!(Call { line, ..MOV }.both(), MOV.both());
    assert_eq!(matched.number(), 0);
}

#[test]
fn case_2_budget() {
    let budget = 14;
    Call { budget, ..MOV }.refused(6, Answer::Spent { visits: 14 });
    let budget = 15;
    assert_eq!(Call { budget, ..MOV }.both(), MOV.both());
}

#[test]
fn case_3_cut_for_plus() {
    let ends_at = |end| [1, 2, 0, 0, 1, 0, 0, end];
    told(b"?+b;", b"a+b", &[(0, 1, 1)], 4, &ends_at(1));
    told(b"?+b;", b"+a+b", &[(0, 2, 2)], 4, &ends_at(2));
    told(b"?+c;", b"(a+b)+c", &[(0, 5, 5)], 4, &ends_at(5));
    // Whitespace is nothing seen: the cut is the second sign, and the argument begins at the first.
    let from_1 = [1, 2, 0, 0, 1, 0, 1, 3];
    told(b"?-2;", b"\r-1-2", &[(0, 3, 3)], 4, &from_1);
    told(b"?-1-2;", b"\r-1-2", &[(0, 1, 1)], 1, &[]);
}

#[test]
fn case_4_no_cut_for_plus() {
    told(b"?+b;", b"a)+b", &[(0, 2, 2)], 1, &[]);
    told(b"?+;", b"(})+", &[(0, 3, 3)], 1, &[]);
}

#[test]
fn case_5_cut_for_brackets() {
    let one = [1, 3, 0, 0, 1, 0, 0, 1];
    told(b"?)+b;", b"a)+b", &[(0, 1, 1)], 5, &one);
    let three = [1, 1, 0, 0, 1, 0, 0, 3];
    told(b"?);", b"(a))", &[(0, 3, 3)], 3, &three);
    told(b"?(;", b"((", &[(0, 1, 1)], 1, &[]);
}

/// Lookup tries `mov` and whitespace, then `movp`, and neither `movq` nor `ovp`.
#[test]
fn case_6_prefixes() {
    for line in [b"  MoV p", b"\r MoV\rp"] {
        let call = Call {
            table: &table(b"movq;movp;mov ?;ovp;"),
            line,
            sheet: &sheet(7, &[(5, 7, 7)]),
            budget: ALL,
            base: 0,
            room: 6,
        };
        for (told, visits) in [(call.scan(), 16), (call.lookup(), 11)] {
            let words = 5;
            assert_eq!(
                told,
                (Answer::Matched { visits, words }, vec![1, 4, 0, 1, 0])
            );
        }
    }
}

#[test]
fn case_7_whitespace_at_the_end() {
    told(b"nop ;", b"nop", &[], 5, &[1, 3, 0, 0, 0]);
}

#[test]
fn case_8_whitespace_between() {
    let both = [1, 2, 0, 0, 0];
    told(b"a x;", b"ax", &[], 2, &[]);
    told(b"a x;", b"a x", &[], 4, &both);
    told(b"ax;", b"ax", &[], 3, &both);
    told(b"ax;", b"a x", &[], 3, &both);
    told(b"a x;", b"a\rx", &[], 4, &both);
    told(b"ax;", b"a\rx", &[], 3, &both);
}

#[test]
fn case_9_ends_with_one_useful_place() {
    let end_2 = [1, 2, 0, 0, 1, 0, 0, 2];
    told(b"?+c;", b"ab +c", &[(0, 5, 2), (0, 3, 3)], 4, &end_2);
    told(b"?+c;", b"ab\r+c", &[(0, 5, 2), (0, 3, 3)], 4, &end_2);
}

#[test]
fn case_10_empty_line() {
    told(b";", b"", &[], 1, &[1, 0, 0, 0, 0]);
}

#[test]
fn case_11_least_size_and_marks() {
    for pass in [Pass::Guessing, Pass::Last] {
        let told = selected(&[134, 71], pass, 3);
        let chosen = Selection::Chosen { count: 1 };
        assert_eq!(told, (chosen, vec![135, 71], vec![1]));
    }
}

#[test]
fn case_12_tie() {
    let sizes = vec![134, 70, 70];
    let told = selected(&sizes, Pass::Last, 3);
    assert_eq!(told, (Selection::Tied { count: 2 }, sizes.clone(), vec![]));
    let told = selected(&sizes, Pass::Guessing, 3);
    assert_eq!(told, (Selection::Chosen { count: 2 }, sizes, vec![1, 2]));
}
