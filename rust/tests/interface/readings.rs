//! Answer words read as trees: those of matches, and any others.

use crate::lent::Call;
use crate::tables::{chain, ALL};
use std::thread;
use tholdrimash::{Argument, Kind, Readings, Tree};

/// One reading of a rule that nests `depth` deep.
fn nested(depth: usize) -> Vec<u32> {
    let mut words = vec![1, 0];
    for _ in 0..depth {
        words.extend([0, 0, 1, 1, 0, 0]);
    }
    words.extend([0, 0, 0]);
    words
}

#[test]
fn trees_of_a_match() {
    let leaf = |ruleset, rule| Tree {
        ruleset,
        rule,
        arguments: vec![],
    };
    let expected = Readings {
        count: 4,
        trees: vec![
            Tree {
                ruleset: 0,
                rule: 1,
                arguments: vec![
                    Argument {
                        span: 4..5,
                        kind: Kind::Nested(leaf(1, 7)),
                    },
                    Argument {
                        span: 6..9,
                        kind: Kind::Expression,
                    },
                ],
            },
            leaf(2, 3),
        ],
    };
    let words = [2, 4, 0, 1, 2, 1, 4, 5, 1, 7, 0, 0, 6, 9, 2, 3, 0];
    assert_eq!(Readings::read(&words), Some(expected));
}

/// The deepest match, with the most arguments at each depth, takes the most stack: some 128 KiB.
#[test]
fn deepest_match_is_read() {
    let deepest = || {
        let call = Call {
            table: &chain(b"???????", b'?'),
            line: b"",
            sheet: &[0; 2],
            budget: ALL,
            base: 0,
            room: 461,
        };
        call.both()
    };
    let thread = thread::Builder::new().stack_size(256 * 1024);
    let (_, words) = thread.spawn(deepest).unwrap().join().unwrap();
    let readings = Readings::read(&words).expect("a whole answer");
    let mut tree = &readings.trees[0];
    for ruleset in 0..16 {
        assert_eq!((tree.ruleset, tree.arguments.len()), (ruleset, 8));
        let Kind::Nested(inner) = &tree.arguments[7].kind else {
            panic!("ruleset {ruleset} nests none")
        };
        tree = inner;
    }
    assert_eq!((tree.ruleset, tree.arguments.len()), (16, 8));
}

#[test]
fn only_whole_answers_are_read() {
    let words = nested(2);
    assert!(Readings::read(&words).is_some());
    for end in 0..words.len() {
        assert_eq!(Readings::read(&words[..end]), None, "{end} words");
    }
    assert_eq!(Readings::read(&[&words[..], &[0]].concat()), None);
    // An argument is 0 or 1, expression or nested.
    assert_eq!(Readings::read(&[1, 0, 0, 0, 1, 2, 0, 0]), None);
}

#[test]
fn depth_17_is_not_read() {
    assert!(Readings::read(&nested(16)).is_some());
    assert_eq!(Readings::read(&nested(17)), None);
    assert_eq!(Readings::read(&nested(100_000)), None);
}

/// Small words, so that many are a tree's start: none may stop the reader, whatever they promise.
#[test]
fn any_words_are_read_or_refused() {
    let mut seed = 1_u32;
    let mut whole = 0;
    for _ in 0..20_000 {
        let words: Vec<u32> = (0..12)
            .map(|_| {
                seed = seed.wrapping_mul(1_664_525).wrapping_add(1_013_904_223);
                (seed >> 24) % 3
            })
            .collect();
        whole += (0..=12)
            .filter(|&end| Readings::read(&words[..end]).is_some())
            .count();
    }
    assert!(whole > 10_000, "{whole} were whole");
    assert_eq!(Readings::read(&[u32::MAX; 9]), None);
}
