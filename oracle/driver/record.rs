//! The recorded sample: calls, and what the Rust answers to each. The crate `recorded`, a program of the gate, replays the
//! calls on the proved code, and what it writes is held to the answers: so the gate needs no Rust.
//!
//! On document 01's domain the answer's words are the Rust's, and its visits what the Rust's calls show, with those that
//! they don't show (count.rs) added by the model. A refusal is the model's. The proved code has no part in this.
//!
//! A call is a line of crates/recorded/stdin, its answer a line of crates/recorded/stdout; that crate's main file says how
//! they read.
use crate::bases;
use crate::cases::{self, Case};
use crate::grammar;
use crate::model::{self, Answer, Call};
use crate::notation::rule;
use crate::random::Random;
use crate::sides;
use std::fmt::Write;

const SEED: u64 = 2026;
const RANDOM_CASES: usize = 150;

/// What stands at each place of a buffer before a call: no answer word and no index is this.
const UNTOUCHED: u32 = 4_000_000_000;
const UNTOUCHED_INDEX: u16 = 65535;

/// Stands for: as much room as the answer needs, and a place more.
const FITTING: usize = usize::MAX;

#[derive(Default)]
struct Sample {
    calls: String,
    answers: String,
}

fn numbers<T: Into<u64> + Copy>(list: &[T]) -> String {
    let mut text = String::new();
    for n in list {
        let n: u64 = (*n).into();
        write!(text, " {n}").unwrap();
    }
    text
}

/// The answer of document 01, which on its domain is held to the Rust's.
fn answer_of(call: &Call, lookup: bool) -> Answer {
    let (answer, walked) = model::answer(call, lookup);
    if answer.number <= 1 || answer.number == 9 {
        let (words, seen) = sides::rust_match(call, lookup).expect("the Rust panics");
        let visits = seen.parts + seen.completed + walked.short_ends;
        assert!(answer.visits as u64 == visits);
        if answer.number == 9 {
            assert!(words.len() == answer.words as usize);
        } else {
            assert!(words.into_iter().eq(answer.answer.iter().map(|word| *word as u64)));
        }
    }
    answer
}

impl Sample {
    fn matching(&mut self, name: &str, call: &Call, lookup: bool) {
        let how = if lookup { "lookup" } else { "scan" };
        let named: Vec<[u16; 2]> = call
            .sheet
            .iter()
            .enumerate()
            .filter(|(_, end)| **end != 255)
            .map(|(at, end)| [at as u16, *end as u16])
            .collect();
        writeln!(
            self.calls,
            "{name}, {how}: {} {} {} {} {}{} {}{} {} {}{}",
            lookup as u32,
            call.budget,
            call.base,
            call.room,
            call.table.len(),
            numbers(&call.table),
            call.line.len(),
            numbers(&call.line),
            call.sheet.len(),
            named.len(),
            numbers(&named.concat())
        )
        .unwrap();

        let told = answer_of(call, lookup);
        let mut buffer = told.answer;
        buffer.resize(call.room, UNTOUCHED);
        writeln!(
            self.answers,
            "{name}, {how}: {} {} {} {} |{}",
            told.number,
            told.visits,
            told.words,
            told.place,
            numbers(&buffer)
        )
        .unwrap();
    }

    fn both(&mut self, name: &str, call: &Call) {
        for lookup in [false, true] {
            let mut call = call.clone();
            if call.room == FITTING {
                call.room = model::answer(&call, lookup).0.words as usize + 1;
            }
            self.matching(name, &call, lookup);
        }
    }

    /// A call with the given things changed.
    fn but(&mut self, name: &str, call: &Call, change: impl FnOnce(&mut Call)) {
        let mut call = call.clone();
        change(&mut call);
        self.both(name, &call);
    }

    fn selection(&mut self, name: &str, words: &[u32], room: usize) {
        for last in [false, true] {
            let pass = if last { "last pass" } else { "guessing pass" };
            writeln!(
                self.calls,
                "{name}, {pass}: {} {room} {}{}",
                2 + last as u32,
                words.len(),
                numbers(words)
            )
            .unwrap();

            let told = model::select(words, last, room);
            if told.number != 10 && told.number != 14 {
                assert!(sides::rust_choice(words, last, told.number).expect("the Rust panics") == told);
            }
            let mut buffer = told.chosen;
            buffer.resize(room, UNTOUCHED_INDEX);
            writeln!(
                self.answers,
                "{name}, {pass}: {} {} |{} |{}",
                told.number,
                told.count,
                numbers(&told.words),
                numbers(&buffer)
            )
            .unwrap();
        }
    }
}

/// A call from rulesets and a sheet's ends: half, start, limit and end of each. The first ruleset is a top one, and so is
/// another whose first text is `top`.
fn call(rulesets: &[&[&str]], line: &str, ends: &[[usize; 4]]) -> Call {
    let n = line.len();
    let mut sheet = vec![255; 2 * (n + 1) * (n + 1)];
    for [half, c, l, end] in ends {
        sheet[half * (n + 1) * (n + 1) + c * (n + 1) + l] = *end as u8;
    }
    let case = Case {
        rulesets: rulesets
            .iter()
            .enumerate()
            .map(|(set, rules)| match rules {
                ["top", rules @ ..] => (0, rules.iter().map(|r| rule(r)).collect()),
                rules => ((set > 0) as u16, rules.iter().map(|r| rule(r)).collect()),
            })
            .collect(),
        line: line.as_bytes().to_vec(),
        sheet,
    };
    Call {
        room: FITTING,
        budget: cases::MOST_BUDGET,
        ..case.call(None)
    }
}

/// Document 01's table T on `mov p`.
fn on_t() -> Call {
    let t: &[&[&str]] = &[&["mov {}", "mov {1}"], &["p", "q"]];
    call(t, "mov p", &[[0, 3, 5, 5]])
}

/// Bench case 6: rules that lookup tells apart by the line's prefix.
fn by_prefix() -> Call {
    let six: &[&[&str]] = &[&["movq", "movp", "mov {}", "ovp"]];
    call(six, "  MoV p", &[[0, 5, 7, 7]])
}

/// A rule whose three ends lead to one useful place, past a space at 2.
fn one_useful_place() -> Call {
    let same = [[0, 0, 5, 2], [0, 0, 3, 3], [1, 0, 5, 2]];
    call(&[&["{}+a"]], "aa +a", &same)
}

/// Document 01's bench cases 1 to 10. Cases 3, 4 and 5 are cuts, and show by the sheet: it has an end under the cut and none
/// under the line's end, or an end under a place that is no cut. Case 6 shows by the rules that lookup leaves out.
fn bench(sample: &mut Sample) {
    let first = on_t();
    sample.both("bench 1", &first);
    sample.but("bench 2, budget 14", &first, |c| c.budget = 14);
    sample.but("bench 2, budget 15", &first, |c| c.budget = 15);
    for (rule, line, end) in [
        ("{}+b", "a+b", 1),
        ("{}+b", "+a+b", 2),
        ("{}+c", "(a+b)+c", 5),
        ("{}+b", "a)+b", 2),
        ("{}+", "(})+", 3),
        ("{})+b", "a)+b", 1),
        ("{})", "(a))", 3),
        ("{}(", "((", 1),
    ] {
        let name = format!("bench 3 to 5, {rule} on {line}");
        sample.both(&name, &call(&[&[rule]], line, &[[0, 0, end, end]]));
    }
    sample.both("bench 6", &by_prefix());
    sample.both("bench 7", &call(&[&["nop "]], "nop", &[]));
    sample.both("bench 8, a white x", &call(&[&["a x"]], "ax", &[]));
    sample.both("bench 8, a white x", &call(&[&["a x"]], "a x", &[]));
    sample.both("bench 8, a x", &call(&[&["ax"]], "a x", &[]));
    sample.both("bench 9", &call(&[&["{}+c"]], "ab +c", &[[0, 0, 5, 2], [0, 0, 3, 3]]));
    sample.both("bench 10", &call(&[&[""]], "", &[]));
}

/// Order, duplicates, both cuts, both limits.
fn steps(sample: &mut Sample) {
    let ends = [[0, 0, 3, 3], [0, 1, 3, 3], [0, 2, 3, 3]];
    let kin: &[&[&str]] = &[&["ab{}", "a{1}c", "{}", "{1}bc"], &["a", "b"]];
    sample.both("order of scan and of lookup", &call(kin, "abc", &ends));
    let twice: &[&[&str]] = &[&["a{}", "a{}", "A{}"]];
    sample.both("a rule three times", &call(twice, "ab", &[[0, 1, 2, 2]]));
    let three = [
        [0, 0, 7, 5],
        [0, 0, 1, 1],
        [1, 0, 7, 3],
        [0, 2, 7, 7],
        [0, 4, 7, 7],
        [0, 6, 7, 7],
    ];
    sample.both("three ends in order", &call(&[&["{}+{}"]], "a+b+c+d", &three));
    sample.both("ends with one useful place", &one_useful_place());
    let inner: &[&[&str]] = &[&["{1}+b"], &["a", "a", "A"]];
    sample.both("an inner match under limit and cut", &call(inner, "a+b", &[]));
    let deep: &[&[&str]] = &[&["{1}+b"], &["{2}"], &["{}"]];
    let spans = [[0, 0, 3, 1], [0, 0, 1, 1]];
    sample.both("equal all the way down", &call(deep, "a+b", &spans));

    sample.both("an expression's cut", &call(&[&["{}+b"]], "a+b", &[[0, 0, 1, 1]]));
    sample.both(
        "a cut beside the uncut end",
        &call(
            &[&["{}+{}"]],
            "a+b+c",
            &[[0, 0, 5, 3], [0, 0, 1, 1], [0, 4, 5, 5], [0, 2, 5, 5]],
        ),
    );
    let nested: &[&[&str]] = &[&["{1}+b"], &["{}"]];
    sample.both("a nested cut", &call(nested, "a+b", &[[0, 0, 1, 1]]));
    sample.both(
        "no cut before anything",
        &call(&[&["{}-2"]], "-1-2", &[[0, 0, 2, 2], [0, 0, 0, 0]]),
    );
    sample.both(
        "no cut within brackets",
        &call(&[&["{}+b"]], "(a+a)+b", &[[0, 0, 5, 5], [0, 0, 2, 2]]),
    );
    sample.both("no cut past a closer", &call(&[&["{}+b"]], "a)+b", &[[0, 0, 2, 2]]));

    let back: &[&[&str]] = &[&["{1}+{}"], &["{}"]];
    sample.both(
        "the limit goes back after a cut",
        &call(back, "a+b", &[[0, 0, 1, 1], [0, 2, 3, 3]]),
    );
    sample.both(
        "a top rule must end at the line's end",
        &call(&[&["a", "ab"]], "ab", &[]),
    );
    let short: &[&[&str]] = &[&["{1}b"], &["a", "ab"]];
    sample.both("a nested rule need not", &call(short, "ab", &[]));
    sample.both("a start before its end", &call(&[&["a{}b"]], "a b", &[[0, 1, 3, 1]]));
    let nested_only: &[&[&str]] = &[&["{1}"], &["a"]];
    sample.both("nested only", &call(nested_only, "a", &[]));
    sample.both("case", &call(&[&["Ab"], &[]], "aB", &[]));
    let most: &[&[&str]] = &[&["{}{}", "a{}", "{}b", "ab", "aB"]];
    sample.both("most exact parts", &call(most, "ab", &[[0, 0, 2, 1], [0, 1, 2, 2]]));
    let one: &[&[&str]] = &[&["{}b"]];
    sample.both("the greedy end alone", &call(one, "1b", &[[0, 0, 2, 2], [1, 0, 2, 1]]));
    sample.both(
        "a greedy end that repeats",
        &call(one, "1b", &[[0, 0, 2, 1], [1, 0, 2, 1]]),
    );
    sample.both(
        "lookahead over whitespace, in either case",
        &call(&[&["{} x"]], "a X", &[[0, 0, 2, 1]]),
    );
    let before = call(&[&["{}{}+"]], "a+", &[[0, 0, 1, 1], [0, 1, 2, 1]]);
    sample.both("no lookahead past a parameter", &before);
    sample.both("whitespace at the cut", &call(&[&["{1}+c"], &["a "]], "a+c", &[]));
    sample.both("an inner match of nothing", &call(&[&["a{1}b"], &[""]], "a b", &[]));
    sample.both("trees within trees", &call(&[&["{1}"], &["({1})", "a"]], "((a))", &[]));
    let within: &[&[&str]] = &[&["a", "b{0}"], &["top", "ba"]];
    sample.both("a ruleset top and nested", &call(within, "ba", &[]));
    let tops: &[&[&str]] = &[&["a{}"], &["a"], &["top", "a{}"]];
    sample.both("two top rulesets", &call(tops, "ab", &[[0, 1, 2, 2]]));
    let counts: &[&[&str]] = &[&["a{}", "a{1}", "ab"], &["b"]];
    sample.both("a count with a nested one", &call(counts, "ab", &[[0, 1, 2, 2]]));
    sample.both("no rule", &call(&[&[]], "a", &[]));
    sample.both("a rule with no parts on a line", &call(&[&[""]], "a", &[]));
}

/// Byte 13 wherever whitespace is asked for, at every place of a line, and last, where it is refused as any whitespace is.
fn carriage_returns(sample: &mut Sample) {
    sample.but("13 for the space of bench 1", &on_t(), |c| c.line[3] = 13);
    sample.but("13 in a line's prefix", &by_prefix(), |c| {
        (c.line[0], c.line[5]) = (13, 13)
    });
    sample.both("13 at a whitespace part", &call(&[&["a x"]], "a\rx", &[]));
    sample.both("13 before an exact part", &call(&[&["ax"]], "a\rx", &[]));
    let cuts = [[0, 0, 3, 3], [0, 0, 1, 1]];
    sample.both("no cut with 13 alone before it", &call(&[&["{}-2"]], "\r-1-2", &cuts));
    sample.both("a cut after 13", &call(&[&["{}+b"]], "a\r+b", &[[0, 0, 2, 1]]));
    sample.but("ends with one useful place, past 13", &one_useful_place(), |c| {
        c.line[2] = 13
    });
    sample.both(
        "an argument's start past 13",
        &call(&[&["a{}", "a{1}"], &["b"]], "a\rb", &[[0, 1, 3, 3]]),
    );
    for place in 0..=2 {
        let mut line = String::from("ab");
        line.insert(place, '\r');
        sample.both(
            &format!("13 at {place} of a line of 3"),
            &call(&[&["ab", "a b", " ab"]], &line, &[]),
        );
    }
    sample.both("13 alone", &call(&[&[""]], "\r", &[]));
}

/// Trees three deep, with an expression at each depth.
fn nested_spans() -> Call {
    let rules: &[&[&str]] = &[&["{1}"], &["({1}, {})", "{}"]];
    let line = "((ab, c), de)";
    Call {
        sheet: grammar::sheet(line.as_bytes()),
        ..call(rules, line, &[])
    }
}

/// Bases on both sides of what 16 and 31 bits hold, the greatest, and those that are refused.
fn file_places(sample: &mut Sample) {
    let [sixteen, signed] = bases::MARKS;
    for base in [
        1,
        200,
        sixteen - 5,
        sixteen - 1,
        sixteen,
        signed - 4,
        signed,
        bases::GREATEST - 1,
        bases::GREATEST,
        bases::GREATEST + 1,
        u32::MAX,
    ] {
        sample.but(&format!("bench 1 at {base}"), &on_t(), |c| c.base = base);
    }
    for base in [sixteen - 7, signed - 2, bases::GREATEST] {
        sample.but(&format!("trees three deep at {base}"), &nested_spans(), |c| {
            c.base = base
        });
        sample.but(
            &format!("ends with one useful place at {base}"),
            &one_useful_place(),
            |c| c.base = base,
        );
        let inner: &[&[&str]] = &[&["{1}+b"], &["a", "a", "A", "{}"]];
        let twice = call(inner, "a+b", &[[0, 0, 3, 1], [0, 0, 1, 1]]);
        sample.but(&format!("inner matches that are the same at {base}"), &twice, |c| {
            c.base = base
        });
        let apart: &[&[&str]] = &[&["{1}+{}"], &["{}"]];
        let ends = [[0, 0, 5, 3], [0, 0, 1, 1], [0, 2, 5, 5], [0, 4, 5, 5]];
        sample.but(
            &format!("inner matches that differ by an end at {base}"),
            &call(apart, "a+b+c", &ends),
            |c| c.base = base,
        );
    }
    let long = call(&[&["{}", "{1}"], &["{}"]], &"a".repeat(120), &[[0, 0, 120, 120]]);
    for base in [bases::GREATEST - 1, bases::GREATEST, bases::GREATEST + 1] {
        sample.but(&format!("a line of 120 at {base}"), &long, |c| c.base = base);
    }
    let past = bases::GREATEST + 1;
    let good = on_t();
    sample.but("2 before 19", &good, |c| (c.table[0], c.base) = (0, past));
    sample.but("3 before 19", &good, |c| (c.line[0], c.base) = (59, past));
    sample.but("4 before 19", &good, |c| (c.sheet[23], c.base) = (6, past));
    sample.but("5 before 19", &good, |c| (c.budget, c.base) = (0, past));
    sample.but("19 before 6", &good, |c| (c.budget, c.base) = (1, past));
    sample.but("19 before 7", &chain(18), |c| c.base = past);
    sample.but("19 before 1", &call(&[&["b"]], "a", &[]), |c| c.base = past);
    sample.but("19 before 9", &good, |c| (c.room, c.base) = (0, past));
}

/// So many rulesets, all top, rules in the first of them, and parts in each rule, all `b` but those of the last rule, which
/// are `a`; on so many `a`.
fn large(rulesets: usize, rules: usize, parts: usize) -> Call {
    let of = |i: usize| vec![if i + 1 < rules { b'b' as u16 } else { b'a' as u16 }; parts];
    let mut sets = vec![(0, vec![]); rulesets];
    sets[0].1 = (0..rules).map(of).collect();
    let case = Case {
        rulesets: sets,
        line: vec![b'a'; parts],
        sheet: vec![255; 2 * (parts + 1) * (parts + 1)],
    };
    Call {
        room: FITTING,
        budget: cases::MOST_BUDGET,
        ..case.call(None)
    }
}

/// Document 01's sizes, each met and passed by one, and the longest line.
fn limits(sample: &mut Sample) {
    sample.both("32 rulesets", &large(32, 2, 1));
    sample.both("33 rulesets", &large(33, 2, 1));
    sample.both("512 rules", &large(1, 512, 1));
    sample.both("513 rules", &large(1, 513, 1));
    sample.both("64 parts in a rule, 8,192 in all", &large(1, 128, 64));
    sample.but("8,193 parts", &large(1, 128, 64), |c| {
        c.table[2] += 1;
        c.table.push(98);
    });
    sample.both("65 parts in a rule", &large(1, 2, 65));
    let parameters = |n: usize| call(&[&[&"{}".repeat(n)]], "", &[[0, 0, 0, 0]]);
    sample.both("8 parameters", &parameters(8));
    sample.both("9 parameters", &parameters(9));
    let shared = call(&[&["ab", "ab"]], "ab", &[]);
    sample.but("part counts past the parts", &shared, |c| {
        c.table[2] = 2;
        c.table.truncate(c.table.len() - 2);
        c.table[8] = 0;
    });
    let long = "a".repeat(120);
    sample.both("a line of 120", &call(&[&["{}"]], &long, &[[0, 0, 120, 120]]));
}

/// Rulesets that lead one to the next, the last an expression: depth is their number less one.
fn chain(rulesets: u16) -> Call {
    let rules = |s| if s + 1 < rulesets { vec![513 + s] } else { vec![257] };
    let case = Case {
        rulesets: (0..rulesets).map(|s| ((s > 0) as u16, vec![rules(s)])).collect(),
        line: b"x".to_vec(),
        sheet: vec![255, 1, 0, 255, 255, 255, 0, 255],
    };
    Call {
        room: FITTING,
        ..case.call(None)
    }
}

/// So many records: 3,752 and one for each empty rule.
fn crowd(empty: usize) -> Call {
    let mut top = vec![vec![513; 5]];
    top.extend(vec![vec![]; empty]);
    let case = Case {
        rulesets: vec![(0, top), (1, vec![vec![]; 4])],
        line: vec![],
        sheet: vec![255; 2],
    };
    Call {
        room: 2,
        budget: cases::MOST_BUDGET,
        ..case.call(None)
    }
}

/// A million visits: one rule leads to 99, each to 100, each to 100 that fail. 1 + 99 + 9,900 + 990,000.
fn million() -> Call {
    let case = Case {
        rulesets: vec![
            (0, vec![vec![513]]),
            (1, vec![vec![514]; 99]),
            (1, vec![vec![515]; 100]),
            (1, vec![vec![b'b' as u16]; 100]),
        ],
        line: b"a".to_vec(),
        sheet: vec![255; 8],
    };
    Call {
        room: FITTING,
        budget: cases::MOST_BUDGET,
        ..case.call(None)
    }
}

/// Each refusal, the order of the checks, and the limits on both sides.
fn refusals(sample: &mut Sample) {
    let good = call(&[&["a{}", "{1}b"], &["a", "{}"]], "ab", &[[0, 0, 2, 1], [0, 1, 2, 2]]);
    sample.both("good", &good);
    for (at, word) in [
        (0, 0),
        (0, 33),
        (1, 513),
        (2, 8193),
        (3, 2),
        (5, 2),
        (6, 60),
        (7, 65),
        (7, 9),
        (17, 32),
        (17, 13),
        (18, 59),
        (18, 514),
    ] {
        let name = format!("bad table, word {at} is {word}");
        sample.but(&name, &good, |c| c.table[at] = word);
    }
    sample.but("bad table, a word more", &good, |c| c.table.push(97));
    sample.but("bad table, a word fewer", &good, |c| {
        c.table.truncate(c.table.len() - 1)
    });
    sample.but("bad table, no word", &good, |c| c.table.clear());
    for (place, byte) in [
        (0, 59),
        (1, 127),
        (1, 32),
        (0, 0),
        (1, 9),
        (0, 10),
        (1, 13),
        (0, 12),
        (0, 14),
    ] {
        let name = format!("bad line, byte {place} is {byte}");
        sample.but(&name, &good, |c| c.line[place] = byte);
    }
    sample.but("bad line, 121 bytes", &good, |c| c.line = vec![b'a'; 121]);
    for (at, end) in [(2, 3), (4, 0), (5, 0), (13, 0), (3, 254), (6, 200), (15, 9)] {
        let name = format!("sheet, entry {at} is {end}");
        sample.but(&name, &good, |c| c.sheet[at] = end);
    }
    sample.but("bad sheet, a byte more", &good, |c| c.sheet.push(255));
    sample.but("bad sheet, a byte fewer", &good, |c| c.sheet.truncate(17));
    for budget in [0, 1, 1_000_000, 1_000_001, u32::MAX] {
        sample.but(&format!("budget {budget}"), &good, |c| c.budget = budget);
    }
    sample.but("2 before 3", &good, |c| (c.table[0], c.line[0]) = (0, 59));
    sample.but("3 before 4", &good, |c| (c.line[0], c.sheet[2]) = (59, 3));
    sample.but("4 before 5", &good, |c| (c.sheet[2], c.budget) = (3, 0));
    for room in [0, 1, 10, 11, 12] {
        sample.but(&format!("room {room}"), &good, |c| c.room = room);
    }
    sample.but("no match before a short buffer", &call(&[&["b"]], "a", &[]), |c| {
        c.room = 0
    });
    sample.both("1,000,000 visits, budget 1,000,000", &million());
    sample.but("1,000,000 visits, budget 999,999", &million(), |c| c.budget -= 1);
    for rulesets in [17, 18] {
        sample.both(&format!("depth {}", rulesets - 1), &chain(rulesets));
    }
    // The last ruleset's rule is taken away: its flag stands at 3 + 17, the number of rules at 1 and of parts at 2.
    sample.but("depth 17, an empty ruleset", &chain(18), |c| {
        c.table.drain(3 + 18 + 3 * 17..3 + 18 + 3 * 18);
        c.table.pop();
        (c.table[1], c.table[2]) = (17, 17);
    });
    sample.but("depth 17, budget 17", &chain(18), |c| c.budget = 17);
    sample.but("depth 17, budget 16", &chain(18), |c| c.budget = 16);
    for empty in [344, 345] {
        sample.both(&format!("{} records", 3752 + empty), &crowd(empty));
    }
    sample.but("4097 records, budget 3074", &crowd(345), |c| c.budget = 3074);
    sample.but("4097 records, budget 3073", &crowd(345), |c| c.budget = 3073);
}

/// Random cases that are short enough to be read, a third of them under other bases than 0.
fn random(sample: &mut Sample) {
    let mut made = 0;
    for number in 0.. {
        if made == RANDOM_CASES {
            return;
        }
        let random = &mut Random::new(SEED, number);
        let case = cases::make(random);
        let mut call = case.call(None);
        call.budget = 500;
        call.room = FITTING;
        let told = model::answer(&call, false).0;
        let dull = told.number == 1 && number % 4 > 0;
        if call.table.len() > 60 || call.line.len() > 5 || told.words > 60 || dull {
            continue;
        }
        made += 1;
        if made % 3 == 0 {
            call.base = bases::good(&mut bases::stream(SEED, number));
        }
        sample.both(&format!("random {number}"), &call);
    }
}

fn selections(sample: &mut Sample) {
    sample.selection("bench 11", &[134, 71], 3);
    sample.selection("bench 12", &[134, 70, 70], 3);
    sample.selection("a tie that marks", &[70, 71, 2, 4], 3);
    sample.selection("least of three sizes", &[198, 70, 134], 3);
    sample.selection("sizes 0 and 65,535", &[524_286, 6], 3);
    sample.selection("unresolved is a guess", &[0, 70], 3);
    sample.selection("unresolved stays 0", &[0, 70, 71, 2, 4], 3);
    sample.selection("none", &[], 3);
    sample.selection("none resolved", &[2, 3, 0], 3);
    sample.selection("none known", &[4, 2], 3);
    sample.selection("no room", &[70, 70, 134], 1);
    sample.selection("no room for one", &[70, 135], 0);
    for word in [1, 8, 10, 12, 524_294, u32::MAX] {
        sample.selection(&format!("bad word {word}"), &[70, word], 3);
    }
    sample.selection("room for the choice and no more", &[135, 70, 70], 2);
    sample.selection("4,096 words", &[14; 4096], 4096);
    sample.selection("4,096 words, no room", &[14; 4096], 0);
    sample.selection("4,097 words", &[14; 4097], 3);
}

/// Writes the calls to `stdin` and the answers to `stdout` of a folder.
pub fn write(folder: &str) -> std::io::Result<()> {
    let sample = &mut Sample::default();
    bench(sample);
    steps(sample);
    carriage_returns(sample);
    file_places(sample);
    limits(sample);
    refusals(sample);
    selections(sample);
    random(sample);
    std::fs::write(format!("{folder}/stdin"), &sample.calls)?;
    std::fs::write(format!("{folder}/stdout"), &sample.answers)
}
