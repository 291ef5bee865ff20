//! Inputs: tables, lines and sheets made from a seed, deep ones apart, short ones exhaustively, programs of several lines,
//! lines of expressions, and damaged copies of good ones.
use crate::grammar;
use crate::model::{self, Call, ProgramCall, WHITE};
use crate::random::Random;

/// Enough for nearly every walk that ends.
pub const BUDGET: u32 = 20_000;

pub const MOST_BUDGET: u32 = 1_000_000;

/// Room for most answers, and for every one that is made here.
pub const ROOM: usize = 300;
pub const MOST_ROOM: usize = 60_000;

type Rule = Vec<u16>;

/// Rulesets as flag and rules, a line and its sheet.
#[derive(Clone)]
pub struct Case {
    pub rulesets: Vec<(u16, Vec<Rule>)>,
    pub line: Vec<u8>,
    pub sheet: Vec<u8>,
}

impl Case {
    /// The call, with base 0. Parts stand one rule after another, or, if `random` is given, in a random
    /// order, with words between that no rule has, and the same words for rules that are equal.
    pub fn call(&self, random: Option<&mut Random>) -> Call {
        Call {
            table: pack(&self.rulesets, random),
            line: self.line.clone(),
            sheet: self.sheet.clone(),
            budget: BUDGET,
            base: 0,
            room: ROOM,
        }
    }
}

fn pack(rulesets: &[(u16, Vec<Rule>)], mut random: Option<&mut Random>) -> Vec<u16> {
    let of_set =
        |(set, (_, rules)): (usize, &(u16, Vec<Rule>))| rules.iter().map(|r| (set, r.clone())).collect::<Vec<_>>();
    let rules: Vec<(usize, Rule)> = rulesets.iter().enumerate().flat_map(of_set).collect();

    let mut order: Vec<usize> = (0..rules.len()).collect();
    if let Some(random) = &mut random {
        random.shuffle(&mut order);
    }
    let mut parts: Vec<u16> = Vec::new();
    let mut first = vec![0; rules.len()];
    let mut placed: Vec<(usize, usize)> = Vec::new();
    for i in order {
        let rule = &rules[i].1;
        if let Some(random) = &mut random {
            let between = *random.pick(&[33, 126, 256, 257, 512]);
            parts.extend(vec![between; *random.pick(&[0, 0, 1, 2])]);
            if let Some((_, at)) = placed.iter().find(|(other, _)| rules[*other].1 == *rule) {
                first[i] = *at;
                // The part counts may not sum to more than there are.
                parts.extend(vec![97; rule.len()]);
                continue;
            }
        }
        first[i] = parts.len();
        placed.push((i, parts.len()));
        parts.extend(rule);
    }

    let mut words = vec![rulesets.len() as u16, rules.len() as u16, parts.len() as u16];
    words.extend(rulesets.iter().map(|(flag, _)| *flag));
    for (i, (set, rule)) in rules.iter().enumerate() {
        words.extend([*set as u16, first[i] as u16, rule.len() as u16]);
    }
    words.extend(parts);
    words
}

/// A sheet from the end of each half's entry; entries whose start lies above their limit hold `unread`.
fn sheet_of(n: usize, unread: u8, mut end: impl FnMut(usize, usize, usize) -> u8) -> Vec<u8> {
    let mut sheet = Vec::with_capacity(2 * (n + 1) * (n + 1));
    for half in 0..2 {
        for c in 0..=n {
            for l in 0..=n {
                sheet.push(if c <= l { end(half, c, l) } else { unread });
            }
        }
    }
    sheet
}

/// A sheet whose ends are all at their limit.
pub fn to_the_limit(n: usize) -> Vec<u8> {
    sheet_of(n, 0, |_, _, l| l as u8)
}

// Random cases.

const ALPHABETS: [&[u8]; 6] = [
    b"aabbAB",
    b"aabA+,-",
    b"aab+()()",
    b"aab+{}{}",
    b"aAb+(){}()",
    b"abcdABxyz019+-*,()[]{}#$&@~_!",
];

/// How long rules are, and how many thousandths of their parts are whitespace, expressions and nested.
#[derive(Clone, Copy)]
struct Shape {
    lengths: &'static [usize],
    white: usize,
    expression: usize,
    nested: usize,
}

const SHAPES: [Shape; 6] = [
    Shape {
        lengths: &[0, 1, 2, 3, 4],
        white: 100,
        expression: 200,
        nested: 150,
    },
    Shape {
        lengths: &[1, 2, 3, 4, 5],
        white: 50,
        expression: 250,
        nested: 250,
    },
    Shape {
        lengths: &[1, 2, 3],
        white: 50,
        expression: 100,
        nested: 400,
    },
    Shape {
        lengths: &[2, 3, 4, 6, 8],
        white: 250,
        expression: 200,
        nested: 100,
    },
    Shape {
        lengths: &[1, 2, 3, 5],
        white: 0,
        expression: 0,
        nested: 0,
    },
    Shape {
        lengths: &[1, 3, 5],
        white: 100,
        expression: 500,
        nested: 100,
    },
];

fn pick_rule(random: &mut Random, sets: usize, own: usize, alphabet: &[u8], shape: Shape) -> Rule {
    let mut rule = Vec::new();
    let mut parameters = 0;
    for _ in 0..*random.pick(shape.lengths) {
        let x = random.below(1000);
        if x < shape.white {
            rule.push(256);
        } else if x < shape.white + shape.expression && parameters < 8 {
            rule.push(257);
            parameters += 1;
        } else if x < shape.white + shape.expression + shape.nested && parameters < 8 {
            // Mostly onward, so that few walks go around for ever.
            let mut from = own + 1;
            if from >= sets || random.chance(60) {
                from = 0;
                if random.chance(800) && !rule.iter().any(|p| *p < 256) {
                    rule.push(*random.pick(alphabet) as u16);
                }
            }
            rule.push(512 + random.between(from, sets - 1) as u16);
            parameters += 1;
        } else {
            rule.push(*random.pick(alphabet) as u16);
        }
    }
    rule
}

fn with_white(alphabet: &[u8]) -> Vec<u8> {
    [alphabet, &WHITE].concat()
}

fn change_case(random: &mut Random, byte: u8) -> u8 {
    if byte.is_ascii_alphabetic() && random.chance(300) {
        byte ^ 32
    } else {
        byte
    }
}

/// How the bytes of an expression are picked.
type Pick<'a> = &'a dyn Fn(&mut Random) -> Vec<u8>;

fn some_bytes(random: &mut Random, alphabet: &[u8]) -> Vec<u8> {
    let count = *random.pick(&[1, 1, 1, 2, 3]);
    (0..count).map(|_| *random.pick(alphabet)).collect()
}

/// A line that the rule might match.
fn expand(random: &mut Random, rulesets: &[(u16, Vec<Rule>)], rule: &Rule, expression: Pick, depth: usize) -> Vec<u8> {
    let mut line = Vec::new();
    for part in rule {
        match part {
            256 => line.extend(*random.pick(&[&b" "[..], b" ", b"\t", b"\r", b"  ", b" \r", b""])),
            257 => line.extend(expression(random)),
            512.. => {
                let rules = &rulesets[*part as usize - 512].1;
                if !rules.is_empty() && depth < 4 {
                    let inner = random.pick(rules).clone();
                    line.extend(expand(random, rulesets, &inner, expression, depth + 1));
                }
            }
            _ => {
                if random.chance(100) {
                    line.push(*random.pick(&WHITE));
                }
                line.push(change_case(random, *part as u8));
            }
        }
    }
    line
}

/// How a sheet's ends are picked: anywhere, at the limit, after a few bytes as a parser would, near the start.
#[derive(Clone, Copy)]
enum Ends {
    Anywhere,
    Limit,
    Token,
    Start,
    Mixed,
}

fn pick_sheet(random: &mut Random, line: &[u8]) -> Vec<u8> {
    let style = *random.pick(&[
        Ends::Anywhere,
        Ends::Anywhere,
        Ends::Limit,
        Ends::Token,
        Ends::Mixed,
        Ends::Start,
    ]);
    let density = [
        *random.pick(&[0, 200, 500, 800, 1000, 1000]),
        *random.pick(&[0, 0, 200, 500, 1000]),
    ];
    let unread = random.next() as u8;
    sheet_of(line.len(), unread, |half, c, l| {
        if !random.chance(density[half]) {
            return 255;
        }
        let how = match style {
            Ends::Mixed => *random.pick(&[Ends::Anywhere, Ends::Limit, Ends::Token]),
            how => how,
        };
        let end = match how {
            Ends::Limit => l,
            Ends::Token => {
                let start = model::useful(line, c, l);
                l.min(start + random.pick(&[1, 1, 1, 2, 3]))
            }
            Ends::Start => l.min(c + random.pick(&[0, 0, 1])),
            _ => random.between(c, l),
        };
        end as u8
    })
}

fn trimmed(mut line: Vec<u8>, most: usize) -> Vec<u8> {
    line.truncate(most);
    while line.last().is_some_and(|b| model::is_white(*b)) {
        line.pop();
    }
    line
}

/// Rules that are one word, each with a part of another kind in some letters' places: equal counts, unequal prefixes.
fn kin(random: &mut Random) -> Case {
    let word: Vec<u8> = (0..random.between(3, 8)).map(|_| *random.pick(b"abAB")).collect();
    let holes = *random.pick(&[1, 1, 1, 2]);
    let mut rules = Vec::new();
    for _ in 0..random.between(2, 6) {
        let mut rule: Rule = word.iter().map(|b| change_case(random, *b) as u16).collect();
        let mut places: Vec<usize> = (0..word.len()).collect();
        random.shuffle(&mut places);
        let holes = if random.chance(900) { holes } else { 0 };
        for at in &places[..holes] {
            rule[*at] = *random.pick(&[257, 257, 513]);
        }
        rules.push(rule);
    }
    let mut letters = word.clone();
    letters.sort();
    letters.dedup();
    let mut nested: Vec<Rule> = letters.iter().map(|b| vec![*b as u16]).collect();
    nested.push(vec![257]);

    let later = if random.chance(400) {
        rules.split_off(rules.len() / 2)
    } else {
        vec![]
    };
    let mut line = Vec::new();
    for byte in &word {
        if random.chance(140) {
            line.push(*random.pick(&WHITE));
        }
        line.push(change_case(random, *byte));
    }
    let greedy = random.chance(500);
    let sheet = sheet_of(line.len(), 0, |half, c, l| {
        if half == 1 && !greedy {
            return 255;
        }
        let white = c < l && model::is_white(line[c]);
        l.min(c + 1 + white as usize) as u8
    });
    Case {
        rulesets: vec![(0, rules), (1, nested), (0, later)],
        line,
        sheet,
    }
}

/// Rulesets that lead one to the next, to the depth that is allowed and past it.
fn chain(random: &mut Random) -> Case {
    let count = random.between(14, 19);
    let (mut rulesets, mut line, mut tail) = (Vec::new(), Vec::new(), Vec::new());
    for s in 0..count {
        let mut rule: Rule = random.pick(&[vec![], vec![], vec![97], vec![98, 256]]).clone();
        for part in &rule {
            line.push(if *part == 256 {
                *random.pick(&WHITE)
            } else {
                *part as u8
            });
        }
        let exact = rule.clone();
        if s + 1 < count {
            rule.push(513 + s as u16);
        } else if random.chance(500) {
            rule.push(257);
            if random.chance(700) {
                line.push(b'x');
            }
        }
        if random.chance(250) {
            rule.push(43);
            tail.push(b'+');
        }
        let mut rules = vec![rule.clone()];
        if random.chance(100) {
            rules.push(random.pick(&[exact, rule]).clone());
        }
        rulesets.push(((s > 0) as u16, rules));
    }
    line.extend(tail);
    let most = *random.pick(&[24, 60]);
    let line = trimmed(line, most);
    let sheet = pick_sheet(random, &line);
    Case { rulesets, line, sheet }
}

/// Many rulesets and rules, up to the most that there may be.
fn many(random: &mut Random) -> Case {
    let alphabet = ALPHABETS[0];
    let shape = Shape {
        lengths: &[0, 1, 2, 3, 4],
        white: 50,
        expression: 150,
        nested: 20,
    };
    let (count, mut left) = (*random.pick(&[8, 20, 32]), *random.pick(&[64, 200, 512]));
    let most = 2 * left / count;
    let mut rulesets = Vec::new();
    for s in 0..count {
        let rules = left.min(random.between(0, most));
        left -= rules;
        let rules = (0..rules)
            .map(|_| pick_rule(random, count, s, alphabet, shape))
            .collect();
        rulesets.push((*random.pick(&[0, 0, 1]), rules));
    }
    let line = (0..random.between(0, 6)).map(|_| *random.pick(b"aabbAB \r")).collect();
    let line = trimmed(line, 6);
    let sheet = pick_sheet(random, &line);
    Case { rulesets, line, sheet }
}

/// About as many records as the pool takes. A rule of five parameters, each one of four empty rules, takes 3,752 on the
/// empty line: at each parameter a match completed and an argument kept for each way so far, and the 1,024 whole ones. Each
/// empty top rule takes one more.
fn crowd(random: &mut Random) -> Case {
    let records = 2 * (4 + 16 + 64 + 256 + 1024) + 1024;
    let empty = 4096 - records + random.between(0, 12) - 6;
    let mut top: Vec<Rule> = vec![vec![513; 5]];
    top.extend(vec![vec![]; empty]);
    random.shuffle(&mut top);
    Case {
        rulesets: vec![(0, top), (1, vec![vec![]; 4])],
        line: vec![],
        sheet: vec![random.next() as u8 % 2 * 255; 2],
    }
}

/// Whether a case is one of those, whose walk is near the pool's limit and ends soon.
pub fn is_crowd(case: &Case) -> bool {
    case.rulesets[0].1.iter().any(|rule| *rule == [513; 5]) && case.rulesets[1].1 == vec![Rule::new(); 4]
}

/// Rulesets that lead one to the next, 3 to 16 deep, with exact parts before, between and after what is nested. A ruleset's
/// rules read the same bytes, with as many exact parts or with fewer: one leaves out whitespace parts, one has an expression or
/// a ruleset of letters for a letter; some fail at their last letter. So there are many readings, and the greatest count, up
/// to the line's 120 bytes, is that of some.
pub fn deep(random: &mut Random) -> Case {
    let deepest = random.between(3, 16);
    let most = *random.pick(&[20, 40, 80, 120, 120]);
    let most_ways = *random.pick(&[4, 16, 64]);
    let alphabet: &[u8] = *random.pick(&[&b"ab"[..], b"abcdxyz", b"ab+-,", b"ab()"]);
    let mut letters: Vec<Rule> = alphabet.iter().map(|b| vec![*b as u16]).collect();
    let letter = 513 + deepest as u16;
    let letter_ways = random.between(1, 2);
    if letter_ways == 2 {
        letters.push(vec![257]);
    }

    // Of each ruleset: its rules, the bytes they read, and in how many ways.
    let mut rulesets = vec![(1, vec![]); deepest + 1];
    let mut texts = vec![vec![]; deepest + 2];
    let mut ways = vec![1; deepest + 2];
    rulesets.push((1, letters));
    for set in (0..=deepest).rev() {
        let most_ways = 1 + (most_ways - 1) * (deepest + 1 - set) / (deepest + 1);
        let mut rule = Rule::new();
        let mut left = most - texts[set + 1].len();
        if set < deepest {
            if left > 0 && random.chance(300) {
                rule.push(256);
                left -= 1;
            }
            rule.push(513 + set as u16);
            let other = random.between(set + 1, deepest);
            if random.chance(250) && texts[other].len() <= left && ways[set + 1] * ways[other] <= most_ways {
                rule.push(512 + other as u16);
                left -= texts[other].len();
            }
        }
        let share = 1 + 2 * left / (set + 1);
        let places = 2 + random.chance(350) as usize;
        for _ in 0..random.between((set == deepest) as usize, share.min(50)).min(left) {
            let at = [0, rule.len().saturating_sub(1), rule.len()][random.below(places)];
            rule.insert(at, *random.pick(alphabet) as u16);
        }

        let (mut text, mut rule_ways) = (Vec::new(), 1);
        for part in &rule {
            match part {
                256 => text.push(*random.pick(&WHITE)),
                512.. => {
                    text.extend(texts[*part as usize - 512].clone());
                    rule_ways *= ways[*part as usize - 512];
                }
                _ => text.push(change_case(random, *part as u8)),
            }
        }
        (texts[set], ways[set]) = (text, rule_ways);
        let mut rules = vec![rule.clone()];
        for _ in 0..random.below(4) {
            let (mut rule, mut more) = (rule.clone(), rule_ways);
            rule.retain(|part| *part != 256 || random.chance(500));
            for _ in 0..*random.pick(&[0, 1, 1, 2]) {
                let at = random.below(rule.len());
                if rule[at] < 256 && set < 16 && random.chance(500) {
                    rule[at] = letter;
                    more *= letter_ways;
                } else if rule[at] < 256 {
                    rule[at] = 257;
                }
            }
            if random.chance(150) {
                if let Some(last) = rule.iter_mut().rfind(|part| **part < 256) {
                    *last = b'#' as u16;
                    more = 0;
                }
            }
            if ways[set] + more <= most_ways {
                ways[set] += more;
                rules.push(rule);
            }
        }
        random.shuffle(&mut rules);
        rulesets[set] = ((set > 0) as u16, rules);
    }

    let line = texts.swap_remove(0);
    let greedy = random.below(3);
    let sheet = sheet_of(line.len(), 0, |half, c, l| match (half, greedy) {
        (1, 0) => 255,
        (1, 1) => l as u8,
        _ => l.min(model::useful(&line, c, l) + 1) as u8,
    });
    Case { rulesets, line, sheet }
}

/// A random case of a seed.
pub fn make(random: &mut Random) -> Case {
    match random.below(1000) {
        0..80 => return kin(random),
        80..90 => return chain(random),
        90..94 => return many(random),
        94 => return crowd(random),
        _ => {}
    }
    let alphabet = *random.pick(&ALPHABETS);
    let shape = *random.pick(&SHAPES);
    let count = *random.pick(&[1, 2, 2, 3, 3, 4, 6]);
    let mut rulesets: Vec<(u16, Vec<Rule>)> = Vec::new();
    for s in 0..count {
        let flag = if s == 0 && random.chance(950) {
            0
        } else {
            *random.pick(&[0, 1, 1])
        };
        let rules = *random.pick(&[0, 1, 1, 2, 2, 3, 4, 5]);
        let mut rules: Vec<Rule> = (0..rules)
            .map(|_| pick_rule(random, count, s, alphabet, shape))
            .collect();
        if !rules.is_empty() && random.chance(150) {
            let twice = random.pick(&rules).clone();
            rules.push(twice);
        }
        rulesets.push((flag, rules));
    }

    let tops = rulesets
        .iter()
        .filter(|(flag, _)| *flag == 0)
        .flat_map(|(_, rules)| rules);
    let tops: Vec<Rule> = tops.cloned().collect();
    let mut line: Vec<u8>;
    let with_white = with_white(alphabet);
    if !tops.is_empty() && random.chance(750) {
        let rule = random.pick(&tops).clone();
        line = expand(random, &rulesets, &rule, &|random| some_bytes(random, alphabet), 0);
        for _ in 0..*random.pick(&[0, 0, 0, 0, 1, 2]) {
            let at = random.between(0, line.len());
            let until = line.len().min(at + random.below(2));
            line.splice(at..until, [*random.pick(&with_white)]);
        }
    } else {
        line = (0..random.between(0, 10)).map(|_| *random.pick(&with_white)).collect();
    }
    let mut most = 14;
    if random.chance(4) {
        most = 120;
        let at = random.between(0, line.len());
        let more: Vec<u8> = (0..random.between(10, 110))
            .map(|_| *random.pick(&with_white))
            .collect();
        line.splice(at..at, more);
    }
    let line = trimmed(line, most);
    let sheet = pick_sheet(random, &line);
    Case { rulesets, line, sheet }
}

// Programs.

/// The program of these lines, each with its sheet, its budget and its base, and with room for rows exactly.
pub fn joined(table: Vec<u16>, lines: &[Call], room: usize) -> ProgramCall {
    let mut call = ProgramCall {
        table,
        text: Vec::new(),
        ends: Vec::new(),
        sheets: Vec::new(),
        budgets: Vec::new(),
        bases: Vec::new(),
        rows: 2 * lines.len(),
        room,
    };
    for line in lines {
        call.text.extend(&line.line);
        call.ends.push(call.text.len() as u32);
        call.sheets.extend(&line.sheet);
        call.budgets.push(line.budget);
        call.bases.push(line.base);
    }
    call
}

/// Another line for a case's table, one that some top rule might match.
fn another_line(random: &mut Random, case: &Case) -> Vec<u8> {
    let alphabet = *random.pick(&ALPHABETS);
    let with_white = with_white(alphabet);
    let tops = case.rulesets.iter().filter(|(flag, _)| *flag == 0);
    let tops: Vec<&Rule> = tops.flat_map(|(_, rules)| rules).collect();
    let mut line = if tops.is_empty() || random.chance(150) {
        (0..random.between(0, 8)).map(|_| *random.pick(&with_white)).collect()
    } else {
        let rule = (*random.pick(&tops)).clone();
        expand(random, &case.rulesets, &rule, &|random| some_bytes(random, alphabet), 0)
    };
    if random.chance(200) {
        let at = random.between(0, line.len());
        line.insert(at, *random.pick(&with_white));
    }
    trimmed(line, 14)
}

/// A line of a program: the case's own or another, some damaged, but with a sheet of the right length.
fn program_line(random: &mut Random, case: &Case, own: &Call) -> Call {
    let mut call = own.clone();
    if !random.chance(300) {
        call.line = another_line(random, case);
        call.sheet = pick_sheet(random, &call.line);
    }
    if random.chance(120) {
        call = damaged(random, &call);
        let n = call.line.len();
        call.sheet.resize(if n > 120 { 0 } else { 2 * (n + 1) * (n + 1) }, 255);
    }
    if random.chance(80) {
        call.budget = *random.pick(&[0, 1, 2, 3, 5, 8, 13, 21]);
    }
    call
}

/// A random program of a seed, with room for most of its answers.
pub fn program(random: &mut Random) -> ProgramCall {
    let case = make(random);
    let own = if random.chance(330) {
        case.call(Some(random))
    } else {
        case.call(None)
    };
    let mut count = *random.pick(&[0, 1, 1, 2, 2, 3, 3, 4, 5, 6, 8]);
    if !is_crowd(&case) && random.chance(5) {
        count = *random.pick(&[40, 255, 256, 257]);
    }
    let lines: Vec<Call> = (0..count).map(|_| program_line(random, &case, &own)).collect();
    let mut call = joined(own.table, &lines, ROOM);
    if random.chance(200) {
        call.text.extend(b"; no line"); // belongs to none
    }
    call
}

/// A good program with something changed that may make it a bad one.
pub fn damaged_program(random: &mut Random, good: &ProgramCall) -> ProgramCall {
    let mut call = good.clone();
    match random.below(9) {
        0 | 1 if !call.ends.is_empty() => {
            let at = random.below(call.ends.len());
            let length = call.text.len() as u32;
            let near = [call.ends[at].wrapping_add(1), call.ends[at].wrapping_sub(1)];
            let far = [0, length, length + 1, 1 << 16, 1 << 31, u32::MAX];
            call.ends[at] = *random.pick(&[&near[..], &far].concat());
        }
        2 => random.shuffle(&mut call.ends),
        3 => resize(random, &mut call.text, b'a'),
        4 => {
            let last = call.ends.last().copied().unwrap_or(0);
            resize(random, &mut call.ends, last);
        }
        5 => resize(random, &mut call.sheets, 255),
        6 => resize(random, &mut call.budgets, BUDGET),
        7 => call.rows = *random.pick(&[0, call.rows + 1, call.rows + 2, call.rows.saturating_sub(1)]),
        _ => damage_word(random, &mut call.table),
    }
    if random.chance(150) {
        // Two things at once, so that the order of the checks shows.
        call = damaged_program(random, &call);
    }
    call
}

// Lines of expressions.

/// Thousandths: of tokens with whitespace before them, of terms in parentheses and after a minus, and of those that an operator
/// follows. Past the last length nothing more is opened or joined, so that what is open finds room to be closed.
#[derive(Clone, Copy)]
struct Manner {
    white: usize,
    inside: usize,
    minus: usize,
    joined: usize,
    late: usize,
}

const MANNERS: [Manner; 6] = [
    Manner {
        white: 150,
        inside: 200,
        minus: 150,
        joined: 700,
        late: 90,
    },
    Manner {
        white: 0,
        inside: 0,
        minus: 50,
        joined: 985,
        late: 118,
    },
    Manner {
        white: 5,
        inside: 980,
        minus: 10,
        joined: 20,
        late: 59,
    },
    Manner {
        white: 20,
        inside: 5,
        minus: 980,
        joined: 300,
        late: 118,
    },
    Manner {
        white: 700,
        inside: 150,
        minus: 100,
        joined: 800,
        late: 90,
    },
    Manner {
        white: 30,
        inside: 450,
        minus: 50,
        joined: 600,
        late: 80,
    },
];

const WORDS: [&[u8]; 10] = [b"1", b"0", b"42", b"907", b"a", b"Z", b"x1", b"stem", b"A9z", b"left"];

fn put_white(random: &mut Random, line: &mut Vec<u8>, manner: Manner) {
    while random.chance(manner.white) {
        line.push(*random.pick(&WHITE));
    }
}

fn put_term(random: &mut Random, line: &mut Vec<u8>, manner: Manner) {
    put_white(random, line, manner);
    let x = if line.len() < manner.late {
        random.below(1000)
    } else {
        1000
    };
    if x < manner.inside {
        line.push(b'(');
        put_expression(random, line, manner);
        put_white(random, line, manner);
        line.push(b')');
    } else if x < manner.inside + manner.minus {
        line.push(b'-');
        put_term(random, line, manner);
    } else {
        line.extend(*random.pick(&WORDS));
    }
}

fn put_expression(random: &mut Random, line: &mut Vec<u8>, manner: Manner) {
    put_term(random, line, manner);
    while line.len() < manner.late && random.chance(manner.joined) {
        put_white(random, line, manner);
        line.push(*random.pick(b"+-*/&|"));
        put_term(random, line, manner);
    }
}

/// A short expression.
fn expression(random: &mut Random) -> Vec<u8> {
    let mut line = Vec::new();
    let manner = Manner {
        joined: 300,
        ..MANNERS[0]
    };
    put_expression(random, &mut line, manner);
    line
}

/// Bytes that expressions have, and those next to them: `@` and `[` by the upper case, `` ` `` and `{` by the lower, `/` and
/// `:` by the digits, signs that are no operators.
const NEAR: &[u8] = b"09azAZ1a+-*/&|()() \t\r@[`{}:,.'^%_$#!=<>~";

/// A good line with expressions: some one after another, some with bytes changed, some of bytes alone.
pub fn expression_line(random: &mut Random) -> Vec<u8> {
    let most = *random.pick(&[10, 30, 120, 120]);
    let mut line = Vec::new();
    if random.chance(150) {
        let alphabet: &[u8] = *random.pick(&[&b"1a-+( )"[..], b"1((()))-", b"1a \t\r", b"12ab+", NEAR]);
        line.extend((0..random.between(0, most)).map(|_| *random.pick(alphabet)));
    } else {
        let manner = *random.pick(&MANNERS);
        for _ in 0..*random.pick(&[1, 1, 1, 2, 4]) {
            put_expression(random, &mut line, manner);
            line.extend(*random.pick(&[&b""[..], b"", b",", b" ", b", ", b" x", b"+"]));
        }
    }
    for _ in 0..*random.pick(&[0, 0, 1, 1, 2, 4]) {
        let at = random.between(0, line.len());
        let until = line.len().min(at + random.below(2));
        let with = (0..random.below(2)).map(|_| *random.pick(NEAR)).collect::<Vec<u8>>();
        line.splice(at..until, with);
    }
    trimmed(line, most)
}

/// May make a line a bad one.
pub fn damage_line(random: &mut Random, line: &mut Vec<u8>) {
    match random.below(4) {
        0 if !line.is_empty() => {
            let at = random.below(line.len());
            line[at] = *random.pick(&[0, 8, 9, 10, 12, 13, 14, 31, 32, 33, 58, 59, 60, 126, 127, 128, 255]);
        }
        1 => line.push(*random.pick(b" \t\r1;")),
        2 => line.resize(*random.pick(&[119, 120, 121, 122, 200]), b'1'),
        _ => {}
    }
}

/// Another line for a case's table, where expressions are those of the grammar, and its filled sheet.
pub fn filled(random: &mut Random, case: &Case) -> Case {
    let tops = case.rulesets.iter().filter(|(flag, _)| *flag == 0);
    let tops: Vec<&Rule> = tops.flat_map(|(_, rules)| rules).collect();
    let line = if tops.is_empty() {
        expression(random)
    } else {
        let rule = (*random.pick(&tops)).clone();
        expand(random, &case.rulesets, &rule, &expression, 0)
    };
    let line = trimmed(line, *random.pick(&[20, 40]));
    let sheet = grammar::sheet(&line);
    let rulesets = case.rulesets.clone();
    Case { rulesets, line, sheet }
}

// Short cases, exhaustively.

/// All lists of `length` of the items.
fn all_of<T: Copy>(items: &[T], length: usize) -> Vec<Vec<T>> {
    let mut lists = vec![vec![]];
    for _ in 0..length {
        let longer = |list: &Vec<T>| {
            let list = list.clone();
            let with = move |item: &T| {
                let mut list = list.clone();
                list.push(*item);
                list
            };
            items.iter().map(with).collect::<Vec<_>>()
        };
        lists = lists.iter().flat_map(longer).collect();
    }
    lists
}

/// All lists of at most `length` of the items.
pub fn all_up_to<T: Copy>(items: &[T], length: usize) -> Vec<Vec<T>> {
    (0..=length).flat_map(|n| all_of(items, n)).collect()
}

/// All sheets of a line of n bytes whose entries that are never read hold 0. In the greedy half all of a line of at most one
/// byte; of a longer one that half has no ends, or each at its limit.
fn all_sheets(n: usize) -> Vec<Vec<u8>> {
    let places: Vec<(usize, usize)> = (0..=n).flat_map(|c| (c..=n).map(move |l| (c, l))).collect();
    let mut halves: Vec<Vec<u8>> = vec![vec![0; (n + 1) * (n + 1)]];
    for (c, l) in places {
        let ends: Vec<u8> = (c..=l).map(|e| e as u8).chain([255]).collect();
        let with = |half: &Vec<u8>| {
            let half = half.clone();
            let set = move |end: &u8| {
                let mut half = half.clone();
                half[c * (n + 1) + l] = *end;
                half
            };
            ends.iter().map(set).collect::<Vec<_>>()
        };
        halves = halves.iter().flat_map(with).collect();
    }
    let greedy = if n <= 1 {
        halves.clone()
    } else {
        let limits = to_the_limit(n);
        let none = sheet_of(n, 0, |_, _, _| 255);
        [limits, none].map(|s| s[..(n + 1) * (n + 1)].to_vec()).to_vec()
    };
    let both = |free: &Vec<u8>| {
        let free = free.clone();
        greedy
            .iter()
            .map(move |g| [free.clone(), g.clone()].concat())
            .collect::<Vec<_>>()
    };
    halves.iter().flat_map(both).collect()
}

/// Every rule of at most three parts out of `a`, `+`, whitespace, expression and nested, with one nested ruleset of a rule
/// `a` and a rule that is an expression, on every line of at most two bytes out of `a`, `+`, a space and a carriage return,
/// with every sheet.
pub fn short(mut each: impl FnMut(&Case)) {
    let rules = all_up_to(&[b'a' as u16, b'+' as u16, 256, 257, 513], 3);
    let lines = all_up_to(b"a+ \r", 2);
    for n in 0..=2 {
        for sheet in all_sheets(n) {
            for line in lines.iter().filter(|l| l.len() == n && trimmed(l.to_vec(), n) == **l) {
                for rule in &rules {
                    each(&Case {
                        rulesets: vec![(0, vec![rule.clone()]), (1, vec![vec![97], vec![257]])],
                        line: line.clone(),
                        sheet: sheet.clone(),
                    });
                }
            }
        }
    }
}

// Damaged copies.

/// A good call with something changed that may make it a bad one.
pub fn damaged(random: &mut Random, good: &Call) -> Call {
    let mut call = good.clone();
    match random.below(12) {
        0 => damage_word(random, &mut call.table),
        1 => {
            // Heads, flags and records more often than their share.
            let head = match call.table[..] {
                [s, r, ..] => 3 + s as usize + 3 * r as usize,
                _ => 0,
            };
            let head = head.min(call.table.len());
            damage_word(random, &mut call.table[..head]);
        }
        2 => {
            let head = call.table.len().min(3);
            damage_word(random, &mut call.table[..head]);
        }
        3 => resize(random, &mut call.table, 97),
        4 => {
            let mut byte = *random.pick(&[0, 8, 9, 10, 12, 13, 14, 31, 32, 33, 58, 59, 60, 126, 127, 128, 255]);
            if random.chance(300) {
                byte = random.next() as u8;
            }
            if !call.line.is_empty() {
                let at = random.below(call.line.len());
                call.line[at] = byte;
            }
        }
        5 => {
            call.line.push(*random.pick(b" \t\ra;"));
            let n = call.line.len();
            if random.chance(700) {
                call.sheet = vec![255; 2 * (n + 1) * (n + 1)];
            }
        }
        6 => {
            let n = *random.pick(&[119, 120, 121, 122, 200]);
            call.line = vec![b'a'; n];
            if random.chance(300) {
                call.line[random.below(n)] = *random.pick(b"; \t\r");
            }
            if random.chance(500) {
                call.sheet = vec![255; 2 * (n + 1) * (n + 1)];
            }
        }
        7 | 8 => {
            if !call.sheet.is_empty() {
                let at = random.below(call.sheet.len());
                call.sheet[at] = *random.pick(&[0, 1, call.line.len() as u8, call.line.len() as u8 + 1, 120, 254, 255]);
            }
        }
        9 => resize(random, &mut call.sheet, 255),
        10 => call.budget = *random.pick(&[0, 1, 2, 999_999, 1_000_001, u32::MAX]),
        _ => {
            // Two things at once, so that the order of the checks shows.
            call = damaged(random, &call);
            call = damaged(random, &call);
        }
    }
    call
}

fn damage_word(random: &mut Random, words: &mut [u16]) {
    if words.is_empty() {
        return;
    }
    let at = random.below(words.len());
    words[at] = match random.below(4) {
        0 => words[at].wrapping_add(1),
        1 => words[at].wrapping_sub(1),
        2 => *random.pick(&[
            0, 1, 2, 8, 9, 13, 31, 32, 33, 58, 59, 60, 64, 65, 126, 127, 255, 256, 257, 258, 511, 512, 513, 514, 543,
            544, 8192, 8193, 65535,
        ]),
        _ => random.next() as u16,
    };
}

/// One more of something, or one to four fewer.
pub fn resize<T: Copy>(random: &mut Random, words: &mut Vec<T>, with: T) {
    if random.chance(500) {
        words.push(with);
    } else {
        words.truncate(words.len().saturating_sub(random.between(1, 4)));
    }
}
