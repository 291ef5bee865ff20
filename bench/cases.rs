//! The inputs: rule tables as a house would write them, by size and by kind, with a short and a long line for each; one table
//! made for the cut, on lines full of brackets; composite rules, whose matches are deep and tie; programs of many lines; and
//! lines of expressions of any length.

use crate::notation::rule;

#[derive(Clone)]
pub struct Case {
    pub name: String,
    pub table: Vec<u16>,
    pub line: Vec<u8>,
    pub sheet: Vec<u8>,
}

/// A packed table from rules as text. The first ruleset is the top one.
fn pack(rulesets: &[Vec<String>]) -> Vec<u16> {
    let parts = |rules: &Vec<String>| rules.iter().map(|text| rule(text)).collect();
    pack_parts(&rulesets.iter().map(parts).collect::<Vec<_>>())
}

/// The same from rules as part words, which can hold one of any ruleset: the text names that by one digit.
pub fn pack_parts(rulesets: &[Vec<Vec<u16>>]) -> Vec<u16> {
    let mut records = Vec::new();
    let mut parts: Vec<u16> = Vec::new();
    for (set, rules) in rulesets.iter().enumerate() {
        for rule in rules {
            records.extend([set as u16, parts.len() as u16, rule.len() as u16]);
            parts.extend(rule);
        }
    }
    let mut table = vec![rulesets.len() as u16, (records.len() / 3) as u16, parts.len() as u16];
    table.extend((0..rulesets.len()).map(|set| (set > 0) as u16));
    table.extend(records);
    table.extend(parts);
    table
}

/// Where a parser would end: at the first comma or closer outside brackets of either kind, or the limit; a decimal at its last
/// digit.
fn sheet(line: &[u8]) -> Vec<u8> {
    let n = line.len();
    let skip = |c: usize, l: usize| (c..l).find(|i| line[*i] != b' ').unwrap_or(l);
    let free = |c: usize, l: usize| {
        let start = skip(c, l);
        let mut nesting = 0;
        for at in start..l {
            match line[at] {
                b'(' | b'{' => nesting += 1,
                b')' | b'}' if nesting == 0 => return (start, at),
                b')' | b'}' => nesting -= 1,
                b',' if nesting == 0 => return (start, at),
                _ => {}
            }
        }
        (start, l)
    };
    let greedy = |c: usize, l: usize| {
        let start = skip(c, l);
        let end = (start..l).find(|i| !line[*i].is_ascii_digit()).unwrap_or(l);
        (start, end)
    };
    let mut sheet = Vec::new();
    for half in 0..2 {
        for c in 0..=n {
            for l in 0..=n {
                let (start, end) = match half {
                    _ if c > l => (0, 0),
                    0 => free(c, l),
                    _ => greedy(c, l),
                };
                sheet.push(if start < end { end as u8 } else { 255 });
            }
        }
    }
    sheet
}

fn case(name: String, rulesets: &[Vec<String>], line: String) -> Case {
    Case {
        name,
        table: pack(rulesets),
        sheet: sheet(line.as_bytes()),
        line: line.into_bytes(),
    }
}

/// A mnemonic of three letters for a number; the first 17,576 differ.
fn mnemonic(n: usize) -> String {
    let letter = |n: usize| (b'a' + (n % 26) as u8) as char;
    // The last letter goes round first, so that neighbours share a beginning.
    [letter(n / 676), letter(n / 26), letter(n)].iter().collect()
}

const LONG_EXPRESSION: &str = "base+(width-2)*(scale+1)/4-offset+(left+right)*3+height*(top-bottom)-16+(a+b)*(c-d)";

/// What a kind of table has: its rulesets, its two lines, how many names its rules begin with, and how a program's lines look,
/// `NAME` being a name and `E` an expression.
struct Kind {
    rulesets: Vec<Vec<String>>,
    lines: [String; 2],
    names: usize,
    shapes: &'static [&'static str],
}

/// Rules of their own name each: `abc {}`, `abd {}, {}` and so on.
fn plain(rules: usize) -> Kind {
    let shapes = ["", " {}", " {},{}", " #{}"];
    let of = |i: usize| mnemonic(i / shapes.len()) + shapes[i % shapes.len()];
    let named = mnemonic(rules / shapes.len() / 2);
    Kind {
        rulesets: vec![(0..rules).map(of).collect()],
        lines: [format!("{named} x,42"), format!("{named} {LONG_EXPRESSION},42")],
        names: rules / shapes.len(),
        shapes: &["NAME E", "NAME E,42", "NAME #E"],
    }
}

/// Few names, many readings: every name has the same shapes, which overlap.
fn overlapping(rules: usize) -> Kind {
    let shapes = [" {}", " {},{}", " #{}", " ({})", " {}+{}", " {},({})", "b {}", "w {}"];
    let names = (rules / shapes.len()).clamp(1, 8);
    let of = |i: usize| mnemonic(i / shapes.len() % names) + shapes[i % shapes.len()];
    let named = mnemonic(names / 2);
    Kind {
        rulesets: vec![(0..rules).map(of).collect()],
        lines: [format!("{named} x,(42)"), format!("{named} {LONG_EXPRESSION},(42)")],
        names,
        shapes: &["NAME E,(42)", "NAME E", "NAMEb E", "NAME #E"],
    }
}

/// Operands as rulesets, two deep: registers, and addresses that hold registers. Half of 8 rules are operands, 12 of more.
fn nested(rules: usize) -> Kind {
    let shapes = [" {1}", " {1},{1}", " {2}", " {1},{2}", " {2},{1}", " {}"];
    let of = |i: usize| mnemonic(i / shapes.len()) + shapes[i % shapes.len()];
    let operands = (rules / 2).min(12);
    let top = rules - operands;
    let registers = &["p", "q", "cvt", "sp", "zp", "gs"][..operands / 2];
    let addresses = &["({1})", "({1}+{})", "({}+{1})", "[{}]", "#{}", "{1}"][..operands / 2];
    let texts = |list: &[&str]| list.iter().map(|t| t.to_string()).collect::<Vec<_>>();
    let named = mnemonic(top / shapes.len() / 2);
    Kind {
        rulesets: vec![(0..top).map(of).collect(), texts(registers), texts(addresses)],
        lines: [format!("{named} q,(p+4)"), format!("{named} q,(p+{LONG_EXPRESSION})")],
        names: (top / shapes.len()).max(1),
        shapes: &["NAME q,(p+E)", "NAME (q+E)", "NAME p,(q+E)"],
    }
}

/// A character is sought after the first parameter of every rule: few names, each with two rules for each of eight characters.
fn bracketed() -> Vec<String> {
    let characters = [',', '+', '*', '-', '/', '&', '|', ':'];
    let seconds = ["{}", "({})"];
    let names = [0, 1, 2, 3].map(mnemonic);
    let of = |name: &String| {
        let of = |character| seconds.map(|second| format!("{name} {{}}{character}{second}"));
        characters.into_iter().flat_map(of).collect::<Vec<_>>()
    };
    names.iter().flat_map(of).collect()
}

/// Nearly half of it is brackets, of both kinds, up to three deep.
const BRACKETS: &str = "((a+b)*{c-(d/e)})";

/// Rules that nest as deep as `alike` is long: each ruleset's rules hold one of the next, and the last ruleset has registers.
/// A ruleset has as many rules as `alike` says that differ in their whitespace parts alone, and one space is enough for all of
/// them: so the matches that tie are as many as the product.
fn composite(before: &str, after: &str, alike: &[usize]) -> (Vec<Vec<String>>, String) {
    let rules = |(set, count): (usize, &usize)| {
        let of = |spaces| format!("{before}{}{{{}}}{after}", " ".repeat(spaces), set + 1);
        (0..*count).map(of).collect::<Vec<_>>()
    };
    let mut rulesets: Vec<_> = alike.iter().enumerate().map(rules).collect();
    rulesets.push(vec!["p".to_string(), "q".to_string()]);
    let deep = alike.len();
    let line = format!("{}q{}", format!("{before} ").repeat(deep), after.repeat(deep));
    (rulesets, line)
}

/// Composite rules 3, 5 and 8 deep. With nothing after what they hold, few records are taken for many matches. In brackets
/// each ruleset is read under the cut too, so there are many records for few matches: 8 deep, twice the ties pass 4,096.
const COMPOSITES: [(&str, &str, &str, &[usize]); 9] = [
    ("", "a:", "", &[2, 2, 2]),
    ("", "a:", "", &[5, 5, 4]),
    ("", "a:", "", &[2, 2, 2, 2, 1]),
    ("", "a:", "", &[3, 2, 2, 2, 4]),
    ("", "a:", "", &[2, 2, 2, 1, 1, 1, 1, 1]),
    ("", "a:", "", &[2, 2, 2, 2, 2, 2, 1, 1]),
    (" in brackets", "(", ")", &[2, 2, 2]),
    (" in brackets", "(", ")", &[2, 2, 2, 2, 1]),
    (" in brackets", "(", ")", &[2, 2, 1, 1, 1, 1, 1, 1]),
];

const KINDS: [(&str, fn(usize) -> Kind); 3] = [("plain", plain), ("overlapping", overlapping), ("nested", nested)];
const SIZES: [usize; 3] = [8, 64, 512];

/// Every kind of table, of 8, 64 and 512 rules, with both lines; then 64 rules on lines full of brackets: six of the eight
/// characters stand within brackets alone or nowhere, so that the search for them goes through the whole line; then composite
/// rules.
pub fn all() -> Vec<Case> {
    let mut cases = Vec::new();
    for (kind, make) in KINDS {
        for rules in SIZES {
            let made = make(rules);
            for (length, line) in ["short", "long"].into_iter().zip(made.lines) {
                cases.push(case(format!("{kind} {rules} {length}"), &made.rulesets, line));
            }
        }
    }
    let rules = bracketed();
    for copies in [5, 6] {
        let line = format!("{} {},(4)", mnemonic(2), vec![BRACKETS; copies].join("+"));
        let name = format!("bracketed {}, {} bytes", rules.len(), line.len());
        cases.push(case(name, &[rules.clone()], line));
    }
    for (shape, before, after, alike) in COMPOSITES {
        let (rulesets, line) = composite(before, after, alike);
        let tied: usize = alike.iter().product();
        let name = format!("composite {} deep{shape}, {tied} tied", alike.len());
        cases.push(case(name, &rulesets, line));
    }
    cases
}

/// A program over one table. Each line is a case, too.
#[derive(Clone)]
pub struct Program {
    pub name: String,
    pub table: Vec<u16>,
    pub lines: Vec<Case>,
    pub text: Vec<u8>,
    pub ends: Vec<u32>,
    pub sheets: Vec<u8>,
}

/// Every expression of a program's lines is a beginning of this.
const EXPRESSION: &str = "base+width*scale-offset+left*right-16";

const SHORTEST: usize = 8;
const LONGEST: usize = 40;

/// A program's line: names, shapes and lengths from 8 to 40 bytes go round, each in steps of its own.
fn line(kind: &Kind, i: usize) -> String {
    let name = mnemonic(i * 5 % kind.names);
    let shape = kind.shapes[i % kind.shapes.len()].replace("NAME", &name);
    let length = SHORTEST + i * 10 % (LONGEST - SHORTEST + 1);
    let expression = (length + 1).saturating_sub(shape.len()).max(1);
    shape.replace('E', &EXPRESSION[..expression])
}

/// Every table with a program of 16 lines and one of 256.
pub fn programs() -> Vec<Program> {
    let mut programs = Vec::new();
    for (kind, make) in KINDS {
        for rules in SIZES {
            let made = make(rules);
            let table = pack(&made.rulesets);
            for count in [16, 256] {
                let mut program = Program {
                    name: format!("{kind} {rules}, {count} lines"),
                    table: table.clone(),
                    lines: Vec::new(),
                    text: Vec::new(),
                    ends: Vec::new(),
                    sheets: Vec::new(),
                };
                for i in 0..count {
                    let line = line(&made, i).into_bytes();
                    assert!((SHORTEST..=LONGEST).contains(&line.len()));
                    let case = Case {
                        name: String::new(),
                        table: table.clone(),
                        sheet: sheet(&line),
                        line,
                    };
                    program.text.extend(&case.line);
                    program.ends.push(program.text.len() as u32);
                    program.sheets.extend(&case.sheet);
                    program.lines.push(case);
                }
                programs.push(program);
            }
        }
    }
    programs
}

/// A kind of line: its name, and the line of so many bytes.
type Expressions = (&'static str, fn(usize) -> Vec<u8>);

/// Lines of expressions: as a glyph program has them, and those where one thing is all there is.
pub const EXPRESSIONS: [Expressions; 7] = [
    ("glyph", |n| repeated("delta 5 + stem*2, (left - 3), ", n)),
    ("digits", |n| repeated("7", n)),
    ("letters", |n| repeated("a", n)),
    ("chain", |n| repeated("a+", n)),
    ("minuses", |n| repeated("-", n)),
    ("parentheses", |n| {
        let deep = (n - 1) / 2;
        let word = "7".repeat(n - 2 * deep);
        ["(".repeat(deep), word, ")".repeat(deep)].concat().into_bytes()
    }),
    ("spaces", |n| repeated(" ", n)),
];

/// A text again and again, with a digit last, so that no line ends in whitespace.
fn repeated(text: &str, n: usize) -> Vec<u8> {
    let mut line = text.repeat(n).into_bytes();
    line.truncate(n - 1);
    line.push(b'7');
    line
}

/// Outcome words: sizes 8 to 64 in turn, some failed, some unknown, and one of least size.
pub fn outcomes(count: usize) -> Vec<u32> {
    let word = |i: usize| match i % 5 {
        _ if i == count / 2 => 6 + 8 * 4,
        3 => 2,
        4 => 4,
        _ => 6 + 8 * (8 + 8 * (i as u32 % 8)),
    };
    (0..count).map(word).collect()
}
