//! The worst call: a search for the table, line and sheet that take longest within the budget, and what it found, as cases.
//!
//! A call is one of a family and made from genes, bytes that each say how many of something there are, or which byte stands
//! somewhere. The search changes genes and keeps what takes longer. Three things cost more than their visits, so there are three
//! families. Visits that take no record can go on to the budget's end, and each may seek a cut: `cuts`. The records of a call
//! are few, but matches of one nested step are compared with one another: `equals`. And matches share the records of their
//! first arguments, which the answer has once for each of them: `answer`.
use crate::cases::{pack_parts, Case};
use crate::{agree, proved, raw, rust, BUDGET};
use std::hint::black_box;
use std::time::Instant;

/// An answer is never longer: this much is lent.
pub const ROOM: usize = 12_589_058;

const WHITESPACE: u16 = 256;
const EXPRESSION: u16 = 257;
const NESTED: u16 = 512;

/// The most that a table takes: rules, part words, parts and parameters of a rule.
const RULES: usize = 512;
const WORDS: usize = 8192;
const PARTS: usize = 64;
const PARAMETERS: usize = 8;
const LONGEST_LINE: usize = 120;

/// What lines and lookahead characters are made of: brackets, a letter in either case, another byte, whitespace.
const BYTES: &[u8; 8] = b"(){}aA+ ";

/// A byte by its gene; no part is whitespace, and no line ends with it.
fn byte(gene: usize) -> u8 {
    BYTES[gene % BYTES.len()]
}

fn solid(gene: usize) -> u8 {
    byte(gene).max(b'!')
}

type Genes = [u8; 16];
type Make = fn(&Genes) -> Case;
type Rulesets = Vec<Vec<Vec<u16>>>;

/// The sheet has no expression, or one: the whole line.
fn case(name: &str, rulesets: &Rulesets, line: Vec<u8>, whole: bool) -> Case {
    let n = line.len();
    let mut sheet = vec![255; 2 * (n + 1) * (n + 1)];
    if whole {
        sheet[n] = n as u8;
    }
    Case {
        name: format!("worst: {name}"),
        table: pack_parts(rulesets),
        line,
        sheet,
    }
}

/// Rules of a parameter, whitespace parts, and the character that the parameter's cut is sought for; each ruleset's rules hold
/// one of the next. The last are an expression, for which the sheet has no end, or hold rules that fail, or none: so nothing
/// matches, no record is taken, and all those visits seek a cut from the line's first byte on. There are as many rules as make
/// the most visits within the budget where no cut is found; where one is, the budget is spent.
fn cuts(genes: &Genes) -> Case {
    let [deep, blanks, last, failing, one, other, first, end, period, order, bytes @ ..] = genes.map(usize::from);
    let sets = 2 + deep % 14;
    let below = |width: usize| (0..=sets as u32).map(|level| width.pow(level)).sum::<usize>();
    let width = (1..100)
        .take_while(|w| below(*w) * w <= BUDGET as usize)
        .last()
        .unwrap_or(1);
    let top = (BUDGET as usize / below(width)).min(RULES / 2);
    let blanks = (blanks % (PARTS - 1)).min((WORDS - 3) / (top + width * sets) - 2);
    let rule = |set: usize, i: usize| {
        let deepest = if last % 2 == 0 {
            EXPRESSION
        } else {
            NESTED + sets as u16 + 1
        };
        let mut parts = vec![if set < sets { NESTED + set as u16 + 1 } else { deepest }];
        parts.extend(vec![WHITESPACE; blanks]);
        parts.push(solid([one, other][i % 2]) as u16);
        parts
    };
    let ruleset = |set: usize| (0..if set == 0 { top } else { width }).map(|i| rule(set, i)).collect();
    let mut rulesets: Rulesets = (0..=sets).map(ruleset).collect();
    rulesets.push(vec![vec![b'!' as u16]; failing % 4]);
    // A byte, then some bytes in turn or as drawn, then a byte.
    let mut draw = Draw(order as u64);
    let turn = |i: usize| if order % 2 == 0 { i } else { draw.below(PARTS) } % (1 + period % bytes.len());
    let mut line: Vec<u8> = (0..LONGEST_LINE).map(turn).map(|i| byte(bytes[i])).collect();
    line[0] = byte(first);
    line[LONGEST_LINE - 1] = solid(end);
    case("cuts", &rulesets, line, false)
}

/// Rules alike that hold some of many empty rules, at once or through rules between: a nested step has all of their matches, and
/// has them again under the cut if the character at the line's end follows.
fn equals(genes: &Genes) -> Case {
    let [alike, held, empty, more, follows, between, ..] = genes.map(usize::from);
    let alike = 1 + alike;
    let between = between % 14;
    let empty = 1 + (empty + 256 * (more % 2)) % (RULES - 1 - alike - between);
    let held = vec![NESTED + 2; held % 4];
    let top = [vec![NESTED + 1], vec![b'+' as u16; follows % 2]].concat();
    let mut rulesets = vec![vec![top], vec![held; alike]];
    rulesets.extend((0..between).map(|i| vec![vec![NESTED + i as u16 + 3]]));
    rulesets.push(vec![Vec::new(); empty]);
    case("equals", &rulesets, b"a+".to_vec(), false)
}

/// A top rule that holds trees of empty rules and last one of many empty rules: one match for each of these, which all have the
/// trees.
fn answer(genes: &Genes) -> Case {
    let [broad, deep, trees, last, more, ..] = genes.map(usize::from);
    let deep = deep % 12;
    let tree = |level: usize| vec![vec![NESTED + level as u16 + 1; 1 + broad % PARAMETERS]];
    let trees = vec![NESTED + 1; trees % (PARAMETERS - 1)];
    let top = [vec![EXPRESSION], trees, vec![NESTED + deep as u16 + 2]].concat();
    let mut rulesets = vec![vec![top]];
    rulesets.extend((1..=deep).map(tree));
    rulesets.push(vec![Vec::new()]);
    rulesets.push(vec![Vec::new(); 1 + (last + 256 * (more % 2)) % (RULES - 16)]);
    case("answer", &rulesets, b"a".to_vec(), true)
}

/// Three rulesets of a hundred rules each, on 119 spaces and a letter that no rule has: every visit stands before the spaces.
fn spaces(_: &Genes) -> Case {
    let rules = |part: u16| vec![vec![part]; 100];
    let rulesets = vec![rules(NESTED + 1), rules(NESTED + 2), rules(b'b' as u16)];
    let mut line = vec![b' '; LONGEST_LINE - 1];
    line.push(b'a');
    case("spaces", &rulesets, line, false)
}

/// A family: how many genes it reads, the budget that the search gives, and how a call is made. A visit of `cuts` costs the
/// same in a fiftieth of the budget; the others have few visits.
type Family = (usize, u32, Make);
const FAMILIES: [Family; 3] = [(16, BUDGET / 50, cuts), (6, BUDGET, equals), (5, BUDGET, answer)];

/// Numbers that look random and are the same for the same seed.
struct Draw(u64);

impl Draw {
    fn below(&mut self, most: usize) -> usize {
        self.0 = self
            .0
            .wrapping_mul(6364136223846793005)
            .wrapping_add(1442695040888963407);
        (self.0 >> 33) as usize % most
    }
}

/// The least time of some calls, in seconds, and what they tell.
fn time(case: &Case, budget: u32, calls: usize, room: &mut [u32]) -> (f64, raw::Answer) {
    let mut call = || {
        let start = Instant::now();
        let told = proved(case, false, budget, room);
        (start.elapsed().as_secs_f64(), told)
    };
    let (mut least, told) = call();
    for _ in 1..calls {
        least = least.min(call().0);
    }
    (least, told)
}

/// The worst calls found: those on which the Rust is run too, and those on which it is not, since it has no budget and would go
/// on where the proved call ends in number 6.
///
/// `cuts`: the lookahead character is `{`, and every `{` of the line stands within a parenthesis, so it is marked, is no cut and
/// deepens a nesting, which costs the search most. `cuts, budget spent`: the line's last byte is the cut, so each ruleset is
/// tried under it, too. `spaces` was not found by the search: it was the worst before the useful places were worked out once.
pub fn cases() -> Vec<(Case, bool)> {
    let found: [(&str, Make, &[u8], bool); 5] = [
        ("cuts", cuts, &[13, 62, 1, 0, 2, 2, 0, 2, 0, 0, 2], true),
        (
            "cuts, budget spent",
            cuts,
            &[13, 62, 1, 0, 6, 6, 2, 6, 2, 0, 2, 3, 4],
            false,
        ),
        ("spaces", spaces, &[], false),
        ("equals", equals, &[0, 1, 226, 0, 0, 7], true),
        ("answer", answer, &[3, 4, 4, 193, 1], true),
    ];
    let fix = |(name, make, some, both): (&str, Make, &[u8], bool)| {
        let mut genes = [0; 16];
        genes[..some.len()].copy_from_slice(some);
        let mut case = make(&genes);
        case.name = format!("worst: {name}");
        (case, both)
    };
    found.map(fix).into()
}

/// Times the cases found, each side the least of three calls.
pub fn print_cases() {
    println!("| case | number | visits | words | call | Rust |\n|---|---|---|---|---|---|");
    let mut room = vec![0; ROOM];
    for (case, both) in cases() {
        let (took, told) = time(&case, BUDGET, 3, &mut room);
        let mut other = "not run".to_string();
        if both {
            let defs = oracle::unpack_table(&case.table);
            agree(&case, false, &defs);
            let call = |_| {
                let start = Instant::now();
                black_box(rust(&defs, &case, false));
                start.elapsed().as_secs_f64()
            };
            let least = [0; 3].map(call).into_iter().fold(f64::INFINITY, f64::min);
            other = format!("{:.1}", least * 1e3);
        }
        print!("| {} | {} | {} | {} ", case.name, told.number, told.visits, told.words);
        println!("| {:.1} | {other} |", took * 1e3);
    }
}

/// Climbs from the longest of some calls drawn at random. Up to three genes are changed at a time, to a drawn value or to
/// another gene's; what takes a little less is gone on from, too, so that a change that pays with another one can be found. The
/// draws follow from the seed; what is kept depends on times, and so does not repeat exactly.
pub fn search(seed: u64, seconds: u64) {
    let mut room = vec![0; ROOM];
    for (read, budget, make) in FAMILIES {
        let mut draw = Draw(seed);
        let (mut here, mut best, mut longest, mut tried) = ([0; 16], [0; 16], 0.0, 0);
        let start = Instant::now();
        while tried == 0 || start.elapsed().as_secs() < seconds {
            let mut genes = here;
            let changes = if tried < 50 { 8 * read } else { 1 + draw.below(3) };
            for _ in 0..changes {
                let drawn = [draw.below(256) as u8, genes[draw.below(read)]];
                genes[draw.below(read)] = drawn[draw.below(2)];
            }
            tried += 1;
            let (took, _) = time(&make(&genes), budget, 3, &mut room);
            if took > longest * 0.99 {
                here = genes;
            }
            if took > longest {
                (longest, best) = (took, genes);
            }
        }
        let case = make(&best);
        let (took, told) = time(&case, BUDGET, 3, &mut room);
        print!("{}, {tried} tried: {took:.4} s, number {}, ", case.name, told.number);
        println!("{} visits, {} words\n  genes {best:?}", told.visits, told.words);
        println!("  line {}", String::from_utf8_lossy(&case.line));
    }
}
