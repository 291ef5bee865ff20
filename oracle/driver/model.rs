//! The third reading: documents 01 and 02 in plain Rust, slowly and from their sentences alone, neither the published text nor
//! the proved code. It is the independent check of every refusal, counts the visits and records that the Rust does not
//! report, and tells what a case exercises.

const WHITESPACE: u16 = 256;
const EXPRESSION: u16 = 257;
const NESTED: u16 = 512;

const LONGEST_LINE: usize = 120;
const MOST_VISITS: u32 = 1_000_000;
const DEEPEST: usize = 16;
const MOST_RECORDS: u64 = 4096;
const MOST_BASE: u32 = 4_294_967_175;
const NO_END: u8 = 255;

/// What a match call is given.
#[derive(Clone)]
pub struct Call {
    pub table: Vec<u16>,
    pub line: Vec<u8>,
    pub sheet: Vec<u8>,
    pub budget: u32,
    pub base: u32,
    pub room: usize,
}

/// What it returns. `answer` is what is written at the buffer's start.
#[derive(Clone, Debug, Default, PartialEq)]
pub struct Answer {
    pub number: u32,
    pub visits: u32,
    pub words: u32,
    pub place: u32,
    pub answer: Vec<u32>,
}

/// What a walk did, beside its answer.
#[derive(Clone, Copy, Default)]
pub struct Walked {
    pub visits: u32,
    pub records: u64,
    /// Ends of top rules short of the line's end: visits that no call of the Rust shows.
    pub short_ends: u64,
    pub cuts: u64,
    /// Cuts found under an earlier cut.
    pub inner_cuts: u64,
    pub ends_dropped: u64,
    pub inner_dropped: u64,
    pub inner_completed: u64,
    pub deepest: usize,
    pub dropped_by_count: u64,
}

// Bytes.

pub const WHITE: [u8; 3] = [9, 13, 32];

pub fn is_white(byte: u8) -> bool {
    WHITE.contains(&byte)
}

pub fn lowered(byte: u8) -> u8 {
    if (65..=90).contains(&byte) {
        byte + 32
    } else {
        byte
    }
}

/// The first place at or after the cursor that holds no whitespace, or the limit.
pub fn useful(line: &[u8], cursor: usize, limit: usize) -> usize {
    let mut at = cursor;
    while at < limit && is_white(line[at]) {
        at += 1;
    }
    at
}

/// The cut for a character, between cursor and limit.
pub fn cut(line: &[u8], cursor: usize, limit: usize, wanted: u8) -> Option<usize> {
    let (mut seen, mut round, mut curly) = (false, 0, 0);
    for at in cursor..limit {
        let byte = line[at];
        if lowered(byte) == lowered(wanted) && seen && round == 0 && curly == 0 {
            return Some(at);
        }
        let nesting = match byte {
            b'(' | b')' => &mut round,
            _ => &mut curly,
        };
        match byte {
            b'(' | b'{' => *nesting += 1,
            b')' | b'}' if *nesting == 0 => return None,
            b')' | b'}' => *nesting -= 1,
            _ => {}
        }
        seen = seen || !is_white(byte);
    }
    None
}

/// A line's first 4 bytes that are no whitespace, lowered.
pub fn line_prefix(line: &[u8]) -> Vec<u8> {
    let solid = line.iter().filter(|b| !is_white(**b));
    solid.take(4).map(|b| lowered(*b)).collect()
}

/// A rule's leading exact parts, up to 4, lowered.
pub fn rule_prefix(parts: &[u16]) -> Vec<u8> {
    let leading = parts.iter().take_while(|p| **p < WHITESPACE);
    leading.take(4).map(|p| lowered(*p as u8)).collect()
}

// The checks, each from its paragraph of "What comes in".

fn is_exact(part: u16) -> bool {
    (33..=126).contains(&part) && part != 59
}

fn is_parameter(part: u16) -> bool {
    part >= EXPRESSION
}

/// A rule's ruleset and parts.
#[derive(Clone)]
pub struct Rule {
    pub set: usize,
    /// Its number within its ruleset.
    pub number: usize,
    pub parts: Vec<u16>,
}

pub struct Table {
    pub flags: Vec<u16>,
    pub rules: Vec<Rule>,
}

/// The table that the words hold, if they hold one.
pub fn read_table(words: &[u16]) -> Option<Table> {
    let (s, r, p) = match words {
        [s, r, p, ..] => (*s as usize, *r as usize, *p as usize),
        _ => return None,
    };
    if !(1..=32).contains(&s) || r > 512 || p > 8192 || words.len() != 3 + s + 3 * r + p {
        return None;
    }
    let flags = &words[3..3 + s];
    let records = &words[3 + s..3 + s + 3 * r];
    let parts = &words[3 + s + 3 * r..];

    let good_part = |part: &u16| {
        is_exact(*part)
            || *part == WHITESPACE
            || *part == EXPRESSION
            || (*part >= NESTED && ((*part - NESTED) as usize) < s)
    };
    if flags.iter().any(|f| *f > 1) || !parts.iter().all(good_part) {
        return None;
    }

    let mut rules: Vec<Rule> = Vec::new();
    let mut sum = 0;
    for record in records.chunks(3) {
        let (set, first, count) = (record[0] as usize, record[1] as usize, record[2] as usize);
        let last = rules.last();
        let in_order = last.map_or(true, |last| last.set <= set);
        sum += count;
        if set >= s || !in_order || first + count > p || sum > p || count > 64 {
            return None;
        }
        let own = &parts[first..first + count];
        if own.iter().filter(|p| is_parameter(**p)).count() > 8 {
            return None;
        }
        let number = last.filter(|l| l.set == set).map_or(0, |l| l.number + 1);
        rules.push(Rule {
            set,
            number,
            parts: own.to_vec(),
        });
    }
    Some(Table {
        flags: flags.to_vec(),
        rules,
    })
}

/// The place that number 3 returns for a bad line.
pub fn bad_line(line: &[u8]) -> Option<u32> {
    let allowed = |b: &u8| is_white(*b) || ((33..=126).contains(b) && *b != 59);
    if line.len() > LONGEST_LINE {
        return Some(120);
    }
    if let Some(place) = line.iter().position(|b| !allowed(b)) {
        return Some(place as u32);
    }
    match line.last() {
        Some(last) if is_white(*last) => Some(line.len() as u32 - 1),
        _ => None,
    }
}

pub fn good_sheet(sheet: &[u8], n: usize) -> bool {
    let side = n + 1;
    let good = |half: usize, c: usize, l: usize| {
        let end = sheet[half * side * side + c * side + l];
        end == NO_END || (c <= end as usize && end as usize <= l)
    };
    sheet.len() == 2 * side * side && (0..2).all(|half| (0..side).all(|c| (c..side).all(|l| good(half, c, l))))
}

// The walk.

/// A match: its rule, its arguments, its own and its nested exact parts.
#[derive(Clone, PartialEq)]
struct Tree {
    rule: usize,
    args: Vec<(usize, usize, Option<Tree>)>,
}

struct Walk<'a> {
    table: &'a Table,
    line: &'a [u8],
    sheet: &'a [u8],
    budget: u32,
    walked: Walked,
}

type Found = Vec<(Tree, usize)>;

/// Numbers 6, 7 and 8.
struct Refused(u32);

/// Where a walk stands in a rule.
#[derive(Clone, Copy)]
struct Stand {
    rule: usize,
    at: usize,
    cursor: usize,
    limit: usize,
    depth: usize,
}

impl Walk<'_> {
    fn record(&mut self) -> Result<(), Refused> {
        if self.walked.records == MOST_RECORDS {
            return Err(Refused(8));
        }
        self.walked.records += 1;
        Ok(())
    }

    /// Every way to go on with a rule: match and cursor, in the walk's order.
    fn rule(&mut self, mut stand: Stand, args: &[(usize, usize, Option<Tree>)]) -> Result<Found, Refused> {
        let table = self.table;
        let parts = &table.rules[stand.rule].parts;
        loop {
            if self.walked.visits == self.budget {
                return Err(Refused(6));
            }
            self.walked.visits += 1;
            let Some(&part) = parts.get(stand.at) else {
                if stand.depth == 0 && stand.cursor < stand.limit {
                    self.walked.short_ends += 1;
                    return Ok(vec![]);
                }
                self.record()?;
                self.walked.inner_completed += (stand.depth > 0) as u64;
                let tree = Tree {
                    rule: stand.rule,
                    args: args.to_vec(),
                };
                return Ok(vec![(tree, stand.cursor)]);
            };
            match part {
                WHITESPACE => {
                    if stand.cursor < stand.limit && !is_white(self.line[stand.cursor]) {
                        return Ok(vec![]);
                    }
                }
                EXPRESSION => return self.expression(stand, args),
                NESTED.. => return self.nested(stand, args, (part - NESTED) as usize),
                _ => {
                    let place = useful(self.line, stand.cursor, stand.limit);
                    if place >= stand.limit || lowered(self.line[place]) != lowered(part as u8) {
                        return Ok(vec![]);
                    }
                    stand.cursor = place + 1;
                }
            }
            stand.at += 1;
        }
    }

    /// The cut for the parameter at hand, if a lookahead character follows it and has one.
    fn cut(&mut self, stand: Stand) -> Option<usize> {
        let after = &self.table.rules[stand.rule].parts[stand.at + 1..];
        let next = after.iter().find(|p| **p != WHITESPACE)?;
        if *next >= WHITESPACE {
            return None;
        }
        let found = cut(self.line, stand.cursor, stand.limit, *next as u8)?;
        self.walked.cuts += 1;
        self.walked.inner_cuts += (stand.limit < self.line.len()) as u64;
        Some(found)
    }

    fn end(&self, half: usize, c: usize, l: usize) -> Option<usize> {
        let side = self.line.len() + 1;
        let end = self.sheet[half * side * side + c * side + l];
        (end != NO_END).then_some(end as usize)
    }

    /// Goes on after an argument.
    fn resume(
        &mut self,
        stand: Stand,
        args: &[(usize, usize, Option<Tree>)],
        end: usize,
        inner: Option<Tree>,
    ) -> Result<Found, Refused> {
        self.record()?;
        let start = useful(self.line, stand.cursor, stand.limit).min(end);
        let mut args = args.to_vec();
        args.push((start, end, inner));
        let next = Stand {
            at: stand.at + 1,
            cursor: end,
            ..stand
        };
        self.rule(next, &args)
    }

    fn expression(&mut self, stand: Stand, args: &[(usize, usize, Option<Tree>)]) -> Result<Found, Refused> {
        let cut = self.cut(stand);
        let ends = [
            self.end(0, stand.cursor, stand.limit),
            cut.and_then(|cut| self.end(0, stand.cursor, cut)),
            self.end(1, stand.cursor, stand.limit),
        ];
        let mut kept: Vec<usize> = Vec::new();
        for end in ends.into_iter().flatten() {
            let place = |end: usize| useful(self.line, end, stand.limit);
            if kept.iter().any(|k| place(*k) == place(end)) {
                self.walked.ends_dropped += 1;
            } else {
                kept.push(end);
            }
        }
        let mut found = Vec::new();
        for end in kept {
            found.extend(self.resume(stand, args, end, None)?);
        }
        Ok(found)
    }

    fn nested(&mut self, stand: Stand, args: &[(usize, usize, Option<Tree>)], set: usize) -> Result<Found, Refused> {
        if stand.depth == DEEPEST {
            return Err(Refused(7));
        }
        self.walked.deepest = self.walked.deepest.max(stand.depth + 1);
        let mut inner = self.ruleset(set, stand.cursor, stand.limit, stand.depth + 1)?;
        if let Some(cut) = self.cut(stand) {
            inner.extend(self.ruleset(set, stand.cursor, cut, stand.depth + 1)?);
        }
        let mut kept: Found = Vec::new();
        for (tree, end) in inner {
            if kept.iter().any(|(other, _)| *other == tree) {
                self.walked.inner_dropped += 1;
            } else {
                kept.push((tree, end));
            }
        }
        let mut found = Vec::new();
        for (tree, end) in kept {
            found.extend(self.resume(stand, args, end, Some(tree))?);
        }
        Ok(found)
    }

    fn ruleset(&mut self, set: usize, cursor: usize, limit: usize, depth: usize) -> Result<Found, Refused> {
        let mut found = Vec::new();
        for rule in 0..self.table.rules.len() {
            if self.table.rules[rule].set == set {
                let stand = Stand {
                    rule,
                    at: 0,
                    cursor,
                    limit,
                    depth,
                };
                found.extend(self.rule(stand, &[])?);
            }
        }
        Ok(found)
    }

    fn top(&mut self, order: &[usize]) -> Result<Vec<Tree>, Refused> {
        let mut found = Vec::new();
        for rule in order {
            let stand = Stand {
                rule: *rule,
                at: 0,
                cursor: 0,
                limit: self.line.len(),
                depth: 0,
            };
            found.extend(self.rule(stand, &[])?);
        }
        Ok(found.into_iter().map(|(tree, _)| tree).collect())
    }
}

/// The rules to try on a line: all top rules, or those that lookup finds.
pub fn order(table: &Table, line: &[u8], lookup: bool) -> Vec<usize> {
    let top = (0..table.rules.len()).filter(|r| table.flags[table.rules[*r].set] == 0);
    if !lookup {
        return top.collect();
    }
    let top: Vec<usize> = top.collect();
    let prefix = line_prefix(line);
    let of_length = |k: usize| {
        let prefix = &prefix[..k];
        let has = move |r: &&usize| rule_prefix(&table.rules[**r].parts) == prefix;
        top.iter().filter(has).copied().collect::<Vec<_>>()
    };
    (0..=prefix.len()).flat_map(of_length).collect()
}

fn exact_count(table: &Table, tree: &Tree) -> u64 {
    let own = table.rules[tree.rule].parts.iter().filter(|p| **p < WHITESPACE);
    let inner = tree.args.iter().filter_map(|(_, _, inner)| inner.as_ref());
    own.count() as u64 + inner.map(|t| exact_count(table, t)).sum::<u64>()
}

fn write_tree(table: &Table, tree: &Tree, base: u32, words: &mut Vec<u32>) {
    let rule = &table.rules[tree.rule];
    words.extend([rule.set as u32, rule.number as u32, tree.args.len() as u32]);
    for (start, end, inner) in &tree.args {
        words.extend([inner.is_some() as u32, base + *start as u32, base + *end as u32]);
        if let Some(inner) = inner {
            write_tree(table, inner, base, words);
        }
    }
}

/// The whole call.
pub fn answer(call: &Call, lookup: bool) -> (Answer, Walked) {
    let refused = |number, place| Answer {
        number,
        place,
        ..Answer::default()
    };
    let none = Walked::default();

    let Some(table) = read_table(&call.table) else {
        return (refused(2, 0), none);
    };
    if let Some(place) = bad_line(&call.line) {
        return (refused(3, place), none);
    }
    if !good_sheet(&call.sheet, call.line.len()) {
        return (refused(4, 0), none);
    }
    if !(1..=MOST_VISITS).contains(&call.budget) {
        return (refused(5, 0), none);
    }
    if call.base > MOST_BASE {
        return (refused(19, 0), none);
    }

    let mut walk = Walk {
        table: &table,
        line: &call.line,
        sheet: &call.sheet,
        budget: call.budget,
        walked: none,
    };
    let found = walk.top(&order(&table, &call.line, lookup));
    let mut walked = walk.walked;
    let told = |number, words| Answer {
        number,
        visits: walked.visits,
        words,
        ..Answer::default()
    };
    let found = match found {
        Err(Refused(number)) => return (told(number, 0), walked),
        Ok(found) if found.is_empty() => return (told(1, 0), walked),
        Ok(found) => found,
    };

    let counts: Vec<u64> = found.iter().map(|t| exact_count(&table, t)).collect();
    let greatest = counts.iter().max().copied().unwrap_or(0);
    let best = found.iter().zip(&counts).filter(|(_, c)| **c == greatest);
    let mut words = vec![0, greatest as u32];
    for (tree, _) in best {
        words[0] += 1;
        write_tree(&table, tree, call.base, &mut words);
    }
    let needed = words.len() as u32;
    let mut result = if words.len() > call.room {
        told(9, needed)
    } else {
        told(0, needed)
    };
    if result.number == 0 {
        result.answer = words;
    }
    walked.dropped_by_count = counts.iter().filter(|c| **c < greatest).count() as u64;
    (result, walked)
}

// Programs.

const MOST_LINES: usize = 256;

/// What a program call is given. For rows it is lent so many words.
#[derive(Clone, Debug)]
pub struct ProgramCall {
    pub table: Vec<u16>,
    pub text: Vec<u8>,
    pub ends: Vec<u32>,
    pub sheets: Vec<u8>,
    pub budgets: Vec<u32>,
    pub bases: Vec<u32>,
    pub rows: usize,
    pub room: usize,
}

/// What it returns. Rows and answers are what is written at the start of what is lent for them.
#[derive(Clone, Debug, Default, PartialEq)]
pub struct ProgramAnswer {
    pub number: u32,
    pub visits: u32,
    pub words: u32,
    pub place: u32,
    pub rows: Vec<u32>,
    pub answers: Vec<u32>,
}

/// The bytes of each line and of its sheet, if the lines are as many as may be and their ends and sheets fit.
fn lines_of(call: &ProgramCall) -> Option<Vec<(&[u8], &[u8])>> {
    if call.ends.len() > MOST_LINES {
        return None;
    }
    let (mut lines, mut start, mut sheets) = (Vec::new(), 0, &call.sheets[..]);
    for end in &call.ends {
        let line = call.text.get(start..*end as usize)?;
        let side = line.len() + 1;
        let length = if line.len() > LONGEST_LINE { 0 } else { 2 * side * side };
        lines.push((line, sheets.get(..length)?));
        sheets = &sheets[length..];
        start = *end as usize;
    }
    sheets.is_empty().then_some(lines)
}

/// The whole program, and beside it each line as the single call that it is, with what that gives.
pub fn program(call: &ProgramCall, lookup: bool) -> (ProgramAnswer, Vec<(Call, Answer, Walked)>) {
    let refused = |number| {
        let answer = ProgramAnswer {
            number,
            ..ProgramAnswer::default()
        };
        (answer, Vec::new())
    };
    if read_table(&call.table).is_none() {
        return refused(2);
    }
    let Some(lines) = lines_of(call) else {
        return refused(17);
    };
    if call.budgets.len() != lines.len() || call.bases.len() != lines.len() || call.rows != 2 * lines.len() {
        return refused(17);
    }

    let (mut told, mut singles) = (ProgramAnswer::default(), Vec::new());
    for (((line, sheet), budget), base) in lines.into_iter().zip(&call.budgets).zip(&call.bases) {
        let single = Call {
            table: call.table.clone(),
            line: line.to_vec(),
            sheet: sheet.to_vec(),
            budget: *budget,
            base: *base,
            room: call.room - told.answers.len(),
        };
        let (own, walked) = answer(&single, lookup);
        told.rows.extend([own.number, told.answers.len() as u32]);
        told.answers.extend(&own.answer);
        singles.push((single, own, walked));
    }
    told.words = told.answers.len() as u32;
    (told, singles)
}

// Selection.

/// What a selection call returns: number, count, the words after it, and what is written at the buffer's start.
#[derive(Clone, Debug, PartialEq)]
pub struct Chosen {
    pub number: u32,
    pub count: u32,
    pub words: Vec<u32>,
    pub chosen: Vec<u16>,
}

fn good_outcome(word: u32) -> bool {
    let (kind, size) = (word / 2 % 4, word / 8);
    match kind {
        0 => word == 0,
        3 => size <= 65_535,
        _ => size == 0,
    }
}

pub fn select(words: &[u32], last: bool, room: usize) -> Chosen {
    let kind = |w: &u32| *w / 2 % 4;
    let unchanged = |number, count| Chosen {
        number,
        count,
        words: words.to_vec(),
        chosen: vec![],
    };
    if words.len() > 4096 || !words.iter().all(|w| good_outcome(*w)) {
        return unchanged(10, 0);
    }
    if !words.iter().any(|w| kind(w) >= 2) {
        return unchanged(11, 0);
    }
    let Some(least) = words.iter().filter(|w| kind(w) == 3).map(|w| *w / 8).min() else {
        return unchanged(12, 0);
    };
    let least_ones = (0..words.len()).filter(|i| kind(&words[*i]) == 3 && words[*i] / 8 == least);
    let chosen: Vec<u16> = least_ones.map(|i| i as u16).collect();
    let count = chosen.len() as u32;
    let guess = words.iter().any(|w| kind(w) == 0 || *w % 2 == 1);
    let mark = |w: &u32| if guess && kind(w) != 0 { *w | 1 } else { *w };
    let marked = words.iter().map(mark).collect();
    if last && count > 1 {
        return Chosen {
            words: marked,
            ..unchanged(13, count)
        };
    }
    if chosen.len() > room {
        return unchanged(14, count);
    }
    Chosen {
        number: 0,
        count,
        words: marked,
        chosen,
    }
}
