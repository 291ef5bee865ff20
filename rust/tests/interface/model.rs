//! A model of rule tables as text, in plain Rust: data printed, text parsed line by line, words
//! packed and unpacked. It is written from the rules alone, and shares nothing with the library.

use tholdrimash::{ReadAnswer, WriteAnswer};

#[derive(Clone, Copy, Debug, PartialEq)]
pub enum Part {
    Exact(u8),
    Whitespace,
    Expression,
    Nested(usize),
}

#[derive(Clone, Debug, PartialEq)]
pub struct Rule {
    pub set: usize,
    pub parts: Vec<Part>,
}

/// A table's rulesets, top or not, and its rules in order.
#[derive(Clone, Debug, Default, PartialEq)]
pub struct Data {
    pub tops: Vec<bool>,
    pub rules: Vec<Rule>,
}

impl Data {
    /// One record a line, first all rulesets, then all rules.
    pub fn print(&self) -> Vec<u8> {
        let mut text = String::new();
        for &top in &self.tops {
            text += if top {
                "ruleset\ttop\n"
            } else {
                "ruleset\tnested\n"
            };
        }
        for rule in &self.rules {
            text += &format!("rule\t{}", rule.set);
            for part in &rule.parts {
                text += "\t";
                match part {
                    Part::Exact(byte) => text.push(char::from(*byte)),
                    Part::Whitespace => text += "ws",
                    Part::Expression => text += "expr",
                    Part::Nested(set) => text += &format!("sub{set}"),
                }
            }
            text += "\n";
        }
        text.into_bytes()
    }

    /// The data of a listing, or the first bad line, or the number of ended lines if only the end is
    /// wrong.
    pub fn parse(text: &[u8]) -> Result<Data, usize> {
        let mut data = Data::default();
        let mut pieces: Vec<&[u8]> = text.split(|&byte| byte == b'\n').collect();
        let rest = pieces.pop().expect("a piece after the last line end");
        for (number, line) in pieces.iter().enumerate() {
            if !data.add(line) {
                return Err(number);
            }
        }
        match rest.is_empty() && !data.tops.is_empty() {
            true => Ok(data),
            false => Err(pieces.len()),
        }
    }

    /// Takes one more line, if the table's limits hold with it.
    fn add(&mut self, line: &[u8]) -> bool {
        let fields: Vec<&[u8]> = line.split(|&byte| byte == b'\t').collect();
        match &fields[..] {
            [b"ruleset", kind @ (b"top" | b"nested")] => {
                self.tops.push(*kind == b"top");
                self.tops.len() <= 32 && self.rules.is_empty()
            }
            [b"rule", set, parts @ ..] => {
                let Some(set) = number(set, self.tops.len()) else {
                    return false;
                };
                let parts: Option<Vec<Part>> = parts.iter().map(|field| self.part(field)).collect();
                let Some(parts) = parts else {
                    return false;
                };
                self.rules.push(Rule { set, parts });
                self.in_limits()
            }
            _ => false,
        }
    }

    fn part(&self, field: &[u8]) -> Option<Part> {
        match field {
            [byte] => exact(u16::from(*byte)),
            b"ws" => Some(Part::Whitespace),
            b"expr" => Some(Part::Expression),
            [b's', b'u', b'b', set @ ..] => number(set, self.tops.len()).map(Part::Nested),
            _ => None,
        }
    }

    /// The limits that the last rule may break.
    fn in_limits(&self) -> bool {
        let Some(last) = self.rules.last() else {
            return true;
        };
        let parts: usize = self.rules.iter().map(|rule| rule.parts.len()).sum();
        self.rules.len() <= 512
            && self.rules.iter().all(|rule| rule.set <= last.set)
            && last.parts.len() <= 64
            && last.parts.iter().filter(|part| is_parameter(part)).count() <= 8
            && parts <= 8192
    }

    /// The packed words: the parts in rule order, and none spare.
    pub fn pack(&self) -> Vec<u16> {
        let parts = self.rules.iter().flat_map(|rule| &rule.parts).map(word);
        let parts: Vec<u16> = parts.collect();
        let sizes = [self.tops.len(), self.rules.len(), parts.len()];
        let mut words: Vec<u16> = sizes.map(|size| size as u16).into();
        words.extend(self.tops.iter().map(|&top| u16::from(!top)));
        let mut first = 0;
        for rule in &self.rules {
            let count = rule.parts.len();
            words.extend([rule.set, first, count].map(|field| field as u16));
            first += count;
        }
        words.extend(parts);
        words
    }

    /// The data of table words, if they are a table.
    pub fn unpack(words: &[u16]) -> Option<Data> {
        let &[s, r, p] = words.first_chunk()?;
        let [s, r, p] = [s, r, p].map(usize::from);
        let sizes = (1..=32).contains(&s) && r <= 512 && p <= 8192;
        if !sizes || words.len() != 3 + s + 3 * r + p {
            return None;
        }
        let (flags, rest) = words[3..].split_at(s);
        let (records, parts) = rest.split_at(3 * r);
        let parts: Option<Vec<Part>> = parts.iter().map(|&word| part(word, s)).collect();
        let parts = parts?;

        let mut data = Data::default();
        for &flag in flags {
            data.tops
                .push([true, false].get(usize::from(flag)).copied()?);
        }
        for record in records.chunks(3) {
            let [set, first, count] = [0, 1, 2].map(|field| usize::from(record[field]));
            let parts = parts.get(first..first + count)?.to_vec();
            data.rules.push(Rule { set, parts });
            if set >= s || !data.in_limits() {
                return None;
            }
        }
        let used: usize = data.rules.iter().map(|rule| rule.parts.len()).sum();
        (used <= p).then_some(data)
    }
}

/// The number below a bound whose decimal this is.
fn number(field: &[u8], bound: usize) -> Option<usize> {
    (0..bound).find(|number| match (number / 10, number % 10) {
        (0, ones) => field == [b'0' + ones as u8],
        (tens, ones) => field == [b'0' + tens as u8, b'0' + ones as u8],
    })
}

fn exact(word: u16) -> Option<Part> {
    (33..=126)
        .contains(&word)
        .then_some(word as u8)
        .filter(|&byte| byte != b';')
        .map(Part::Exact)
}

fn is_parameter(part: &Part) -> bool {
    matches!(part, Part::Expression | Part::Nested(_))
}

fn word(part: &Part) -> u16 {
    match part {
        Part::Exact(byte) => u16::from(*byte),
        Part::Whitespace => 256,
        Part::Expression => 257,
        Part::Nested(set) => 512 + *set as u16,
    }
}

fn part(word: u16, sets: usize) -> Option<Part> {
    match usize::from(word) {
        256 => Some(Part::Whitespace),
        257 => Some(Part::Expression),
        512.. => Some(usize::from(word) - 512)
            .filter(|&set| set < sets)
            .map(Part::Nested),
        _ => exact(word),
    }
}

/// What reading is to answer, with the words that it is to write, of a text whose first bad line or
/// packed words are known.
pub fn told_of_text(read: &Result<Vec<u16>, usize>, room: usize) -> (ReadAnswer, Vec<u16>) {
    match read {
        Err(line) => (ReadAnswer::BadText { line: *line }, vec![]),
        Ok(words) if words.len() > room => (ReadAnswer::NoRoom, vec![]),
        Ok(words) => (ReadAnswer::Read { words: words.len() }, words.clone()),
    }
}

/// What writing is to answer, with the bytes that it is to write, of a table whose listing is
/// known, if it is one.
pub fn told_of_table(written: &Option<Vec<u8>>, room: usize) -> (WriteAnswer, Vec<u8>) {
    match written {
        None => (WriteAnswer::BadTable, vec![]),
        Some(text) if text.len() > room => (WriteAnswer::NoRoom, vec![]),
        Some(text) => (WriteAnswer::Written { bytes: text.len() }, text.clone()),
    }
}
