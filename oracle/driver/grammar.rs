//! The grammar of delta expressions, from document 02's sentences alone: a plain search for every end, forward from a start.
//! It is what filled sheets are held to, since the Rust's expression parsers are not in its published text.
use crate::model;

/// What filling returns. `sheet` is what is written.
#[derive(Clone, Debug, Default, PartialEq)]
pub struct Filled {
    pub number: u32,
    pub visits: u32,
    pub words: u32,
    pub place: u32,
    pub sheet: Vec<u8>,
}

/// What filling a sheet of so many bytes returns.
pub fn fill(line: &[u8], room: usize) -> Filled {
    if let Some(place) = model::bad_line(line) {
        return Filled {
            number: 3,
            place,
            ..Filled::default()
        };
    }
    let sheet = sheet(line);
    if sheet.len() != room {
        return Filled {
            number: 18,
            ..Filled::default()
        };
    }
    Filled {
        words: sheet.len() as u32,
        sheet,
        ..Filled::default()
    }
}

/// The sheet of a line: free ends, then greedy ones, the entry for start c and limit l at c(n+1)+l.
pub fn sheet(line: &[u8]) -> Vec<u8> {
    let side = line.len() + 1;
    let mut sheet = vec![255; 2 * side * side];
    for l in 0..side {
        let mut search = Search::under(line, l);
        for c in 0..=l {
            sheet[c * side + l] = byte(search.free(c));
            sheet[side * side + c * side + l] = byte(search.greedy(c));
        }
    }
    sheet
}

fn byte(end: Option<usize>) -> u8 {
    end.map_or(255, |end| end as u8)
}

fn is_digit(byte: u8) -> bool {
    (b'0'..=b'9').contains(&byte)
}

fn is_letter(byte: u8) -> bool {
    (b'a'..=b'z').contains(&model::lowered(byte))
}

fn goes_on(byte: u8) -> bool {
    is_letter(byte) || is_digit(byte)
}

/// A search under one limit: the line stops there.
struct Search<'a> {
    line: &'a [u8],
    /// The ends of the expressions from each start, once they have been sought.
    sought: Vec<Option<Vec<usize>>>,
}

impl Search<'_> {
    fn under(line: &[u8], limit: usize) -> Search<'_> {
        Search {
            line: &line[..limit],
            sought: vec![None; limit + 1],
        }
    }

    /// The greatest end that closes an expression on its last token.
    fn free(&mut self, c: usize) -> Option<usize> {
        self.expression(c).into_iter().max()
    }

    /// The end of the longest nonempty digit run after whitespace.
    fn greedy(&self, c: usize) -> Option<usize> {
        self.word(c, is_digit, is_digit).into_iter().max()
    }

    /// Where a token begins: whitespace may stand before it.
    fn token(&self, c: usize) -> usize {
        model::useful(self.line, c, self.line.len())
    }

    /// Past a token of one byte, if it is one of those wanted.
    fn sign(&self, c: usize, wanted: &[u8]) -> Option<usize> {
        let at = self.token(c);
        let found = self.line.get(at).is_some_and(|byte| wanted.contains(byte));
        found.then_some(at + 1)
    }

    /// The ends of a token of one or more bytes, which its first byte and each later one are asked about.
    fn word(&self, c: usize, first: fn(u8) -> bool, later: fn(u8) -> bool) -> Vec<usize> {
        let (mut at, mut is_next) = (self.token(c), first);
        let mut ends = Vec::new();
        while self.line.get(at).is_some_and(|byte| is_next(*byte)) {
            at += 1;
            ends.push(at);
            is_next = later;
        }
        ends
    }

    /// A term is decimal digits, a name, a minus before a term, or an expression in parentheses.
    fn term(&mut self, c: usize) -> Vec<usize> {
        let mut ends = self.word(c, is_digit, is_digit);
        ends.extend(self.word(c, is_letter, goes_on));
        if let Some(after) = self.sign(c, b"-") {
            ends.extend(self.term(after));
        }
        if let Some(inner) = self.sign(c, b"(") {
            let inner = self.expression(inner);
            ends.extend(inner.into_iter().filter_map(|end| self.sign(end, b")")));
        }
        ends
    }

    /// An expression is terms joined by one of + - * / & |.
    fn expression(&mut self, c: usize) -> Vec<usize> {
        if let Some(ends) = &self.sought[c] {
            return ends.clone();
        }
        let mut ends = Vec::new();
        for end in self.term(c) {
            ends.push(end);
            if let Some(next) = self.sign(end, b"+-*/&|") {
                ends.extend(self.expression(next));
            }
        }
        self.sought[c] = Some(ends.clone());
        ends
    }
}
