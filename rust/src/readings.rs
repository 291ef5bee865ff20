//! Answer words, read as trees.

use std::iter::Copied;
use std::ops::Range;
use std::slice::Iter;

/// The deepest that a tree may nest: 0 for a top rule, up to 16.
const DEEPEST: usize = 16;

type Words<'a> = Copied<Iter<'a, u32>>;

/// The readings that a match found, all with the same, greatest exact count.
///
/// docs/MANUAL.md, chapter 7, takes an answer's words apart, one by one.
#[derive(Clone, Debug, PartialEq, Eq)]
pub struct Readings {
    /// The exact count that each has: its exact parts, those of nested rules included.
    pub count: u32,
    /// A tree for each, in the order in which they were found.
    pub trees: Vec<Tree>,
}

/// A rule and what its parameters stand for.
#[derive(Clone, Debug, PartialEq, Eq)]
pub struct Tree {
    /// The rule's ruleset.
    pub ruleset: u32,
    /// The rule's number, from 0 within its ruleset.
    pub rule: u32,
    /// One for each parameter, in their order.
    pub arguments: Vec<Argument>,
}

/// What a parameter stands for.
#[derive(Clone, Debug, PartialEq, Eq)]
pub struct Argument {
    /// Where its bytes stand in the file, without the whitespace before them: each place is the
    /// call's base plus the offset within the line. It may be empty.
    pub span: Range<u32>,
    /// What they are.
    pub kind: Kind,
}

/// What an argument is.
#[derive(Clone, Debug, PartialEq, Eq)]
pub enum Kind {
    /// An expression.
    Expression,
    /// A rule of the ruleset that the parameter names.
    Nested(Tree),
}

impl Argument {
    /// Its bytes, out of the file whose places the base counted: out of the line itself where the
    /// base was 0. `None` if the span is none of this file's.
    ///
    /// ```
    /// use tholdrimash::{match_line, sheet_of, Readings};
    ///
    /// # fn main() -> Result<(), Box<dyn std::error::Error>> {
    /// let mov = [1, 1, 5, 0, 0, 0, 5, 109, 111, 118, 256, 257]; // mov, whitespace, an expression
    /// let file = "mov 7\nmov x+1\n";
    /// let line = b"mov x+1"; // which begins at byte 6
    ///
    /// let mut answer = [0; 8];
    /// let words = match_line(&mov, line, &sheet_of(line)?, 100, 6, &mut answer).written()?;
    /// let readings = Readings::read(&answer[..words]).expect("a whole answer");
    /// let argument = &readings.trees[0].arguments[0];
    /// assert_eq!(argument.span, 10..13);
    /// assert_eq!(argument.bytes(file.as_bytes()), Some(&b"x+1"[..]));
    /// assert_eq!(argument.bytes(line), None);
    /// # Ok(())
    /// # }
    /// ```
    pub fn bytes<'a>(&self, file: &'a [u8]) -> Option<&'a [u8]> {
        file.get(self.span.start as usize..self.span.end as usize)
    }
}

impl Readings {
    /// Reads answer words: the number of matches, the greatest exact count, then each tree: its
    /// ruleset, rule and argument count; for each argument 0 (expression) or 1 (nested), start,
    /// end, and the inner tree if nested.
    ///
    /// Any words may be given. `None` if they are not one whole answer with nothing after it, or a
    /// tree nests deeper than 16. Give as many words of the buffer as
    /// [`Answer::written`](crate::Answer::written) says. Words that no match wrote may be read too:
    /// whether they are a reading of some line is not checked, nor whether a span lies within it.
    ///
    /// ```
    /// use tholdrimash::{Kind, Readings};
    ///
    /// let words = [2, 1, 0, 0, 1, 0, 0, 3, 0, 2, 0];
    /// let readings = Readings::read(&words).expect("a whole answer");
    /// assert_eq!(readings.trees.len(), 2, "a line with two readings");
    /// assert_eq!(readings.trees[0].arguments[0].span, 0..3);
    /// assert_eq!(readings.trees[0].arguments[0].kind, Kind::Expression);
    ///
    /// assert_eq!(Readings::read(&words[..10]), None);
    /// ```
    pub fn read(words: &[u32]) -> Option<Readings> {
        let mut words = words.iter().copied();
        let matches = words.next()?;
        let count = words.next()?;
        let trees = (0..matches)
            .map(|_| tree(&mut words, 0))
            .collect::<Option<_>>()?;
        match words.next() {
            None => Some(Readings { count, trees }),
            Some(_) => None,
        }
    }
}

fn tree(words: &mut Words, depth: usize) -> Option<Tree> {
    if depth > DEEPEST {
        return None;
    }
    let ruleset = words.next()?;
    let rule = words.next()?;
    let count = words.next()?;
    let arguments = (0..count)
        .map(|_| argument(words, depth))
        .collect::<Option<_>>()?;
    Some(Tree {
        ruleset,
        rule,
        arguments,
    })
}

fn argument(words: &mut Words, depth: usize) -> Option<Argument> {
    let kind = words.next()?;
    let start = words.next()?;
    let end = words.next()?;
    let kind = match kind {
        0 => Kind::Expression,
        1 => Kind::Nested(tree(words, depth + 1)?),
        _ => return None,
    };
    Some(Argument {
        span: start..end,
        kind,
    })
}
