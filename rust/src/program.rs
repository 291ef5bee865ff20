//! A whole program in one call: its lines, what the call answers, and each line's answer.

use crate::raw::{self, Order};
use crate::Readings;
use std::error::Error;
use std::fmt;
use std::slice::ChunksExact;

pub use crate::raw::Program;

/// A program has at most so many lines.
pub const MOST_LINES: usize = 256;

/// The longest line that has a sheet.
const LONGEST: usize = 120;

/// How many bytes the sheet of a line of `n` bytes has, alone or in a program: 2(n+1)^2 up to 120,
/// and none for a longer line.
///
/// ```
/// use tholdrimash::sheet_len;
///
/// assert_eq!(sheet_len(0), 2);
/// assert_eq!(sheet_len(5), 2 * 6 * 6);
/// assert_eq!(sheet_len(121), 0);
/// ```
pub const fn sheet_len(n: usize) -> usize {
    if n > LONGEST {
        0
    } else {
        2 * (n + 1) * (n + 1)
    }
}

/// What a program call returns: number 0, or the refusal.
///
/// [`written`](ProgramAnswer::written) parts the two, so that a refusal is an error for `?`.
/// docs/MANUAL.md, chapter 8, says what to do about each refusal.
#[must_use]
#[derive(Clone, Copy, Debug, PartialEq, Eq, Hash)]
pub enum ProgramAnswer {
    /// 0: every line has its row, and the lines' words stand at the start of the answers, the rest
    /// of which is unchanged.
    Read {
        /// Answer words written, of all lines together.
        words: usize,
    },
    /// 2: the words are no table.
    BadTable,
    /// 17: there are more than 256 lines, an end lies below the one before it or past the text, or
    /// the sheets, the budgets, the bases or the rows have the wrong length.
    BadProgram,
}

impl ProgramAnswer {
    /// Its number, 0, 2 or 17, as in `include/tholdrimash.h`.
    pub fn number(self) -> u32 {
        match self {
            ProgramAnswer::Read { .. } => 0,
            ProgramAnswer::BadTable => 2,
            ProgramAnswer::BadProgram => 17,
        }
    }

    /// How many answer words were written, or the refusal as an error.
    pub fn written(self) -> Result<usize, ProgramAnswer> {
        match self {
            ProgramAnswer::Read { words } => Ok(words),
            refusal => Err(refusal),
        }
    }
}

impl fmt::Display for ProgramAnswer {
    fn fmt(&self, f: &mut fmt::Formatter<'_>) -> fmt::Result {
        match self {
            ProgramAnswer::Read { words } => write!(f, "the program is read: {words} words"),
            ProgramAnswer::BadTable => write!(f, "the rule table is bad"),
            ProgramAnswer::BadProgram => {
                write!(
                    f,
                    "the program's lines, sheets, budgets, bases or rows are bad"
                )
            }
        }
    }
}

impl Error for ProgramAnswer {}

/// What one line of a program is: number 0 with its answer words, or the line's refusal.
///
/// The number is the one that [`match_line`](crate::match_line) gives for the line, with the room
/// left as its buffer, and says what [`Answer`](crate::Answer) says of it. Visits, a bad line's
/// place and the words that a [`TooLong`](LineAnswer::TooLong) needs are not told: match that line
/// alone to have them.
#[derive(Clone, Copy, Debug, PartialEq, Eq, Hash)]
pub enum LineAnswer<'a> {
    /// 0: the line's readings.
    Matched {
        /// Its answer words, for [`Readings::read`](crate::Readings::read).
        words: &'a [u32],
    },
    /// 1: the line has no reading.
    NoMatch,
    /// 3: the line is too long, has a byte that no line has, or ends in whitespace.
    BadLine,
    /// 4: an entry of its sheet is wrong.
    BadSheet,
    /// 5: its budget is not from 1 to 1,000,000.
    BadBudget,
    /// 6: the next visit would exceed its budget.
    Spent,
    /// 7: a nested step would enter depth 17.
    TooDeep,
    /// 8: a 4,097th record is due.
    PoolFull,
    /// 9: its answer is longer than the room that the lines before it have left. A later, shorter
    /// one may still have found room.
    TooLong,
    /// 19: its base is above [`GREATEST_BASE`](crate::GREATEST_BASE).
    BadBase,
}

impl<'a> LineAnswer<'a> {
    /// The answer of a number with the words from its own row's place to the next one's, if there
    /// is such a one: only a line that matched has words.
    fn of(number: u32, words: &'a [u32]) -> Option<LineAnswer<'a>> {
        let refusal = match number {
            0 => return Some(LineAnswer::Matched { words }),
            1 => LineAnswer::NoMatch,
            3 => LineAnswer::BadLine,
            4 => LineAnswer::BadSheet,
            5 => LineAnswer::BadBudget,
            6 => LineAnswer::Spent,
            7 => LineAnswer::TooDeep,
            8 => LineAnswer::PoolFull,
            9 => LineAnswer::TooLong,
            19 => LineAnswer::BadBase,
            _ => return None,
        };
        words.is_empty().then_some(refusal)
    }

    /// Its number, 0, 1, 3 to 9 or 19, as in `include/tholdrimash.h`.
    pub fn number(self) -> u32 {
        match self {
            LineAnswer::Matched { .. } => 0,
            LineAnswer::NoMatch => 1,
            LineAnswer::BadLine => 3,
            LineAnswer::BadSheet => 4,
            LineAnswer::BadBudget => 5,
            LineAnswer::Spent => 6,
            LineAnswer::TooDeep => 7,
            LineAnswer::PoolFull => 8,
            LineAnswer::TooLong => 9,
            LineAnswer::BadBase => 19,
        }
    }

    /// The line's answer words, or its refusal as an error.
    pub fn written(self) -> Result<&'a [u32], LineAnswer<'a>> {
        match self {
            LineAnswer::Matched { words } => Ok(words),
            refusal => Err(refusal),
        }
    }

    /// The line's readings, as trees. `None` if it has none, or if its words are no whole answer,
    /// as those of a program call always are.
    pub fn readings(self) -> Option<Readings> {
        Readings::read(self.written().ok()?)
    }
}

impl fmt::Display for LineAnswer<'_> {
    fn fmt(&self, f: &mut fmt::Formatter<'_>) -> fmt::Result {
        match self {
            LineAnswer::Matched { words } => write!(f, "the line matches: {} words", words.len()),
            LineAnswer::NoMatch => write!(f, "no rule matches the line"),
            LineAnswer::BadLine => write!(f, "the line is bad"),
            LineAnswer::BadSheet => write!(f, "the extent sheet is bad"),
            LineAnswer::BadBudget => write!(f, "the budget is not from 1 to 1,000,000 visits"),
            LineAnswer::Spent => write!(f, "the budget is spent"),
            LineAnswer::TooDeep => write!(f, "rulesets nest deeper than 16"),
            LineAnswer::PoolFull => write!(f, "more than 4,096 records are due"),
            LineAnswer::TooLong => write!(f, "the answer is longer than the room left"),
            LineAnswer::BadBase => write!(f, "the base is above 4,294,967,175"),
        }
    }
}

impl Error for LineAnswer<'_> {}

/// The answers of a program's lines, in their order.
#[derive(Clone, Debug)]
pub struct LineAnswers<'a> {
    rows: ChunksExact<'a, u32>,
    /// The words of the lines that are still to come.
    words: &'a [u32],
    /// How many words the lines before those have used.
    used: usize,
}

impl<'a> LineAnswers<'a> {
    /// Reads the rows that a program call wrote, with as many of its answer words as
    /// [`ProgramAnswer::written`] says.
    ///
    /// Any words may be given. `None` if they are not the rows of some lines that have used exactly
    /// these answer words: two words a line, a number that a line may have, and the words used
    /// before the line, from 0 on, never fewer than before, and more only after a line that matched.
    pub fn read(rows: &'a [u32], words: &'a [u32]) -> Option<LineAnswers<'a>> {
        let rows = rows.chunks_exact(2);
        if !rows.remainder().is_empty() {
            return None;
        }
        let lines = LineAnswers {
            rows,
            words,
            used: 0,
        };
        let mut left = lines.clone();
        while left.rows.len() > 0 {
            left.step()?;
        }
        left.words.is_empty().then_some(lines)
    }

    /// The next line's answer, if there is a next line and its row is one.
    fn step(&mut self) -> Option<LineAnswer<'a>> {
        let &[number, before] = self.rows.next()? else {
            return None;
        };
        // Where the next line's words begin; the last one has all that are left.
        let after = match self.rows.clone().next() {
            Some(next) => usize::try_from(next[1]).ok()?,
            None => self.used + self.words.len(),
        };
        if usize::try_from(before) != Ok(self.used) {
            return None;
        }
        let own = after.checked_sub(self.used)?;
        if own > self.words.len() {
            return None;
        }
        let (words, rest) = self.words.split_at(own);
        (self.words, self.used) = (rest, after);
        LineAnswer::of(number, words)
    }
}

impl<'a> Iterator for LineAnswers<'a> {
    type Item = LineAnswer<'a>;

    fn next(&mut self) -> Option<LineAnswer<'a>> {
        self.step()
    }

    fn size_hint(&self) -> (usize, Option<usize>) {
        self.rows.size_hint()
    }
}

impl ExactSizeIterator for LineAnswers<'_> {}

/// Matches the lines of a program, up to 256, in one call: the full scan.
///
/// The table is judged once, so a line costs what is its own.
///
/// - `table`: as for [`match_line`](crate::match_line).
/// - `program`: the lines' text, ends, sheets, budgets and bases; [`sheet_len`] says how long each
///   line's sheet is, and [`fill_sheet`](crate::fill_sheet) fills it where it stands.
/// - `rows`: two words for each line, exactly: its number, and the answer words used before it.
/// - `answers`: where the lines' words go, one line's after another's.
///
/// The number is 2 for a bad table, then 17 for a program, or rows, of the wrong shape. Both come
/// before any line, and nothing is written. Otherwise it is 0, whatever the lines' own numbers are;
/// [`LineAnswers::read`] goes through them. A line's number and words are what `match_line` gives
/// for it with the room left in `answers` as its buffer. A refused line takes no words and stops
/// nothing.
///
/// ```
/// use tholdrimash::{fill_sheet, match_program, sheet_len, LineAnswer, LineAnswers, Program};
///
/// # fn main() -> Result<(), Box<dyn std::error::Error>> {
/// let table = [1, 2, 7, 0, 0, 0, 3, 0, 3, 4, 110, 111, 112, 97, 100, 100, 257]; // nop, add expr
/// let file = "nop\nn;p\n\nADD 2*(x - 1)\n";
///
/// let (mut text, mut ends, mut sheets, mut bases) = (vec![], vec![], vec![], vec![]);
/// let mut base = 0;
/// for whole in file.split_inclusive('\n') {
///     let line = whole.trim_end();
///     text.extend(line.bytes());
///     ends.push(text.len() as u32);
///     let before = sheets.len();
///     sheets.resize(before + sheet_len(line.len()), 0);
///     // A bad line's sheet may hold anything: the program call finds that line bad itself.
///     let _ = fill_sheet(line.as_bytes(), &mut sheets[before..]);
///     bases.push(base);
///     base += whole.len() as u32; // the line end counts in the file, though it is in no line
/// }
/// let program = Program {
///     text: &text,
///     ends: &ends,
///     sheets: &sheets,
///     budgets: &[1_000; 4],
///     bases: &bases,
/// };
/// let mut rows = [0; 2 * 4];
/// let mut answers = [0; 64];
///
/// let words = match_program(&table, program, &mut rows, &mut answers).written()?;
/// assert_eq!(rows, [0, 0, 3, 5, 1, 5, 0, 5]); // each line's number, and the words before it
/// assert_eq!(answers[..words], [1, 3, 0, 0, 0, 1, 3, 0, 1, 1, 0, 13, 22]);
///
/// let told = LineAnswers::read(&rows, &answers[..words]).expect("the rows of a call");
/// for (line, answer) in file.lines().zip(told) {
///     match answer {
///         LineAnswer::Matched { words } => println!("{line}: {words:?}"),
///         refusal => println!("{line}: {refusal}"),
///     }
/// }
/// let last = LineAnswers::read(&rows, &answers[..words]).and_then(Iterator::last);
/// let readings = last.and_then(LineAnswer::readings).expect("a line that matched");
/// let add = &readings.trees[0];
/// assert_eq!(add.rule, 1);
/// assert_eq!(add.arguments[0].bytes(file.as_bytes()), Some(&b"2*(x - 1)"[..]));
/// # Ok(())
/// # }
/// ```
pub fn match_program(
    table: &[u16],
    program: Program<'_>,
    rows: &mut [u32],
    answers: &mut [u32],
) -> ProgramAnswer {
    told(raw::program(Order::Scan, table, program, rows, answers))
}

/// The same by prefix lookup: each line's number and words are what
/// [`lookup_line`](crate::lookup_line) gives for it.
///
/// ```
/// use tholdrimash::{lookup_program, sheet_of, Program, ProgramAnswer};
///
/// let nop = [1, 1, 3, 0, 0, 0, 3, 110, 111, 112];
/// let program = Program {
///     text: b"nop nop",
///     ends: &[3], // one line; the rest of the text belongs to none
///     sheets: &sheet_of(b"nop").expect("a good line"),
///     budgets: &[100],
///     bases: &[0],
/// };
/// let mut answers = [7; 6];
/// let mut rows = [7; 2];
/// let told = lookup_program(&nop, program, &mut rows, &mut answers);
/// assert_eq!(told, ProgramAnswer::Read { words: 5 });
/// assert_eq!((rows, answers), ([0, 0], [1, 3, 0, 0, 0, 7]));
///
/// let past = Program { ends: &[8], ..program };
/// let told = lookup_program(&nop, past, &mut rows, &mut answers);
/// assert_eq!(told, ProgramAnswer::BadProgram);
/// ```
pub fn lookup_program(
    table: &[u16],
    program: Program<'_>,
    rows: &mut [u32],
    answers: &mut [u32],
) -> ProgramAnswer {
    told(raw::program(Order::Lookup, table, program, rows, answers))
}

fn told(answer: raw::Answer) -> ProgramAnswer {
    match answer.number {
        0 => ProgramAnswer::Read {
            words: answer.words as usize,
        },
        2 => ProgramAnswer::BadTable,
        17 => ProgramAnswer::BadProgram,
        number => unreachable!("a program has no number {number}: another libtholdrimash.a?"),
    }
}
