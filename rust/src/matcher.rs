//! Matching: the full scan, prefix lookup, and what they answer.

use crate::raw::{self, Order};
use std::error::Error;
use std::fmt;

/// The greatest base: the end of a line of 120 bytes that begins there is still a 32-bit number.
pub const GREATEST_BASE: u32 = 4_294_967_175;

/// What matching returns: number 0, or the refusal.
///
/// [`written`](Answer::written) parts the two, so that a refusal is an error for `?`.
///
/// A visit is an arrival at a place in a rule's pattern: at each part that the walk comes to, and
/// at the pattern's end. A record is taken for each argument that the walk goes on with and for
/// each match that it completes, and none is given back before the call ends. Depth is 0 for a top
/// rule, and one more for each rule that it stands in. docs/MANUAL.md, chapter 8, says what to do
/// about each refusal.
#[must_use]
#[derive(Clone, Copy, Debug, PartialEq, Eq, Hash)]
pub enum Answer {
    /// 0: the readings stand at the buffer's start, and the rest of it is unchanged.
    Matched {
        /// Visits made.
        visits: u32,
        /// Words written, for [`Readings::read`](crate::Readings::read).
        words: usize,
    },
    /// 1: the line has no reading. If it should have one, and the sheet is the caller's own: is that
    /// filled where whitespace stands before an expression? See [`match_line`].
    NoMatch {
        /// Visits made.
        visits: u32,
    },
    /// 2: the words are no table.
    BadTable,
    /// 3: the line is too long, has a byte that no line has, or ends in whitespace.
    BadLine {
        /// 120 if it is too long, else its first bad byte, else its last byte: counted in the line,
        /// without the base.
        place: usize,
    },
    /// 4: the sheet's length is not that of a sheet for this line, or an entry is wrong.
    BadSheet,
    /// 5: the budget is not from 1 to 1,000,000.
    BadBudget,
    /// 6: the next visit would exceed the budget. More may do, up to 1,000,000.
    Spent {
        /// Visits made, which are the budget.
        visits: u32,
    },
    /// 7: a nested step would enter depth 17. Mostly this is left recursion: a ruleset that comes
    /// to itself again with no byte consumed in between.
    TooDeep {
        /// Visits made so far.
        visits: u32,
    },
    /// 8: the walk has filled its pool of 4,096 records, and one more is due. A nested parameter
    /// with an exact part after it is tried twice, so eleven nested brackets are enough.
    PoolFull {
        /// Visits made so far.
        visits: u32,
    },
    /// 9: the answer is longer than the buffer. Call again with as many words as it says.
    TooLong {
        /// Visits made.
        visits: u32,
        /// Words that the answer needs.
        words: usize,
    },
    /// 19: the base is above [`GREATEST_BASE`].
    BadBase,
}

impl Answer {
    /// Its number, 0 to 9 or 19, as in `include/tholdrimash.h`.
    pub fn number(self) -> u32 {
        match self {
            Answer::Matched { .. } => 0,
            Answer::NoMatch { .. } => 1,
            Answer::BadTable => 2,
            Answer::BadLine { .. } => 3,
            Answer::BadSheet => 4,
            Answer::BadBudget => 5,
            Answer::Spent { .. } => 6,
            Answer::TooDeep { .. } => 7,
            Answer::PoolFull { .. } => 8,
            Answer::TooLong { .. } => 9,
            Answer::BadBase => 19,
        }
    }

    /// The visits made: 0 where the checks refused, since no walk began.
    pub fn visits(self) -> u32 {
        match self {
            Answer::Matched { visits, .. }
            | Answer::NoMatch { visits }
            | Answer::Spent { visits }
            | Answer::TooDeep { visits }
            | Answer::PoolFull { visits }
            | Answer::TooLong { visits, .. } => visits,
            Answer::BadTable
            | Answer::BadLine { .. }
            | Answer::BadSheet
            | Answer::BadBudget
            | Answer::BadBase => 0,
        }
    }

    /// How many words were written, or the refusal as an error.
    pub fn written(self) -> Result<usize, Answer> {
        match self {
            Answer::Matched { words, .. } => Ok(words),
            refusal => Err(refusal),
        }
    }
}

impl fmt::Display for Answer {
    fn fmt(&self, f: &mut fmt::Formatter<'_>) -> fmt::Result {
        match self {
            Answer::Matched { visits, words } => {
                write!(f, "the line matches: {words} words, {visits} visits")
            }
            Answer::NoMatch { visits } => write!(f, "no rule matches the line ({visits} visits)"),
            Answer::BadTable => write!(f, "the rule table is bad"),
            Answer::BadLine { place: 120 } => write!(f, "the line is longer than 120 bytes"),
            Answer::BadLine { place } => write!(f, "the line is bad at byte {place}"),
            Answer::BadSheet => write!(f, "the extent sheet is bad"),
            Answer::BadBudget => write!(f, "the budget is not from 1 to 1,000,000 visits"),
            Answer::Spent { visits } => write!(f, "the budget of {visits} visits is spent"),
            Answer::TooDeep { visits } => {
                write!(f, "rulesets nest deeper than 16 ({visits} visits)")
            }
            Answer::PoolFull { visits } => {
                write!(f, "more than 4,096 records are due ({visits} visits)")
            }
            Answer::TooLong { words, .. } => {
                write!(f, "the answer needs a buffer of {words} words")
            }
            Answer::BadBase => write!(f, "the base is above 4,294,967,175"),
        }
    }
}

impl Error for Answer {}

/// Finds the readings of a line with the greatest exact count: the full scan.
///
/// - `table`: S (1 to 32), R (0 to 512), P (0 to 8,192); S flags (0 top ruleset, 1 nested only);
///   R records of ruleset, first part, part count, in nondecreasing ruleset order; P parts: 33 to
///   126 except 59 (that byte, case ignored), 256 (whitespace), 257 (expression), 512 + r (a rule
///   of ruleset r). The last two are parameters. A rule has at most 64 parts, at most 8 of them
///   parameters; the part counts add up to at most P. A rule's number counts from 0 within its
///   ruleset, not within the table.
/// - `line`: 0 to 120 bytes, each 9, 13 or 32, which are whitespace, or 33 to 126 except 59. The
///   last is no whitespace.
/// - `sheet`: 2(n+1)^2 bytes for a line of n: the free ends, free(c, l) at c(n+1)+l, then in the
///   same order the greedy decimal ends. 255 is none, else the end is from c to l. Entries with c
///   above l may hold anything. [`sheet_of`](crate::sheet_of) makes one from the line itself.
/// - `budget`: how many visits the walk may make, 1 to 1,000,000. It bounds the time of a call, and
///   changes no answer but to 6: take 1,000,000 if unsure.
/// - `base`: where the line begins in its file, or in whatever the caller counts places by, 0 to
///   [`GREATEST_BASE`]. 0 gives offsets within the line. A base moves the start and the end of every
///   argument, and changes no answer but to 19.
/// - `answer`: where the readings go. [`Readings`](crate::Readings) says how they are written.
///
/// The table, the line, the sheet, the budget and the base are checked in this order.
///
/// ```
/// use tholdrimash::{match_line, sheet_of, Answer};
///
/// # fn main() -> Result<(), Box<dyn std::error::Error>> {
/// let mov = [1, 1, 5, 0, 0, 0, 5, 109, 111, 118, 256, 257]; // m, o, v, whitespace, an expression
/// let mut answer = [0; 8];
///
/// let told = match_line(&mov, b"mov 7", &sheet_of(b"mov 7")?, 100, 0, &mut answer);
/// assert_eq!(told, Answer::Matched { visits: 6, words: 8 });
/// assert_eq!(answer, [1, 3, 0, 0, 1, 0, 4, 5]); // the argument is the 7 alone
///
/// // The second line of a file begins at byte 6, and so its 9 stands at byte 10 of the file.
/// let file = b"mov 7\nmov 9\n";
/// let line = &file[6..11];
/// let told = match_line(&mov, line, &sheet_of(line)?, 100, 6, &mut answer);
/// assert_eq!(told, Answer::Matched { visits: 6, words: 8 });
/// assert_eq!(answer, [1, 3, 0, 0, 1, 0, 10, 11]);
/// assert_eq!(&file[10..11], b"9");
/// # Ok(())
/// # }
/// ```
///
/// # A sheet of one's own
///
/// Where expressions are others than [`fill_sheet`](crate::fill_sheet) knows, the caller makes the
/// sheet. free(c, l) is where the caller's expression parser ends if it begins at c and the line
/// stops at l. greedy(c, l) is where the longest run of decimal digits from c ends, over whitespace
/// before it, if there is a digit.
///
/// The start c is the cursor, and it often stands on the whitespace before an expression: a
/// whitespace part consumes nothing, and an exact part leaves the cursor right behind its byte. A
/// sheet that knows only the first bytes of expressions passes every check, and good lines get no
/// match. So parse from every c, over whitespace before the expression. With the same table:
///
/// ```
/// # use tholdrimash::{match_line, Answer};
/// # let mov = [1, 1, 5, 0, 0, 0, 5, 109, 111, 118, 256, 257];
/// # let mut answer = [0; 8];
/// let mut sheet = [255; 2 * 6 * 6];
/// sheet[4 * 6 + 5] = 5; // free(4, 5) = 5: from the 7 on. It is not asked for.
/// let told = match_line(&mov, b"mov 7", &sheet, 100, 0, &mut answer);
/// assert_eq!(told, Answer::NoMatch { visits: 5 });
///
/// sheet[3 * 6 + 5] = 5; // free(3, 5) = 5: from the space on.
/// let told = match_line(&mov, b"mov 7", &sheet, 100, 0, &mut answer);
/// assert_eq!(told, Answer::Matched { visits: 6, words: 8 });
/// ```
///
/// # Refusals
///
/// ```
/// use tholdrimash::{match_line, sheet_of, Answer, GREATEST_BASE};
///
/// let nop = [1, 1, 3, 0, 0, 0, 3, 110, 111, 112]; // one rule: n, o, p
/// let sheet = sheet_of(b"nop").expect("a good line");
///
/// // A buffer that is too short stays as it is. The answer says what it needs.
/// let mut short = [7; 2];
/// let told = match_line(&nop, b"nop", &sheet, 100, 0, &mut short);
/// assert_eq!(told, Answer::TooLong { visits: 4, words: 5 });
/// assert_eq!(short, [7, 7]);
///
/// // A budget that is too small names itself.
/// let told = match_line(&nop, b"nop", &sheet, 3, 0, &mut short);
/// assert_eq!(told, Answer::Spent { visits: 3 });
/// assert_eq!(told.number(), 6);
/// assert_eq!(told.to_string(), "the budget of 3 visits is spent");
///
/// assert_eq!(match_line(&[], b"nop", &sheet, 100, 0, &mut short), Answer::BadTable);
///
/// // Take off the line end and the whitespace before it: of `nop\r\n`, both bytes.
/// let told = match_line(&nop, b"nop\r", &sheet, 100, 0, &mut short);
/// assert_eq!(told, Answer::BadLine { place: 3 });
///
/// // A base so great that an end might not be a 32-bit number.
/// let told = match_line(&nop, b"nop", &sheet, 100, GREATEST_BASE + 1, &mut short);
/// assert_eq!(told, Answer::BadBase);
/// ```
pub fn match_line(
    table: &[u16],
    line: &[u8],
    sheet: &[u8],
    budget: u32,
    base: u32,
    answer: &mut [u32],
) -> Answer {
    let order = Order::Scan;
    told(raw::call(order, table, line, sheet, budget, base, answer))
}

/// The same by prefix lookup: it tries only the rules that the line's first bytes lead to.
///
/// Whenever [`match_line`] is not refused by 6, 7 or 8, this has the same number, readings and words
/// with no more visits. The readings' order may differ: by the length of the rule's prefix, then
/// the table's order.
///
/// ```
/// use tholdrimash::{lookup_line, match_line, sheet_of, Answer};
///
/// let nop = [1, 1, 3, 0, 0, 0, 3, 110, 111, 112];
/// let sheet = sheet_of(b"mov").expect("a good line");
///
/// let scan = match_line(&nop, b"mov", &sheet, 100, 0, &mut []);
/// assert_eq!(scan, Answer::NoMatch { visits: 1 });
/// let lookup = lookup_line(&nop, b"mov", &sheet, 100, 0, &mut []);
/// assert_eq!(lookup, Answer::NoMatch { visits: 0 });
/// ```
pub fn lookup_line(
    table: &[u16],
    line: &[u8],
    sheet: &[u8],
    budget: u32,
    base: u32,
    answer: &mut [u32],
) -> Answer {
    let order = Order::Lookup;
    told(raw::call(order, table, line, sheet, budget, base, answer))
}

fn told(answer: raw::Answer) -> Answer {
    let visits = answer.visits;
    let words = answer.words as usize;
    let place = answer.place as usize;
    match answer.number {
        0 => Answer::Matched { visits, words },
        1 => Answer::NoMatch { visits },
        2 => Answer::BadTable,
        3 => Answer::BadLine { place },
        4 => Answer::BadSheet,
        5 => Answer::BadBudget,
        6 => Answer::Spent { visits },
        7 => Answer::TooDeep { visits },
        8 => Answer::PoolFull { visits },
        9 => Answer::TooLong { visits, words },
        19 => Answer::BadBase,
        number => unreachable!("matching has no number {number}: another libtholdrimash.a?"),
    }
}
