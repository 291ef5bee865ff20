//! Rule tables as text: reading a listing, writing one, and what they answer.

use crate::raw;
use std::error::Error;
use std::fmt;

/// What reading returns: number 0, or the refusal.
///
/// [`written`](ReadAnswer::written) parts the two, so that a refusal is an error for `?`.
/// docs/MANUAL.md, chapter 8, says what to do about each refusal.
#[must_use]
#[derive(Clone, Copy, Debug, PartialEq, Eq, Hash)]
pub enum ReadAnswer {
    /// 0: the table stands at the buffer's start, and the rest of it is unchanged.
    Read {
        /// Words written: the table is these, and no more.
        words: usize,
    },
    /// 15: the text is no listing of rulesets and rules within the table's limits.
    BadText {
        /// The first bad line, counted from 0: the first ended one up to which, itself included,
        /// the lines begin no listing. The number of ended lines if there is none, and only the end
        /// is wrong. It is at most 544.
        line: usize,
    },
    /// 16: the table has more words than the buffer. [`MOST_WORDS`] are always enough.
    NoRoom,
}

impl ReadAnswer {
    /// Its number, 0, 15 or 16, as in `include/tholdrimash.h`.
    pub fn number(self) -> u32 {
        match self {
            ReadAnswer::Read { .. } => 0,
            ReadAnswer::BadText { .. } => 15,
            ReadAnswer::NoRoom => 16,
        }
    }

    /// How many words were written, or the refusal as an error.
    pub fn written(self) -> Result<usize, ReadAnswer> {
        match self {
            ReadAnswer::Read { words } => Ok(words),
            refusal => Err(refusal),
        }
    }
}

impl fmt::Display for ReadAnswer {
    fn fmt(&self, f: &mut fmt::Formatter<'_>) -> fmt::Result {
        match self {
            ReadAnswer::Read { words } => write!(f, "the table is read: {words} words"),
            ReadAnswer::BadText { line } => {
                write!(f, "the table's text is bad at line {line}, counted from 0")
            }
            ReadAnswer::NoRoom => write!(f, "the table has more words than its buffer"),
        }
    }
}

impl Error for ReadAnswer {}

/// What writing returns: number 0, or the refusal.
///
/// [`written`](WriteAnswer::written) parts the two, so that a refusal is an error for `?`.
/// docs/MANUAL.md, chapter 8, says what to do about each refusal.
#[must_use]
#[derive(Clone, Copy, Debug, PartialEq, Eq, Hash)]
pub enum WriteAnswer {
    /// 0: the listing stands at the buffer's start, and the rest of it is unchanged.
    Written {
        /// Bytes written.
        bytes: usize,
    },
    /// 2: the words are no table.
    BadTable,
    /// 16: the listing has more bytes than the buffer. [`MOST_BYTES`] are always enough.
    NoRoom,
}

impl WriteAnswer {
    /// Its number, 0, 2 or 16, as in `include/tholdrimash.h`.
    pub fn number(self) -> u32 {
        match self {
            WriteAnswer::Written { .. } => 0,
            WriteAnswer::BadTable => 2,
            WriteAnswer::NoRoom => 16,
        }
    }

    /// How many bytes were written, or the refusal as an error.
    pub fn written(self) -> Result<usize, WriteAnswer> {
        match self {
            WriteAnswer::Written { bytes } => Ok(bytes),
            refusal => Err(refusal),
        }
    }
}

impl fmt::Display for WriteAnswer {
    fn fmt(&self, f: &mut fmt::Formatter<'_>) -> fmt::Result {
        match self {
            WriteAnswer::Written { bytes } => write!(f, "the table is written: {bytes} bytes"),
            WriteAnswer::BadTable => write!(f, "the rule table is bad"),
            WriteAnswer::NoRoom => write!(f, "the listing has more bytes than its buffer"),
        }
    }
}

impl Error for WriteAnswer {}

/// A table has at most so many words: 3 + 32 + 3 * 512 + 8,192.
pub const MOST_WORDS: usize = 9_763;

/// A listing has at most so many bytes, and one has that many.
pub const MOST_BYTES: usize = 41_440;

/// Reads a table from its listing.
///
/// A listing is a table's rulesets and rules as text, one a line. A tab parts two fields, and byte
/// 10 ends each line, the last one too. First come all rulesets: `ruleset`, then `top` or `nested`.
/// Then come all rules in the table's order: `rule`, its ruleset's number, then a field for each
/// part. An exact part's field is the character itself, one byte, 33 to 126 except 59; the others
/// are `ws`, `expr`, and `sub` with the ruleset's number directly after it. Numbers are decimal
/// without leading zeros. Words are compared byte for byte, and nothing else may stand in a
/// listing. The limits are those of [`match_line`](crate::match_line)'s table.
///
/// The table is packed: the parts stand in the order of the rules, and none is spare. A text that
/// is read and then written again has the same bytes.
///
/// ```
/// use tholdrimash::{read_table, ReadAnswer};
///
/// let mut table = [7; 12];
/// let told = read_table(b"ruleset\ttop\nrule\t0\tn\to\tp\n", &mut table);
/// assert_eq!(told, ReadAnswer::Read { words: 10 });
/// assert_eq!(table, [1, 1, 3, 0, 0, 0, 3, 110, 111, 112, 7, 7]);
///
/// // The first bad line is counted from 0: `sub1` names a ruleset that isn't there.
/// let told = read_table(b"ruleset\ttop\nrule\t0\tsub1\nrule\n", &mut table);
/// assert_eq!(told, ReadAnswer::BadText { line: 1 });
///
/// // Only the end is wrong, after one ended line.
/// let told = read_table(b"ruleset\ttop\nrule\t0\tn", &mut table);
/// assert_eq!(told, ReadAnswer::BadText { line: 1 });
///
/// assert_eq!(read_table(b"ruleset\ttop\n", &mut table[..3]), ReadAnswer::NoRoom);
/// ```
pub fn read_table(text: &[u8], table: &mut [u16]) -> ReadAnswer {
    let told = raw::read_table(text, table);
    match told.number {
        0 => ReadAnswer::Read {
            words: told.words as usize,
        },
        15 => ReadAnswer::BadText {
            line: told.place as usize,
        },
        16 => ReadAnswer::NoRoom,
        number => unreachable!("reading has no number {number}: another libtholdrimash.a?"),
    }
}

/// Writes a table's listing, as [`read_table`] reads it.
///
/// A listing says nothing of spare parts, nor of where the others stand: a table that is written
/// and then read again has the same rulesets and rules, packed. Both give the same answers, in
/// every field and word.
///
/// ```
/// use tholdrimash::{write_table, WriteAnswer};
///
/// let mut text = [b'.'; 32];
/// let nop = [1, 1, 4, 0, 0, 1, 3, 64, 110, 111, 112]; // no rule uses the 64
/// let told = write_table(&nop, &mut text);
/// assert_eq!(told, WriteAnswer::Written { bytes: 25 });
/// assert_eq!(&text, b"ruleset\ttop\nrule\t0\tn\to\tp\n.......");
///
/// assert_eq!(write_table(&nop, &mut text[..24]), WriteAnswer::NoRoom);
/// assert_eq!(write_table(&[], &mut text), WriteAnswer::BadTable);
/// ```
pub fn write_table(table: &[u16], text: &mut [u8]) -> WriteAnswer {
    let told = raw::write_table(table, text);
    match told.number {
        0 => WriteAnswer::Written {
            bytes: told.words as usize,
        },
        2 => WriteAnswer::BadTable,
        16 => WriteAnswer::NoRoom,
        number => unreachable!("writing has no number {number}: another libtholdrimash.a?"),
    }
}
