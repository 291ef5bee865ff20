//! A line's sheet, filled from the line itself: the grammar of its expressions, and what filling
//! answers.

use crate::{raw, sheet_len};
use std::error::Error;
use std::fmt;

/// What filling a sheet returns: number 0, or the refusal.
///
/// [`written`](FillAnswer::written) parts the two, so that a refusal is an error for `?`.
/// docs/MANUAL.md, chapter 8, says what to do about each refusal.
#[must_use]
#[derive(Clone, Copy, Debug, PartialEq, Eq, Hash)]
pub enum FillAnswer {
    /// 0: the sheet is filled, and matching its line does not find it bad.
    Filled {
        /// Bytes written, which are the whole sheet.
        bytes: usize,
    },
    /// 3: the line is too long, has a byte that no line has, or ends in whitespace.
    BadLine {
        /// 120 if it is too long, else its first bad byte, else its last byte.
        place: usize,
    },
    /// 18: the sheet's length is not [`sheet_len`] of the line's. [`sheet_of`] never gives it.
    BadRoom,
}

impl FillAnswer {
    /// Its number, 0, 3 or 18, as in `include/tholdrimash.h`.
    pub fn number(self) -> u32 {
        match self {
            FillAnswer::Filled { .. } => 0,
            FillAnswer::BadLine { .. } => 3,
            FillAnswer::BadRoom => 18,
        }
    }

    /// How many bytes were written, or the refusal as an error.
    pub fn written(self) -> Result<usize, FillAnswer> {
        match self {
            FillAnswer::Filled { bytes } => Ok(bytes),
            refusal => Err(refusal),
        }
    }
}

impl fmt::Display for FillAnswer {
    fn fmt(&self, f: &mut fmt::Formatter<'_>) -> fmt::Result {
        match self {
            FillAnswer::Filled { bytes } => write!(f, "the sheet is filled: {bytes} bytes"),
            FillAnswer::BadLine { place: 120 } => write!(f, "the line is longer than 120 bytes"),
            FillAnswer::BadLine { place } => write!(f, "the line is bad at byte {place}"),
            FillAnswer::BadRoom => write!(f, "the sheet's length is not that of the line's sheet"),
        }
    }
}

impl Error for FillAnswer {}

/// The sheet of a line, filled from the line itself as [`fill_sheet`] does it, or the refusal of a
/// bad line.
///
/// ```
/// use tholdrimash::{match_line, sheet_of, Answer, FillAnswer};
///
/// # fn main() -> Result<(), Box<dyn std::error::Error>> {
/// let mov = [1, 1, 5, 0, 0, 0, 5, 109, 111, 118, 256, 257]; // m, o, v, whitespace, an expression
/// let line = b"mov (x + 2)*-y";
/// let mut answer = [0; 8];
/// let told = match_line(&mov, line, &sheet_of(line)?, 100, 0, &mut answer);
/// assert_eq!(told, Answer::Matched { visits: 6, words: 8 });
/// assert_eq!(answer, [1, 3, 0, 0, 1, 0, 4, 14]); // the argument is from byte 4 to the end
///
/// assert_eq!(sheet_of(b"mov 7;"), Err(FillAnswer::BadLine { place: 5 }));
/// # Ok(())
/// # }
/// ```
pub fn sheet_of(line: &[u8]) -> Result<Vec<u8>, FillAnswer> {
    let mut sheet = vec![0; sheet_len(line.len())];
    fill_sheet(line, &mut sheet).written()?;
    Ok(sheet)
}

/// Fills a line's sheet from the line itself: where its expressions end.
///
/// - `line`: as for [`match_line`](crate::match_line).
/// - `sheet`: exactly [`sheet_len`] bytes for the line's length. Each is written, whatever it held.
///
/// The line is checked before the sheet's length. A refusal leaves the sheet unchanged.
///
/// # The grammar
///
/// A term is decimal digits, a name (a letter, then letters or digits), a minus before a term, or an
/// expression in parentheses. An expression is terms joined by one of `+ - * / & |`. Whitespace may
/// stand before any token: a number, a name, a sign, a parenthesis. How deep it nests has no bound
/// but the line's length.
///
/// free(c, l) is the greatest end, up to l, of an expression that begins at c, over whitespace
/// before it. It ends on its last token: whitespace after that, or an operator that no term follows,
/// is outside. No byte from l on is looked at, so that the limit may cut a number or a name.
/// greedy(c, l) is the end of the longest run of decimal digits, of one at least, within the limit
/// and over whitespace before it. 255 stands for none, and where c is above l.
///
/// Where expressions are others, the caller makes the sheet:
/// [`match_line`](crate::match_line#a-sheet-of-ones-own) says how.
///
/// ```
/// use tholdrimash::{fill_sheet, sheet_len, FillAnswer};
///
/// let line = b"ab +1";
/// let mut sheet = [0; sheet_len(5)];
/// let told = fill_sheet(line, &mut sheet);
/// assert_eq!(told, FillAnswer::Filled { bytes: 2 * 6 * 6 });
///
/// let (free, greedy) = sheet.split_at(6 * 6);
/// assert_eq!(free[5], 5); // from 0 under the limit 5: all of it
/// assert_eq!(free[4], 2); // under the limit 4 no term follows the plus, so `ab`
/// assert_eq!(free[1], 1); // under the limit 1 the name is cut
/// assert_eq!(free[2 * 6 + 5], 255); // no expression begins with a plus
/// assert_eq!(greedy[4 * 6 + 5], 5);
///
/// assert_eq!(fill_sheet(line, &mut sheet[1..]), FillAnswer::BadRoom);
/// ```
pub fn fill_sheet(line: &[u8], sheet: &mut [u8]) -> FillAnswer {
    let told = raw::fill_sheet(line, sheet);
    match told.number {
        0 => FillAnswer::Filled {
            bytes: told.words as usize,
        },
        3 => FillAnswer::BadLine {
            place: told.place as usize,
        },
        18 => FillAnswer::BadRoom,
        number => unreachable!("filling has no number {number}: another libtholdrimash.a?"),
    }
}
