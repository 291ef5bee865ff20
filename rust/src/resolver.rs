//! Size selection: which outcomes have the least known size.

use crate::raw;
use std::error::Error;
use std::fmt;

/// Whether guessing is still allowed.
#[derive(Clone, Copy, Debug, PartialEq, Eq, Hash)]
pub enum Pass {
    /// All outcomes of least size are chosen.
    Guessing,
    /// Two or more of least size are a tie, and refused.
    Last,
}

/// What selection returns: number 0, or the refusal.
///
/// [`written`](Selection::written) parts the two, so that a refusal is an error for `?`. An outcome
/// is resolved if it is of kind 2 or 3, and known if it is of kind 3: see [`select`].
/// docs/MANUAL.md, chapter 8, says what to do about each refusal.
#[must_use]
#[derive(Clone, Copy, Debug, PartialEq, Eq, Hash)]
pub enum Selection {
    /// 0: the indices stand at the buffer's start, ascending, and the rest of it is unchanged.
    Chosen {
        /// Indices written.
        count: usize,
    },
    /// 10: more than 4,096 words, or one that is no outcome.
    BadList,
    /// 11: no outcome is resolved: each is unresolved or a failed constraint, or there is none.
    NoneResolved,
    /// 12: some are resolved, but none is known, so there is no size to choose by.
    NoneKnown,
    /// 13: two or more have the least size, and this is the last pass.
    Tied {
        /// Outcomes of least size.
        count: usize,
    },
    /// 14: the choice is longer than its buffer.
    NoRoom {
        /// Outcomes chosen.
        count: usize,
    },
}

impl Selection {
    /// Its number, 0 or 10 to 14, as in `include/tholdrimash.h`.
    pub fn number(self) -> u32 {
        match self {
            Selection::Chosen { .. } => 0,
            Selection::BadList => 10,
            Selection::NoneResolved => 11,
            Selection::NoneKnown => 12,
            Selection::Tied { .. } => 13,
            Selection::NoRoom { .. } => 14,
        }
    }

    /// How many indices were written, or the refusal as an error.
    pub fn written(self) -> Result<usize, Selection> {
        match self {
            Selection::Chosen { count } => Ok(count),
            refusal => Err(refusal),
        }
    }
}

impl fmt::Display for Selection {
    fn fmt(&self, f: &mut fmt::Formatter<'_>) -> fmt::Result {
        match self {
            Selection::Chosen { count } => write!(f, "outcomes chosen: {count}"),
            Selection::BadList => write!(f, "the outcome list is bad"),
            Selection::NoneResolved => write!(f, "no outcome is resolved"),
            Selection::NoneKnown => write!(f, "no outcome has a known size"),
            Selection::Tied { count } => write!(f, "{count} outcomes tie on the last pass"),
            Selection::NoRoom { count } => {
                write!(f, "the choice needs a buffer of {count} indices")
            }
        }
    }
}

impl Error for Selection {}

/// Chooses the outcomes of least known size, by index.
///
/// - `outcomes`: up to 4,096 words, each guess + 2 * kind + 8 * size. Kinds: 0 unresolved (the word
///   is 0), 1 failed constraint, 2 resolved but unknown, 3 sized. Kinds 2 and 3 are resolved; kind
///   3 is known. The size is 0 to 65,535, and 0 unless sized. If any outcome is a guess (an
///   unresolved one is), a choice and a tie give every word of kind 1 to 3 its guess bit.
/// - `chosen`: where the indices go.
///
/// A tie on the last pass is refused. It still marks guesses:
///
/// ```
/// use tholdrimash::{select, Pass, Selection};
///
/// let sized = |size: u32| 2 * 3 + 8 * size;
/// let guess = 1;
/// let mut outcomes = [sized(16) + guess, sized(8), sized(8)];
/// let mut chosen = [9; 3];
///
/// let told = select(&mut outcomes, Pass::Last, &mut chosen);
/// assert_eq!(told, Selection::Tied { count: 2 });
/// assert_eq!(outcomes, [sized(16) + guess, sized(8) + guess, sized(8) + guess]);
/// assert_eq!(chosen, [9, 9, 9]);
///
/// // While guessing is allowed both are chosen.
/// let told = select(&mut outcomes, Pass::Guessing, &mut chosen);
/// assert_eq!(told.written(), Ok(2));
/// assert_eq!(chosen, [1, 2, 9]);
///
/// // A failed constraint is not resolved; what is resolved but unknown has no size to choose by.
/// let (failed, unknown) = (2 * 1, 2 * 2);
/// let told = select(&mut [failed], Pass::Guessing, &mut chosen);
/// assert_eq!(told, Selection::NoneResolved);
/// let told = select(&mut [failed, unknown], Pass::Guessing, &mut chosen);
/// assert_eq!(told, Selection::NoneKnown);
/// ```
pub fn select(outcomes: &mut [u32], pass: Pass, chosen: &mut [u16]) -> Selection {
    told(raw::select(outcomes, pass == Pass::Last, chosen))
}

fn told(selection: raw::Selection) -> Selection {
    let count = selection.count as usize;
    match selection.number {
        0 => Selection::Chosen { count },
        10 => Selection::BadList,
        11 => Selection::NoneResolved,
        12 => Selection::NoneKnown,
        13 => Selection::Tied { count },
        14 => Selection::NoRoom { count },
        number => unreachable!("selection has no number {number}: another libtholdrimash.a?"),
    }
}
