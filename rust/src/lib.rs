//! Which readings a line has under a rule table, and which outcomes have the least known size.
//!
//! Safe functions over the matching core of customasm, carried over with a proof of every function.
//! A call takes any slices, ends, and names each refusal. A refusal leaves what was lent unchanged,
//! except that a tie on the last pass still marks guesses. Nothing is kept between calls, so any
//! threads may call at once. A call takes at most some 128 KiB of stack, which was measured with an
//! older kit and is not proved.
//!
//! The core is proved; this crate is only tested. The repository's docs/MANUAL.md has all of it at
//! length: every term, a worked example of each step, and what to do about each number.
//!
//! - [`read_table`] reads a rule table from text, one ruleset or rule a line, and [`write_table`]
//!   writes it.
//! - [`sheet_of`] and [`fill_sheet`] fill a line's sheet from the line itself: where its expressions
//!   end.
//! - [`match_line`] finds the readings with the greatest exact count, [`lookup_line`] the same ones
//!   by prefix.
//! - [`Readings::read`] reads the words that they write as trees.
//! - [`match_program`] and [`lookup_program`] do the same for up to 256 lines in one call, which
//!   judges the table once; [`LineAnswers`] goes through what each line is.
//! - [`select`] chooses the outcomes of least known size, and refuses a tie on the last pass.
//!
//! Two rules that overlap, `mov` with an expression and `mov` with a rule of ruleset 1, which is
//! `p` or `q`. As text, with spaces here for the tabs between fields, the table is
//!
//! ```text
//! ruleset top
//! ruleset nested
//! rule 0 m o v ws expr
//! rule 0 m o v ws sub1
//! rule 1 p
//! rule 1 q
//! ```
//!
//! Both rules read the line `mov p`. The second has four exact bytes, `m`, `o`, `v` and the `p`
//! within, the first only three:
//!
//! ```
//! use tholdrimash::{match_line, read_table, sheet_of, Kind, Readings};
//!
//! # fn main() -> Result<(), Box<dyn std::error::Error>> {
//! let text = b"ruleset\ttop\n\
//!     ruleset\tnested\n\
//!     rule\t0\tm\to\tv\tws\texpr\n\
//!     rule\t0\tm\to\tv\tws\tsub1\n\
//!     rule\t1\tp\n\
//!     rule\t1\tq\n";
//! let mut buffer = [0; 64];
//! let words = read_table(text, &mut buffer).written()?;
//! let table = &buffer[..words];
//! assert_eq!(table[..5], [2, 4, 12, 0, 1]); // rulesets, rules, parts; the first is a top one
//!
//! let line = b"mov p";
//! let sheet = sheet_of(line)?; // where expressions end in it
//! let mut answer = [0; 64];
//!
//! let words = match_line(table, line, &sheet, 1_000, 0, &mut answer).written()?;
//! assert_eq!(answer[..words], [1, 4, 0, 1, 1, 1, 4, 5, 1, 0, 0]);
//!
//! let readings = Readings::read(&answer[..words]).expect("a whole answer");
//! assert_eq!(readings.count, 4);
//! assert_eq!(readings.trees.len(), 1, "the line has one reading");
//!
//! let tree = &readings.trees[0];
//! assert_eq!((tree.ruleset, tree.rule), (0, 1));
//! let argument = &tree.arguments[0];
//! assert_eq!(argument.span, 4..5);
//! assert_eq!(argument.bytes(line), Some(&b"p"[..]));
//! assert!(matches!(&argument.kind, Kind::Nested(inner) if inner.ruleset == 1));
//! # Ok(())
//! # }
//! ```
//!
//! The 0 before the buffer is the line's base. With the place where the line begins in its file,
//! spans are places in the file. By the same table:
//!
//! ```
//! # use tholdrimash::{match_line, read_table, sheet_of, Readings};
//! # fn main() -> Result<(), Box<dyn std::error::Error>> {
//! # let text = b"ruleset\ttop\nruleset\tnested\nrule\t0\tm\to\tv\tws\texpr\n\
//! #     rule\t0\tm\to\tv\tws\tsub1\nrule\t1\tp\nrule\t1\tq\n";
//! # let mut buffer = [0; 64];
//! # let words = read_table(text, &mut buffer).written()?;
//! # let table = &buffer[..words];
//! # let mut answer = [0; 64];
//! let file = "mov p\r\nmov 7\r\n";
//! let mut base = 0;
//! let mut arguments = vec![];
//! for whole in file.split_inclusive('\n') {
//!     let line = whole.trim_end().as_bytes(); // no line has its line end
//!     let words = match_line(table, line, &sheet_of(line)?, 1_000, base, &mut answer).written()?;
//!     let readings = Readings::read(&answer[..words]).expect("a whole answer");
//!     arguments.extend(readings.trees[0].arguments.clone());
//!     base += whole.len() as u32;
//! }
//! assert_eq!((&arguments[0].span, &arguments[1].span), (&(4..5), &(11..12)));
//! assert_eq!(arguments[1].bytes(file.as_bytes()), Some(&b"7"[..]));
//! # Ok(())
//! # }
//! ```
//!
//! The sheet says where expressions end, from each start and under each limit. [`fill_sheet`] has
//! the grammar that [`sheet_of`] goes by. Where expressions are others, the caller makes a sheet of
//! them: [`match_line`](match_line#a-sheet-of-ones-own) says how.
//!
//! The crate links libtholdrimash.a, for x86-64 Linux. `tools/build tholdrimash` in the repository
//! writes it, and THOLDRIMASH_LIB names its folder where that is not the repository's
//! target/staticlib.
#![deny(missing_docs, unsafe_code)]

mod expressions;
mod listing;
mod matcher;
mod program;
#[allow(unsafe_code)]
mod raw;
mod readings;
mod resolver;

pub use expressions::{fill_sheet, sheet_of, FillAnswer};
pub use listing::{read_table, write_table, ReadAnswer, WriteAnswer, MOST_BYTES, MOST_WORDS};
pub use matcher::{lookup_line, match_line, Answer, GREATEST_BASE};
pub use program::{
    lookup_program, match_program, sheet_len, LineAnswer, LineAnswers, Program, ProgramAnswer,
    MOST_LINES,
};
pub use readings::{Argument, Kind, Readings, Tree};
pub use resolver::{select, Pass, Selection};
