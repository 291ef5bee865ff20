//! The two sides of the comparison, each behind safe functions: the proved code, by its C interface and by the C functions
//! of the crate `probe`, and the Rust, by liboracle.so. All in this process.
use crate::grammar::Filled;
use crate::model::{Answer, Call, Chosen, ProgramAnswer, ProgramCall};
use crate::raw::{self, Order, Program};
use crate::shown::{self, Seen, PANICKED};

/// What stands at each place of a lent buffer before a call. No answer word is this: no base is made near it.
const UNTOUCHED: u32 = 4_000_000_000;

/// The same of indices.
const UNTOUCHED_INDEX: u16 = 65535;

/// The same of rows.
const UNTOUCHED_ROW: u32 = u32::MAX;

/// The same of sheets: no entry is this.
const UNTOUCHED_ENTRY: u8 = 165;

/// As many words of that on either side of the buffer, which no call may touch.
const AROUND: usize = 8;

/// A walker's cursor and limit.
#[repr(C)]
#[derive(Clone, Copy, Debug, PartialEq)]
pub struct Walker {
    pub cursor: usize,
    pub limit: usize,
}

/// Whether something was found, 1 or 0, and a place.
#[repr(C)]
#[derive(Clone, Copy, Debug, PartialEq)]
pub struct Place {
    pub found: usize,
    pub place: usize,
}

#[link(name = "probe", kind = "static")]
extern "C" {
    fn probe_set_cursor_index(line: *const u8, len: usize, cursor: usize, limit: usize, place: usize) -> Walker;
    fn probe_set_cursor_limit(line: *const u8, len: usize, cursor: usize, limit: usize, end: usize) -> Walker;
    fn probe_is_over(line: *const u8, len: usize, cursor: usize, limit: usize) -> bool;
    fn probe_next_useful_index(line: *const u8, len: usize, cursor: usize, limit: usize) -> usize;
    fn probe_maybe_expect_char(line: *const u8, len: usize, cursor: usize, limit: usize, wanted: u8) -> Place;
    fn probe_maybe_expect_whitespace(line: *const u8, len: usize, cursor: usize, limit: usize) -> Place;
    fn probe_find_lookahead_char_index(line: *const u8, len: usize, cursor: usize, limit: usize, wanted: u8) -> Place;
    fn probe_query_prefixed(
        table: *const u16,
        table_len: usize,
        line: *const u8,
        line_len: usize,
        found: *mut u16,
        found_len: usize,
    ) -> usize;
}

#[link(name = "oracle", kind = "dylib")]
extern "C" {
    fn oracle_match(
        table: *const u16,
        table_len: usize,
        line: *const u8,
        line_len: usize,
        sheet: *const u8,
        sheet_len: usize,
        base: u32,
        lookup: u32,
        out: *mut u64,
        out_len: usize,
        seen: *mut Seen,
    ) -> u32;
    fn oracle_select(
        words: *mut u32,
        words_len: usize,
        last_pass: u32,
        out: *mut u16,
        out_len: usize,
        count: *mut u32,
    ) -> u32;
    fn oracle_moves(
        line: *const u8,
        len: usize,
        base: u32,
        cursor: usize,
        limit: usize,
        wanted: u8,
        moves: *mut shown::Moves,
    );
    fn oracle_query(
        table: *const u16,
        table_len: usize,
        line: *const u8,
        line_len: usize,
        out: *mut u16,
        out_len: usize,
    ) -> u32;
}

/// The most words that an answer of the Rust has here.
const RUST_ROOM: usize = 70_000;

thread_local! {
    /// Kept from call to call: filling so much anew would cost more than the call.
    static RUST_WORDS: std::cell::RefCell<Vec<u64>> = std::cell::RefCell::new(vec![0; RUST_ROOM]);
}

/// Lends a buffer of so many words to a call, which says how many it wrote. What it returned, what it wrote at the buffer's
/// start, and whether the rest of the buffer and the words around it are as they were.
fn lend<W: Copy + PartialEq, T>(
    untouched: W,
    room: usize,
    call: impl FnOnce(&mut [W]) -> (T, usize),
) -> (T, Vec<W>, bool) {
    let mut words = vec![untouched; AROUND + room + AROUND];
    let (told, written) = call(&mut words[AROUND..AROUND + room]);
    let end = AROUND + written.min(room);
    let left_alone = words[..AROUND].iter().chain(&words[end..]).all(|w| *w == untouched);
    (told, words[AROUND..end].to_vec(), left_alone)
}

/// What a call of the proved matcher returned, and whether it left alone what it had to: the buffer after its answer, all of
/// the buffer on a refusal.
pub fn proved_match(call: &Call, lookup: bool) -> (Answer, bool) {
    proved_match_at(call, call.base, lookup)
}

/// The same with another base than the call's own.
pub fn proved_match_at(call: &Call, base: u32, lookup: bool) -> (Answer, bool) {
    let order = if lookup { Order::Lookup } else { Order::Scan };
    let (told, answer, left_alone) = lend(UNTOUCHED, call.room, |buffer| {
        let told = raw::call(order, &call.table, &call.line, &call.sheet, call.budget, base, buffer);
        let written = if told.number == 0 { told.words as usize } else { 0 };
        (told, written)
    });
    let answer = Answer {
        number: told.number,
        visits: told.visits,
        words: told.words,
        place: told.place,
        answer,
    };
    (answer, left_alone)
}

/// What a call of the proved matcher on a program returned, and whether it left alone what it had to: the answers after their
/// last word, and rows and answers on a refusal.
pub fn proved_program(call: &ProgramCall, lookup: bool) -> (ProgramAnswer, bool) {
    let order = if lookup { Order::Lookup } else { Order::Scan };
    let program = Program {
        text: &call.text,
        ends: &call.ends,
        sheets: &call.sheets,
        budgets: &call.budgets,
        bases: &call.bases,
    };
    let ((told, answers, answers_left), rows, rows_left) = lend(UNTOUCHED_ROW, call.rows, |rows| {
        let told = lend(UNTOUCHED, call.room, |answers| {
            let told = raw::program(order, &call.table, program, rows, answers);
            let written = told.words as usize;
            (told, written)
        });
        let written = if told.0.number == 0 { call.rows } else { 0 };
        (told, written)
    });
    let answer = ProgramAnswer {
        number: told.number,
        visits: told.visits,
        words: told.words,
        place: told.place,
        rows,
        answers,
    };
    (answer, answers_left && rows_left)
}

/// What a call that fills a sheet of so many bytes returned, and whether it left alone what it had to: the bytes around the
/// sheet, and the sheet on a refusal.
pub fn proved_fill(line: &[u8], room: usize) -> (Filled, bool) {
    let (told, sheet, left_alone) = lend(UNTOUCHED_ENTRY, room, |sheet| {
        let told = raw::fill_sheet(line, sheet);
        let written = if told.number == 0 { room } else { 0 };
        (told, written)
    });
    let filled = Filled {
        number: told.number,
        visits: told.visits,
        words: told.words,
        place: told.place,
        sheet,
    };
    (filled, left_alone)
}

// Every unsafe call below lends slices by their own pointers and lengths.

/// The Rust's answer words, none for no match, and what its calls showed. Its places are as wide as its own numbers. Nothing
/// if it panicked.
pub fn rust_match(call: &Call, lookup: bool) -> Option<(Vec<u64>, Seen)> {
    let mut seen = Seen::default();
    RUST_WORDS.with(|words| {
        let words = &mut *words.borrow_mut();
        let count = unsafe {
            oracle_match(
                call.table.as_ptr(),
                call.table.len(),
                call.line.as_ptr(),
                call.line.len(),
                call.sheet.as_ptr(),
                call.sheet.len(),
                call.base,
                lookup as u32,
                words.as_mut_ptr(),
                words.len(),
                &mut seen,
            )
        };
        if count == PANICKED {
            return None;
        }
        // A wrong copy may have more words than any answer: then none were written, and it has none of the answer's.
        let count = count as usize;
        let told = if count <= words.len() {
            words[..count].to_vec()
        } else {
            vec![0; count]
        };
        Some((told, seen))
    })
}

/// What a call of the proved selection returned, and whether it left the rest of the buffer alone.
pub fn proved_select(words: &[u32], last: u32, room: usize) -> (Chosen, bool) {
    let mut words = words.to_vec();
    let (told, chosen, left_alone) = lend(UNTOUCHED_INDEX, room, |buffer| {
        let told = raw::select(&mut words, last, buffer);
        let written = if told.number == 0 { told.count as usize } else { 0 };
        (told, written)
    });
    let chosen = Chosen {
        number: told.number,
        count: told.count,
        words,
        chosen,
    };
    (chosen, left_alone)
}

/// The Rust's choice among good outcomes, with two things bridged that it can't say. Nothing if it panicked.
///
/// It leaves no match unresolved before it selects: word 0 is given to it as 3, a failed constraint that is a guess (also not
/// resolved and a guess), and read back as 0. "No choice" on a guessing pass, or for an empty list, has no report: then 12,
/// where that is expected, is taken to be what it means by 11.
pub fn rust_choice(words: &[u32], last: bool, expected: u32) -> Option<Chosen> {
    let given: Vec<u32> = words.iter().map(|w| if *w == 0 { 3 } else { *w }).collect();
    let mut rust = rust_select(&given, last)?;
    for (old, new) in words.iter().zip(&mut rust.words) {
        if *old == 0 && *new == 3 {
            *new = 0;
        }
    }
    let silent = !last || words.is_empty();
    if silent && rust.number == 11 && expected == 12 {
        rust.number = 12;
    }
    Some(rust)
}

/// The Rust's choice among outcomes of kinds 1 to 3. Nothing if it panicked.
fn rust_select(words: &[u32], last: bool) -> Option<Chosen> {
    let mut words = words.to_vec();
    let mut buffer = vec![UNTOUCHED_INDEX; words.len()];
    let mut count = 0;
    let number = unsafe {
        oracle_select(
            words.as_mut_ptr(),
            words.len(),
            last as u32,
            buffer.as_mut_ptr(),
            buffer.len(),
            &mut count,
        )
    };
    buffer.truncate(if number == 0 { count as usize } else { 0 });
    let chosen = Chosen {
        number,
        count,
        words,
        chosen: buffer,
    };
    (number != PANICKED).then_some(chosen)
}

/// What each move of a walker does for one wanted byte.
#[derive(Debug, PartialEq)]
pub struct Moves {
    pub is_over: bool,
    pub useful: usize,
    pub char: Place,
    pub whitespace: bool,
    pub cut: Option<usize>,
}

pub fn proved_moves(line: &[u8], w: Walker, wanted: u8) -> Moves {
    let (at, len) = (line.as_ptr(), line.len());
    unsafe {
        let cut = probe_find_lookahead_char_index(at, len, w.cursor, w.limit, wanted);
        Moves {
            is_over: probe_is_over(at, len, w.cursor, w.limit),
            useful: probe_next_useful_index(at, len, w.cursor, w.limit),
            char: probe_maybe_expect_char(at, len, w.cursor, w.limit, wanted),
            whitespace: probe_maybe_expect_whitespace(at, len, w.cursor, w.limit).found == 1,
            cut: (cut.found == 1).then_some(cut.place),
        }
    }
}

/// The walkers at another place and with another limit.
#[derive(Debug, PartialEq)]
pub struct Walkers {
    /// The cursor that the whitespace part's test hands back: it moves nothing, so only holding changes it.
    pub tested: usize,
    pub at_place: Walker,
    pub with_end: Walker,
}

pub fn proved_walkers(line: &[u8], w: Walker, place: usize, end: usize) -> Walkers {
    let (at, len) = (line.as_ptr(), line.len());
    unsafe {
        Walkers {
            tested: probe_maybe_expect_whitespace(at, len, w.cursor, w.limit).place,
            at_place: probe_set_cursor_index(at, len, w.cursor, w.limit, place),
            with_end: probe_set_cursor_limit(at, len, w.cursor, w.limit, end),
        }
    }
}

/// The same of the Rust, for a line that begins at a base; places are told as places of the line.
pub fn rust_moves(line: &[u8], base: u32, w: Walker, wanted: u8) -> Moves {
    let mut moves = shown::Moves::default();
    unsafe { oracle_moves(line.as_ptr(), line.len(), base, w.cursor, w.limit, wanted, &mut moves) };
    assert_eq!(moves.limit, w.limit);
    Moves {
        is_over: moves.is_over != 0,
        useful: moves.useful,
        char: Place {
            found: moves.found as usize,
            place: moves.cursor,
        },
        whitespace: moves.whitespace != 0,
        cut: (moves.is_cut != 0).then_some(moves.cut),
    }
}

/// The rules that lookup tries, by their places among the table's records.
pub fn proved_query(table: &[u16], line: &[u8], room: usize) -> Vec<u16> {
    let (count, found, left_alone) = lend(UNTOUCHED_INDEX, room, |buffer| {
        let count = unsafe {
            probe_query_prefixed(
                table.as_ptr(),
                table.len(),
                line.as_ptr(),
                line.len(),
                buffer.as_mut_ptr(),
                buffer.len(),
            )
        };
        (count, count)
    });
    assert!(left_alone && count == found.len());
    found
}

/// The same of the Rust: prefix length, ruleset and rule of each.
pub fn rust_query(table: &[u16], line: &[u8]) -> Vec<[u16; 3]> {
    let mut words = vec![0; 3 * 512];
    let count = unsafe {
        oracle_query(
            table.as_ptr(),
            table.len(),
            line.as_ptr(),
            line.len(),
            words.as_mut_ptr(),
            words.len(),
        )
    };
    let rules = words.chunks(3).take(count as usize);
    rules.map(|r| [r[0], r[1], r[2]]).collect()
}
