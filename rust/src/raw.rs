//! The C interface as `include/tholdrimash.h` declares it, behind functions that take slices. All
//! unsafe code of the crate is here, and the only declarations in Rust: the programs of `oracle/`
//! and `bench/` have this file as a module of theirs.
//!
//! The C functions take any values in any memory that their pointers and lengths describe, and keep
//! no pointer. What they write must overlap nothing else that is lent. A length of 0 asks for a
//! pointer that is aligned and not null, as an empty slice's is.

/// `tholdrimash_answer`.
#[repr(C)]
pub struct Answer {
    pub number: u32,
    pub visits: u32,
    pub words: u32,
    pub place: u32,
}

/// `tholdrimash_selection`.
#[repr(C)]
pub struct Selection {
    pub number: u32,
    pub count: u32,
}

/// The lines of a program, lent together: what a program call reads beside the table.
#[derive(Clone, Copy, Debug, Default, PartialEq, Eq, Hash)]
pub struct Program<'a> {
    /// The lines' bytes, one line after another, with nothing between them. What stands after the
    /// last end belongs to no line.
    pub text: &'a [u8],
    /// Where each line ends in the text, for up to 256 lines. A line begins where the one before it
    /// ends, the first one at 0; equal ends are an empty line.
    pub ends: &'a [u32],
    /// The lines' sheets, one after another: 2(n+1)^2 bytes for a line of n up to 120, and none for
    /// a longer one.
    pub sheets: &'a [u8],
    /// A budget for each line.
    pub budgets: &'a [u32],
    /// A base for each line: where it begins in its file, which mostly is another place than in the
    /// text, since nothing stands between the lines there.
    pub bases: &'a [u32],
}

/// Which rules a call tries: all top rules, or those that the line's prefixes lead to.
pub enum Order {
    Scan,
    Lookup,
}

// Where the archive is, the build says: build.rs here, `-L` for the programs.
#[link(name = "tholdrimash", kind = "static")]
extern "C" {
    fn tholdrimash_match(
        table: *const u16,
        table_len: usize,
        line: *const u8,
        line_len: usize,
        sheet: *const u8,
        sheet_len: usize,
        budget: u32,
        base: u32,
        answer: *mut u32,
        answer_len: usize,
    ) -> Answer;

    fn tholdrimash_lookup(
        table: *const u16,
        table_len: usize,
        line: *const u8,
        line_len: usize,
        sheet: *const u8,
        sheet_len: usize,
        budget: u32,
        base: u32,
        answer: *mut u32,
        answer_len: usize,
    ) -> Answer;

    fn tholdrimash_match_program(
        table: *const u16,
        table_len: usize,
        text: *const u8,
        text_len: usize,
        ends: *const u32,
        ends_len: usize,
        sheets: *const u8,
        sheets_len: usize,
        budgets: *const u32,
        budgets_len: usize,
        bases: *const u32,
        bases_len: usize,
        rows: *mut u32,
        rows_len: usize,
        answers: *mut u32,
        answers_len: usize,
    ) -> Answer;

    fn tholdrimash_lookup_program(
        table: *const u16,
        table_len: usize,
        text: *const u8,
        text_len: usize,
        ends: *const u32,
        ends_len: usize,
        sheets: *const u8,
        sheets_len: usize,
        budgets: *const u32,
        budgets_len: usize,
        bases: *const u32,
        bases_len: usize,
        rows: *mut u32,
        rows_len: usize,
        answers: *mut u32,
        answers_len: usize,
    ) -> Answer;

    fn tholdrimash_fill_sheet(
        line: *const u8,
        line_len: usize,
        sheet: *mut u8,
        sheet_len: usize,
    ) -> Answer;

    fn tholdrimash_select(
        outcomes: *mut u32,
        outcomes_len: usize,
        last_pass: u32,
        chosen: *mut u16,
        chosen_len: usize,
    ) -> Selection;

    fn tholdrimash_read_table(
        text: *const u8,
        text_len: usize,
        table: *mut u16,
        table_len: usize,
    ) -> Answer;

    fn tholdrimash_write_table(
        table: *const u16,
        table_len: usize,
        text: *mut u8,
        text_len: usize,
    ) -> Answer;
}

pub fn call(
    order: Order,
    table: &[u16],
    line: &[u8],
    sheet: &[u8],
    budget: u32,
    base: u32,
    answer: &mut [u32],
) -> Answer {
    let function = match order {
        Order::Scan => tholdrimash_match,
        Order::Lookup => tholdrimash_lookup,
    };
    // SAFETY: each pointer and length is a slice's own. Only `answer` is written, and it overlaps
    // nothing, since it is borrowed to be changed.
    unsafe {
        function(
            table.as_ptr(),
            table.len(),
            line.as_ptr(),
            line.len(),
            sheet.as_ptr(),
            sheet.len(),
            budget,
            base,
            answer.as_mut_ptr(),
            answer.len(),
        )
    }
}

pub fn program(
    order: Order,
    table: &[u16],
    program: Program<'_>,
    rows: &mut [u32],
    answers: &mut [u32],
) -> Answer {
    let function = match order {
        Order::Scan => tholdrimash_match_program,
        Order::Lookup => tholdrimash_lookup_program,
    };
    let Program {
        text,
        ends,
        sheets,
        budgets,
        bases,
    } = program;
    // SAFETY: each pointer and length is a slice's own. Only `rows` and `answers` are written, and
    // they overlap nothing, since they are borrowed to be changed.
    unsafe {
        function(
            table.as_ptr(),
            table.len(),
            text.as_ptr(),
            text.len(),
            ends.as_ptr(),
            ends.len(),
            sheets.as_ptr(),
            sheets.len(),
            budgets.as_ptr(),
            budgets.len(),
            bases.as_ptr(),
            bases.len(),
            rows.as_mut_ptr(),
            rows.len(),
            answers.as_mut_ptr(),
            answers.len(),
        )
    }
}

pub fn fill_sheet(line: &[u8], sheet: &mut [u8]) -> Answer {
    // SAFETY: each pointer and length is a slice's own. Only `sheet` is written, and it overlaps
    // nothing, since it is borrowed to be changed.
    unsafe { tholdrimash_fill_sheet(line.as_ptr(), line.len(), sheet.as_mut_ptr(), sheet.len()) }
}

/// `last_pass` is a `bool`, or a word as C gives it, where any but 0 is the last pass.
pub fn select(outcomes: &mut [u32], last_pass: impl Into<u32>, chosen: &mut [u16]) -> Selection {
    let last_pass = last_pass.into();
    // SAFETY: each pointer and length is a slice's own. Both are borrowed to be changed, so they
    // don't overlap.
    unsafe {
        tholdrimash_select(
            outcomes.as_mut_ptr(),
            outcomes.len(),
            last_pass,
            chosen.as_mut_ptr(),
            chosen.len(),
        )
    }
}

pub fn read_table(text: &[u8], table: &mut [u16]) -> Answer {
    // SAFETY: each pointer and length is a slice's own. Only `table` is written, and it overlaps
    // nothing, since it is borrowed to be changed.
    unsafe { tholdrimash_read_table(text.as_ptr(), text.len(), table.as_mut_ptr(), table.len()) }
}

pub fn write_table(table: &[u16], text: &mut [u8]) -> Answer {
    // SAFETY: each pointer and length is a slice's own. Only `text` is written, and it overlaps
    // nothing, since it is borrowed to be changed.
    unsafe { tholdrimash_write_table(table.as_ptr(), table.len(), text.as_mut_ptr(), text.len()) }
}
