//! What the C functions of calls.rs hand over besides words. The program that compares, which is built apart from this
//! library, has this file as a module of its own.

/// Returned if the Rust panics.
pub const PANICKED: u32 = u32::MAX;

/// What the Rust's calls show of a walk: parts arrived at, arguments kept, matches completed (count.rs).
#[repr(C)]
#[derive(Clone, Copy, Default)]
pub struct Seen {
    pub parts: u64,
    pub kept: u64,
    pub completed: u64,
}

/// What each move of a walker does.
#[repr(C)]
#[derive(Default)]
pub struct Moves {
    pub is_over: u32,
    pub useful: usize,
    /// `maybe_expect_char`: whether it was found, and the cursor and limit then.
    pub found: u32,
    pub cursor: usize,
    pub limit: usize,
    /// The whitespace part's test, as `match_with_rule` makes it.
    pub whitespace: u32,
    /// `find_lookahead_char_index`: whether there is a cut, and where, or 0.
    pub is_cut: u32,
    pub cut: usize,
}
