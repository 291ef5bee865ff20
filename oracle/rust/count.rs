//! Counts what the Rust's own calls into the stubs show of a walk. Built with `--cfg count` only: a benchmark has none of it.
//!
//! `match_with_rule` reads a part of its pattern at each arrival that is not the pattern's end, and asks for the pattern's
//! length once each time it is called: for a rule that begins, which `get_rule` fetched, or for one that goes on after an
//! argument was kept. It clones the match so far at a parameter and at a completed match, and the steps clone it for each
//! argument kept; a derived clone calls the clones of the fields, whose types are stubs: two item numbers for each match,
//! a span for each argument, an expression for each that is one. So what is left of the clones is completed matches.
//!
//! One kind of visit has no call: the end of a top rule that stops short of the line's end.
use std::cell::Cell;

#[derive(Clone, Copy, Default)]
pub struct Tally {
    /// Parts read, and those of them that are parameters.
    pub parts: u64,
    pub parameters: u64,
    /// Calls of `match_with_rule`, and rules fetched.
    pub starts: u64,
    pub rules: u64,
    /// Clones of item numbers, spans and expressions.
    pub items: u64,
    pub spans: u64,
    pub exprs: u64,
}

impl Tally {
    /// Arguments kept.
    pub fn kept(&self) -> u64 {
        self.starts - self.rules
    }

    /// Matches completed.
    pub fn completed(&self) -> u64 {
        let nested = self.spans - self.exprs;
        self.items / 2 - nested - self.parameters - self.kept()
    }
}

thread_local! {
    static TALLY: Cell<Tally> = Cell::new(Tally::default());
}

pub fn reset() {
    TALLY.with(|t| t.set(Tally::default()));
}

pub fn tally() -> Tally {
    TALLY.with(|t| t.get())
}

/// Adds what a stub saw. Without `--cfg count` this is nothing.
#[inline(always)]
pub fn see(_add: impl FnOnce(&mut Tally)) {
    #[cfg(count)]
    TALLY.with(|t| {
        let mut tally = t.get();
        _add(&mut tally);
        t.set(tally);
    });
}
