//! Stands in for customasm's `expr`. The two parsers read the extent sheet of the call under way (document 01): from
//! cursor c under limit l they fail if the entry is 255, or else move the cursor to the entry. An expression is a constant,
//! which evaluates to itself; a size guess is always `None`.
use crate::*;
use std::cell::Cell;

thread_local! {
    /// The sheet that the parsers read: the line's length and the 2(n+1)² entries, free ends first.
    static SHEET: Cell<(usize, &'static [u8])> = const { Cell::new((0, &[])) };
}

/// Puts the sheet aside, also where the Rust panics.
struct Lent;

impl Drop for Lent {
    fn drop(&mut self) {
        SHEET.with(|s| s.set((0, &[])));
    }
}

/// Runs `f` with the sheet that its parsers read. The sheet is lent, not copied, as it is to the proved code.
pub fn with_sheet<T>(line_len: usize, entries: &[u8], f: impl FnOnce() -> T) -> T {
    // SAFETY: the slice is read through SHEET within `f` only, and is put aside before this returns or unwinds.
    let entries: &'static [u8] = unsafe { std::mem::transmute(entries) };
    let _lent = Lent;
    SHEET.with(|s| s.set((line_len, entries)));
    f()
}

/// Reads one half of the sheet (0: free, 1: greedy decimal) at the walker's cursor and limit.
fn parse_by_sheet(walker: &mut syntax::Walker, half: usize) -> Option<Expr> {
    let start = walker.get_cursor_index();
    let limit = walker.get_cursor_limit();

    let end = SHEET.with(|s| {
        let (n, entries) = s.get();
        // Document 01 has no entry whose start lies above its limit: none may be asked for.
        assert!(start <= limit && limit <= n);
        entries[half * (n + 1) * (n + 1) + start * (n + 1) + limit]
    });

    if end == 255 {
        return None;
    }

    // `advance_to_token_end` is how a parser moves a walker to a place.
    let token = syntax::Token {
        kind: syntax::TokenKind::Other,
        span: walker.get_span(start, end as usize),
    };

    walker.advance_to_token_end(&token);
    Some(Expr::constant(Value::make_unknown()))
}

pub fn parse_optional(walker: &mut syntax::Walker) -> Option<Expr> {
    parse_by_sheet(walker, 0)
}

pub fn parse_optional_decimal_usize_greedy(walker: &mut syntax::Walker) -> Option<Expr> {
    parse_by_sheet(walker, 1)
}

#[derive(Debug)]
pub struct Expr {
    value: Value,
}

// By hand, so that it can be seen.
impl Clone for Expr {
    fn clone(&self) -> Expr {
        count::see(|t| t.exprs += 1);
        Expr {
            value: self.value.clone(),
        }
    }
}

impl Expr {
    pub fn constant(value: Value) -> Expr {
        Expr { value }
    }

    pub fn value(&self) -> &Value {
        &self.value
    }

    pub fn size_guess(&self, _info: &StaticallyKnownProvider) -> Option<usize> {
        None
    }

    pub fn span(&self) -> diagn::Span {
        diagn::Span::new(0, 0, 0)
    }

    pub fn returned_value_span(&self) -> diagn::Span {
        self.span()
    }
}

#[derive(Clone, Debug)]
pub struct ValueMetadata {
    guess: bool,
}

impl ValueMetadata {
    pub fn new() -> ValueMetadata {
        ValueMetadata { guess: false }
    }

    pub fn is_guess(&self) -> bool {
        self.guess
    }

    pub fn mark_guess(&mut self) {
        self.guess = true;
    }
}

#[derive(Clone, Debug)]
pub enum Value {
    Unknown(ValueMetadata),
    FailedConstraint(ValueMetadata, diagn::Message),
    Integer(ValueMetadata, util::BigInt),
}

impl Value {
    pub fn make_unknown() -> Value {
        Value::Unknown(ValueMetadata::new())
    }

    fn metadata(&self) -> &ValueMetadata {
        match self {
            Value::Unknown(m) | Value::FailedConstraint(m, _) | Value::Integer(m, _) => m,
        }
    }

    fn metadata_mut(&mut self) -> &mut ValueMetadata {
        match self {
            Value::Unknown(m) | Value::FailedConstraint(m, _) | Value::Integer(m, _) => m,
        }
    }

    pub fn is_guess(&self) -> bool {
        self.metadata().is_guess()
    }

    pub fn mark_guess(&mut self) {
        self.metadata_mut().mark_guess();
    }

    pub fn as_guess(&self) -> Value {
        let mut value = self.clone();
        value.mark_guess();
        value
    }

    /// Whether an evaluation stops at this value: it is no known value.
    pub fn should_propagate(&self) -> bool {
        !matches!(self, Value::Integer(_, _))
    }

    pub fn is_stable(&self, _prev: &Value) -> bool {
        true
    }

    pub fn unwrap_bigint(&self) -> &util::BigInt {
        match self {
            Value::Integer(_, bigint) => bigint,
            _ => panic!(),
        }
    }

    pub fn expect_bigint(&self, _report: &mut diagn::Report, _span: diagn::Span) -> Result<&util::BigInt, ()> {
        match self {
            Value::Integer(_, bigint) => Ok(bigint),
            _ => Err(()),
        }
    }

    /// Every value here is unknown, a failed constraint, or an integer with a size.
    pub fn expect_error_or_sized_bigint(self, _report: &mut diagn::Report, _span: diagn::Span) -> Result<Value, ()> {
        Ok(self)
    }
}

pub struct StaticallyKnownProvider {
    pub locals: std::collections::HashMap<String, StaticallyKnownLocal>,
}

impl StaticallyKnownProvider {
    pub fn new(_opts: &asm::AssemblyOptions) -> StaticallyKnownProvider {
        StaticallyKnownProvider {
            locals: std::collections::HashMap::new(),
        }
    }
}

pub struct StaticallyKnownLocal {
    pub value_known: bool,
    pub size: Option<usize>,
}

impl StaticallyKnownLocal {
    pub fn new() -> StaticallyKnownLocal {
        StaticallyKnownLocal {
            value_known: false,
            size: None,
        }
    }
}

pub const ASM_SUBSTITUTION_VARIABLE: &str = "$";

pub struct EvalContext;

impl EvalContext {
    pub fn new(_opts: &asm::AssemblyOptions) -> EvalContext {
        EvalContext
    }

    pub fn new_deepened(_outer: &EvalContext) -> EvalContext {
        EvalContext
    }

    pub fn set_local(&mut self, _name: &str, _value: Value) {}

    pub fn set_token_subst(&mut self, _name: &str, _excerpt: String) {}
}
