//! Stands in for customasm's `syntax`, but for `walker.rs`, which is the published text.
//!
//! Missing there: `is_whitespace`, `is_ignorable` and `decide_next_token`. Whitespace is the bytes 9, 13 and 32, as document
//! 01 with order 4 says, and only whitespace is ignorable (a line has no comment: it has no semicolon). Of a token the
//! walker and the matcher use only whether it is whitespace and where the next one begins, so the tokens here are a run of
//! whitespace, a brace, a run of letters and digits, or any other single character.
pub use token::{decide_next_token, is_whitespace, Token, TokenKind};
pub use walker::Walker;

pub mod walker {
    include!(concat!(env!("CUSTOMASM_SRC"), "/syntax/walker.rs"));
}

pub mod token {
    use crate::*;

    #[derive(Copy, Clone, Debug, PartialEq)]
    pub enum TokenKind {
        Whitespace,
        LineBreak,
        BraceOpen,
        BraceClose,
        Other,
    }

    impl TokenKind {
        pub fn is_ignorable(self) -> bool {
            self == TokenKind::Whitespace
        }

        pub fn printable(self) -> &'static str {
            "token"
        }
    }

    #[derive(Clone, Debug)]
    pub struct Token {
        pub kind: TokenKind,
        pub span: diagn::Span,
    }

    pub fn is_whitespace(c: char) -> bool {
        c == ' ' || c == '\t' || c == '\r'
    }

    /// Kind and length of the token that `src`, which is not empty, begins with.
    pub fn decide_next_token(src: &str) -> (TokenKind, usize) {
        let run = |of: fn(char) -> bool| src.find(|c| !of(c)).unwrap_or(src.len());

        match src.chars().next().unwrap() {
            c if is_whitespace(c) => (TokenKind::Whitespace, run(is_whitespace)),
            '{' => (TokenKind::BraceOpen, 1),
            '}' => (TokenKind::BraceClose, 1),
            c if c.is_ascii_alphanumeric() => (TokenKind::Other, run(|c| c.is_ascii_alphanumeric())),
            c => (TokenKind::Other, c.len_utf8()),
        }
    }
}
