//! The calls that a comparison makes, behind C functions: so that a wrong copy of the Rust is one library to build, and the
//! program that compares is built once.
//!
//! # Safety
//! Of each: a pointer is to as many items as the length after it says, a pointer without one to one item.
use crate::shown::{Moves, Seen, PANICKED};
use crate::*;
use std::slice::{from_raw_parts, from_raw_parts_mut};

/// Runs `match_instr` on a line that begins at `base` of its file, by prefix lookup unless `lookup` is 0. Writes document
/// 01's answer words if they fit, and returns their number: 0 for no match.
#[no_mangle]
pub unsafe extern "C" fn oracle_match(
    table: *const u16,
    table_len: usize,
    line: *const u8,
    line_len: usize,
    sheet: *const u8,
    sheet_len: usize,
    base: u32,
    lookup: u32,
    out: *mut u64,
    out_len: usize,
    seen: *mut Seen,
) -> u32 {
    let table = from_raw_parts(table, table_len);
    let line = from_raw_parts(line, line_len);
    let sheet = from_raw_parts(sheet, sheet_len);
    let out = from_raw_parts_mut(out, out_len);

    let answer = std::panic::catch_unwind(|| {
        let defs = unpack_table(table);
        count::reset();
        let matches = run_match(&defs, line, sheet, base as usize, lookup != 0);
        let mut tally = count::tally();
        // The size guesses, after the walk, fetch the rule of each match of the answer once more.
        tally.rules -= nodes(&matches);
        (pack_answer(&matches), tally)
    });

    match answer {
        Err(_) => PANICKED,
        Ok((words, tally)) => {
            if words.len() <= out_len {
                out[..words.len()].copy_from_slice(&words);
            }
            *seen = Seen {
                parts: tally.parts,
                kept: tally.kept(),
                completed: tally.completed(),
            };
            words.len() as u32
        }
    }
}

/// Runs `resolve_encoding` on outcome words of kinds 1 to 3. Writes the marks back into the words, the chosen indices to
/// `out` (as many as fit), and their number, or the number tied, to `count`. Returns 0, 11, 12 or 13 (`Outcomes::select`).
#[no_mangle]
pub unsafe extern "C" fn oracle_select(
    words: *mut u32,
    words_len: usize,
    last_pass: u32,
    out: *mut u16,
    out_len: usize,
    count: *mut u32,
) -> u32 {
    let words = from_raw_parts_mut(words, words_len);
    let out = from_raw_parts_mut(out, out_len);

    let told = std::panic::catch_unwind(|| {
        let mut outcomes = Outcomes::new(words);
        let told = outcomes.select(last_pass == 0);
        (told, outcomes.guesses().collect::<Vec<_>>())
    });

    match told {
        Err(_) => PANICKED,
        Ok((told, guesses)) => {
            for (word, guess) in words.iter_mut().zip(guesses) {
                *word = (*word & !1) | guess as u32;
            }
            for (slot, index) in out.iter_mut().zip(&told.chosen) {
                *slot = *index as u16;
            }
            *count = told.count as u32;
            told.number
        }
    }
}

/// A walker with this cursor and limit, over a line that begins at `base` of its file.
fn walker_at(line: &[u8], base: usize, cursor: usize, limit: usize) -> syntax::Walker<'_> {
    let mut walker = syntax::Walker::new(std::str::from_utf8(line).unwrap(), FILE, base);
    let token = syntax::Token {
        kind: syntax::TokenKind::Other,
        span: diagn::Span::new(FILE, base, base + cursor),
    };
    walker.advance_to_token_end(&token);
    walker.set_cursor_limit(limit);
    walker
}

/// The moves of a walker whose cursor is at most its limit, and that at most the line's length, for one wanted byte. The line
/// begins at `base` of its file, and every place told is one of the line.
#[no_mangle]
pub unsafe extern "C" fn oracle_moves(
    line: *const u8,
    line_len: usize,
    base: u32,
    cursor: usize,
    limit: usize,
    wanted: u8,
    moves: *mut Moves,
) {
    let line = from_raw_parts(line, line_len);
    let walker = walker_at(line, base as usize, cursor, limit);
    let mut moved = walker.clone();
    let found = moved.maybe_expect_char(wanted as char);
    let whitespace = walker.is_over() || walker.next_token().kind == syntax::TokenKind::Whitespace;
    let cut = walker.find_lookahead_char_index(wanted as char);

    *moves = Moves {
        is_over: walker.is_over() as u32,
        useful: walker.next_useful_index(),
        found: found as u32,
        cursor: moved.get_cursor_index(),
        limit: moved.get_cursor_limit(),
        whitespace: whitespace as u32,
        is_cut: cut.is_some() as u32,
        cut: cut.unwrap_or(0),
    };
}

/// The rules that the map has for a line's prefixes, those of length 0 first: the length, ruleset and rule of each to
/// `out`, three words a rule, as many as fit. Returns how many rules there are.
#[no_mangle]
pub unsafe extern "C" fn oracle_query(
    table: *const u16,
    table_len: usize,
    line: *const u8,
    line_len: usize,
    out: *mut u16,
    out_len: usize,
) -> u32 {
    let defs = unpack_table(from_raw_parts(table, table_len));
    let line = from_raw_parts(line, line_len);
    let prefix = asm::RuledefMap::parse_prefix(walker_at(line, 0, 0, line_len));

    let mut words = Vec::new();
    for (length, entries) in defs.ruledef_map.query_prefixed(prefix).iter().enumerate() {
        for entry in entries.iter() {
            words.push(length as u16);
            words.push(entry.ruledef_ref.get_raw() as u16);
            words.push(entry.rule_ref.get_raw() as u16);
        }
    }

    for (slot, word) in from_raw_parts_mut(out, out_len).iter_mut().zip(&words) {
        *slot = *word;
    }

    words.len() as u32 / 3
}
