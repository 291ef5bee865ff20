//! Where a line begins in its file: the bases that calls are made with, and an answer's words under one base as they are under
//! another.
use crate::random::Random;

/// The greatest base: a line of 120 bytes ends at 2^32 - 1 then.
pub const GREATEST: u32 = 4_294_967_175;

/// Where words of 16 bits end, and signed ones of 32.
pub const MARKS: [u32; 2] = [1 << 16, 1 << 31];

/// How far before a mark, or before the greatest, a base is made: past a longest line's length.
const WIDTH: usize = 121;

/// Bases come from a stream of their own, so that the other inputs of a seed are the same whatever is drawn here.
pub fn stream(seed: u64, number: u64) -> Random {
    Random::new(seed ^ 0x6261_7365, number)
}

/// A base before a place, or there: half of them so near that a short line reaches it.
fn before(random: &mut Random, place: u32) -> u32 {
    let most = *random.pick(&[14, WIDTH]);
    place - random.between(0, most) as u32
}

/// A base that no call refuses: 0, a small one, one around a mark, the greatest and those just below it.
pub fn good(random: &mut Random) -> u32 {
    match random.below(8) {
        0 => 0,
        1 | 2 => random.between(1, 200) as u32,
        3 | 4 => before(random, MARKS[0]) + random.below(2) as u32,
        5 => before(random, MARKS[1]) + random.below(2) as u32,
        6 => GREATEST,
        _ => before(random, GREATEST),
    }
}

/// A base that is refused: the least such, the greatest, or one between.
pub fn too_great(random: &mut Random) -> u32 {
    match random.below(4) {
        0 | 1 => GREATEST + 1,
        2 => u32::MAX,
        _ => random.between(GREATEST as usize + 2, u32::MAX as usize - 1) as u32,
    }
}

/// Every edge, in order: those past the greatest are refused.
pub fn edges() -> Vec<u32> {
    let mut edges = vec![0, 1, 2, 120, 200];
    for mark in MARKS {
        edges.extend([mark - 121, mark - 120, mark - 119, mark - 2, mark - 1, mark, mark + 1]);
    }
    edges.extend([GREATEST - 121, GREATEST - 120, GREATEST - 1, GREATEST, GREATEST + 1]);
    edges.extend([u32::MAX - 1, u32::MAX]);
    edges
}

/// The words of an answer under base 0, with every start and end moved by a base. Nothing if they are no whole answer.
pub fn moved(words: &[u32], base: u32) -> Option<Vec<u64>> {
    let mut moved: Vec<u64> = words.iter().map(|word| *word as u64).collect();
    let mut at = 0;
    if !words.is_empty() {
        at = 2;
        for _ in 0..words[0] {
            at = move_tree(&mut moved, at, base)?;
        }
    }
    (at == words.len()).then_some(moved)
}

/// Moves the spans of the tree that begins at a place; the place behind it.
fn move_tree(words: &mut [u64], at: usize, base: u32) -> Option<usize> {
    let arguments = *words.get(at + 2)?;
    let mut at = at + 3;
    for _ in 0..arguments {
        let [kind, start, end] = words.get_mut(at..at + 3)? else {
            return None;
        };
        let nested = *kind == 1;
        *start += base as u64;
        *end += base as u64;
        at += 3;
        if nested {
            at = move_tree(words, at, base)?;
        }
    }
    Some(at)
}
