//! Holds lookup's answer to the scan's. Where the scan is not refused by 6, 7 or 8, lookup gives the same number and words
//! with no more visits, and the same readings, each once, in whatever order.
use crate::model::Answer;
use crate::readings::{Kind, Readings, Tree};

/// Whether the scan's answer says what lookup's must be. Where it ends in 2 to 5 or 19 there was no walk.
pub fn decides(scan: &Answer) -> bool {
    matches!(scan.number, 0 | 1 | 9)
}

/// What is wrong with lookup's answer beside a scan's that decides, if anything.
pub fn difference(scan: &Answer, lookup: &Answer) -> Option<&'static str> {
    if lookup.number != scan.number {
        return Some("another number");
    }
    if lookup.words != scan.words {
        return Some("another number of words");
    }
    if lookup.visits > scan.visits {
        return Some("more visits by lookup");
    }
    if scan.number == 0 {
        return other_readings(scan, lookup);
    }
    None
}

fn other_readings(scan: &Answer, lookup: &Answer) -> Option<&'static str> {
    let (Some((count, mut trees)), Some((other_count, mut others))) = (read(scan), read(lookup)) else {
        return Some("words that are no answer");
    };
    trees.sort();
    others.sort();
    if other_count != count {
        return Some("another greatest count");
    }
    if others != trees {
        return Some("other readings");
    }
    if trees.windows(2).any(|pair| pair[0] == pair[1]) {
        return Some("a reading twice");
    }
    None
}

/// An answer's greatest count, and its trees, each by the words that say it. Nothing if its words are no whole answer, or if
/// something in them is lost when they are read.
fn read(answer: &Answer) -> Option<(u32, Vec<Vec<u32>>)> {
    let readings = Readings::read(&answer.answer)?;
    let trees: Vec<Vec<u32>> = readings.trees.iter().map(words_of).collect();
    let mut whole = vec![trees.len() as u32, readings.count];
    whole.extend(trees.iter().flatten());
    (whole == answer.answer).then_some((readings.count, trees))
}

fn words_of(tree: &Tree) -> Vec<u32> {
    let mut words = vec![tree.ruleset, tree.rule, tree.arguments.len() as u32];
    for argument in &tree.arguments {
        let span = [argument.span.start, argument.span.end];
        match &argument.kind {
            Kind::Expression => words.extend([0, span[0], span[1]]),
            Kind::Nested(inner) => {
                words.extend([1, span[0], span[1]]);
                words.extend(words_of(inner));
            }
        }
    }
    words
}
