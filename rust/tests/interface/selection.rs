//! Selection's numbers 10 to 14, and its limits from both sides.

use crate::lent::selected;
use tholdrimash::{Pass, Selection};

/// Both passes give this refusal, by this number, and leave the outcomes.
fn refused(outcomes: &[u32], room: usize, number: u32, refusal: Selection) {
    for pass in [Pass::Guessing, Pass::Last] {
        let told = selected(outcomes, pass, room);
        assert_eq!(told, (refusal, outcomes.to_vec(), vec![]));
    }
    assert_eq!(refusal.number(), number);
    assert_eq!(refusal.written(), Err(refusal));
}

#[test]
fn bad_list_is_10() {
    // Unresolved with its guess bit; a failed constraint, then an unknown with a size; a size of
    // 65,536.
    for bad in [1, 10, 12, 524_294, u32::MAX] {
        refused(&[71, bad], 3, 10, Selection::BadList);
    }
    refused(&[14; 4097], 4097, 10, Selection::BadList);
    let (told, _, chosen) = selected(&[14; 4096], Pass::Guessing, 4096);
    assert_eq!(told, Selection::Chosen { count: 4096 });
    assert!(chosen.into_iter().eq(0..4096));
}

#[test]
fn none_resolved_is_11() {
    refused(&[], 3, 11, Selection::NoneResolved);
    refused(&[3, 2, 0], 3, 11, Selection::NoneResolved);
}

#[test]
fn none_known_is_12() {
    refused(&[5, 2, 4], 3, 12, Selection::NoneKnown);
}

#[test]
fn tie_on_the_last_pass_is_13_and_marks() {
    for room in [0, 3] {
        let (told, outcomes, chosen) = selected(&[3, 70, 70], Pass::Last, room);
        assert_eq!(told, Selection::Tied { count: 2 });
        assert_eq!(told.number(), 13);
        assert_eq!(outcomes, [3, 71, 71]);
        assert_eq!(chosen, []);
    }
}

#[test]
fn too_little_room_is_14() {
    let (told, outcomes, chosen) = selected(&[135, 70, 70], Pass::Guessing, 1);
    assert_eq!(told, Selection::NoRoom { count: 2 });
    assert_eq!(told.number(), 14);
    assert_eq!(outcomes, [135, 70, 70]);
    assert_eq!(chosen, []);
    refused(&[71, 134], 0, 14, Selection::NoRoom { count: 1 });
}

#[test]
fn greatest_size_and_unresolved_guess() {
    let (told, outcomes, chosen) = selected(&[0, 134, 524_286], Pass::Last, 1);
    assert_eq!(told, Selection::Chosen { count: 1 });
    assert_eq!(outcomes, [0, 135, 524_287]);
    assert_eq!(chosen, [1]);
}
