//! Tables as text: table T both ways, numbers 15, 16 and 2, and the limits from both sides. Every
//! call is compared with the model too.

use crate::lent::{read, write};
use crate::model::{told_of_text, Data};
use crate::tables::T;
use tholdrimash::{ReadAnswer, WriteAnswer, MOST_BYTES, MOST_WORDS};

/// A listing with a space for each tab and a stroke for each line end.
fn text(shown: &str) -> Vec<u8> {
    shown.replace(' ', "\t").replace('|', "\n").into()
}

const T_SHOWN: &str =
    "ruleset top|ruleset nested|rule 0 m o v ws expr|rule 0 m o v ws sub1|rule 1 p|rule 1 q|";

/// What reading gives, with all the room that a table may need.
fn reads(text: &[u8]) -> (ReadAnswer, Vec<u16>) {
    let told = read(text, MOST_WORDS);
    let model = Data::parse(text).map(|data| data.pack());
    assert_eq!(told, told_of_text(&model, MOST_WORDS));
    told
}

/// The text is refused, with this line, whatever the room.
fn bad(text: &[u8], line: usize) {
    let refusal = ReadAnswer::BadText { line };
    assert_eq!(reads(text), (refusal, vec![]));
    assert_eq!(read(text, 0), (refusal, vec![]));
}

/// The text is accepted, and comes back when its words are written.
fn good(text: &[u8]) -> Vec<u16> {
    let (told, words) = reads(text);
    assert_eq!(told, ReadAnswer::Read { words: words.len() });
    let bytes = text.len();
    let back = write(&words, MOST_BYTES);
    assert_eq!(back, (WriteAnswer::Written { bytes }, text.to_vec()));
    words
}

#[test]
fn table_t_both_ways() {
    assert_eq!(good(&text(T_SHOWN)), T);
    assert_eq!(ReadAnswer::Read { words: 29 }.number(), 0);
    assert_eq!(WriteAnswer::Written { bytes: 87 }.number(), 0);
}

/// Parts in another order and spare ones: the listing has neither, and its table is packed.
#[test]
fn a_listing_is_packed() {
    let spread = [
        1, 2, 6, 0, 0, 3, 2, 0, 1, 1, 64, 113, 64, 112, 256, 64, // p ws at 3; q at 1
    ];
    let (told, listing) = write(&spread, MOST_BYTES);
    assert_eq!(listing, text("ruleset top|rule 0 p ws|rule 0 q|"));
    assert_eq!(told.written(), Ok(listing.len()));
    let packed = [1, 2, 3, 0, 0, 0, 2, 0, 2, 1, 112, 256, 113];
    assert_eq!(good(&listing), packed);
}

#[test]
fn bad_text_is_15_with_its_line() {
    for (shown, line) in [
        ("", 0),             // no ruleset
        ("|", 0),            // an empty line
        ("rule 0|", 0),      // a rule of no ruleset
        ("Ruleset top|", 0), // words are compared byte for byte
        ("ruleset Top|", 0),
        ("ruleset top|Rule 0|", 1),
        ("ruleset|", 0), // the word alone
        ("ruleset top|rule|", 1),
        ("ruleset |", 0),
        ("ruleset top|rule |", 1),
        ("rulese top|", 0),
        ("rulesets top|", 0),
        ("ruleset top nested|", 0),
        ("ruleset to|", 0),
        (" ruleset top|", 0),
        ("ruleset top |", 0), // a tab at the line's end
        ("ruleset top|rule 0 p |", 1),
        ("ruleset top|rule 0  p|", 1),
        ("ruleset top|rule 0 p", 1), // the last line is not ended
        ("ruleset top", 0),
        ("ruleset top|x", 1),
        ("ruleset top||", 1),
        ("ruleset top||rule 0 p|", 1),
        ("ruleset top|rule 00|", 1), // leading zeros
        ("ruleset top|rule 0 sub00|", 1),
        ("ruleset top|ruleset top|rule 01|", 2),
        ("ruleset top|ruleset top|rule 0 sub01|", 2),
        ("ruleset top|rule 1|", 1), // not below the rulesets
        ("ruleset top|ruleset top|rule 0 sub2|", 2),
        ("ruleset top|rule 256|", 1), // numbers that would wrap
        ("ruleset top|rule 65536|", 1),
        ("ruleset top|rule 4294967296|", 1),
        ("ruleset top|rule 18446744073709551616|", 1),
        ("ruleset top|rule 0 sub256|", 1),
        ("ruleset top|rule 0 sub65536|", 1),
        ("ruleset top|rule 0 sub4294967296|", 1),
        ("ruleset top|rule +0|", 1), // no numbers
        ("ruleset top|rule -0|", 1),
        ("ruleset top|rule :|", 1),
        ("ruleset top|rule 0x|", 1),
        ("ruleset top|rule 0 sub|", 1),
        ("ruleset top|rule 0 sub 0|", 1),
        ("ruleset top|rule 0 Sub0|", 1),
        ("ruleset top|rule 0 su|", 1),
        ("ruleset top|rule 0 ;|", 1), // no parts
        ("ruleset top|rule 0 \u{7f}|", 1),
        ("ruleset top|rule 0 \u{1f}|", 1),
        ("ruleset top|rule 0 \0|", 1),
        ("ruleset top|rule 0 wsx|", 1),
        ("ruleset top|rule 0 w|rule 0 exp|", 2),
        ("ruleset top|rule 0 WS|", 1),
        ("ruleset top|rule 0 expression|", 1),
        ("ruleset top|rule 0 mov|", 1),
        ("ruleset top|rule 0 \"\"\"\"|", 1), // a quote as a spreadsheet writes it
        ("ruleset top|rule 0|ruleset nested|", 2), // a ruleset after a rule
        ("ruleset top|ruleset top|rule 1|rule 0|", 3), // rulesets that fall
        ("ruleset top\r|rule 0\r|", 0),      // line ends of two bytes
        ("ruleset top|rule 0 p\r|", 1),
        ("ruleset top|rule 0 p \r|", 1),
        ("ruleset top|; a comment|rule 0|", 1),
        ("ruleset top|rule 0 p|rule 0 mov|rule 0 mov|", 2), // the first of two
    ] {
        bad(&text(shown), line);
    }
    bad(b"ruleset top\n", 0);
    bad(b"ruleset\ttop\nrule\t0\t \n", 1);
    bad(b"ruleset\ttop\nrule\t0\t\xa0\n", 1);
    assert_eq!(ReadAnswer::BadText { line: 1 }.number(), 15);
    let said = ReadAnswer::BadText { line: 1 }.to_string();
    assert_eq!(said, "the table's text is bad at line 1, counted from 0");
}

/// So many rulesets, then so many rules of ruleset 0 with the same fields.
fn many(sets: usize, rules: usize, fields: &str) -> Vec<u8> {
    let rule = format!("rule 0{fields}|");
    text(&("ruleset top|".repeat(sets) + &rule.repeat(rules)))
}

#[test]
fn limits_from_both_sides() {
    good(&many(32, 0, ""));
    bad(&many(33, 0, ""), 32);
    good(&many(1, 512, ""));
    bad(&many(1, 513, ""), 513);
    bad(&many(32, 513, ""), 544);
    bad(&[&many(32, 512, "")[..], b"x"].concat(), 544);
    good(&many(1, 1, &" p".repeat(64)));
    bad(&many(1, 1, &" p".repeat(65)), 1);
    good(&many(1, 1, &" expr sub0".repeat(4)));
    bad(&many(1, 1, &(" expr sub0".repeat(4) + " expr")), 1);
    bad(&many(1, 1, &(" expr sub0".repeat(4) + " sub0")), 1);
    let full = many(1, 128, &" p".repeat(64));
    good(&full);
    good(&[&full[..], &text("rule 0|")].concat());
    bad(&[&full[..], &text("rule 0|rule 0 p|")].concat(), 130);
    good(&text(
        &("ruleset nested|".repeat(32) + "rule 0 sub31|rule 9|rule 10 sub9 sub10|rule 31|"),
    ));
    for byte in 33..=126 {
        let line = [b"ruleset\ttop\nrule\t0\t", &[byte][..], b"\n"].concat();
        match byte {
            b';' => bad(&line, 1),
            _ => assert_eq!(good(&line)[7], u16::from(byte)),
        }
    }
}

/// The table of the most words, and the one of the longest listing.
#[test]
fn most_room() {
    let wide = "ruleset nested|".repeat(32) + &format!("rule 10{}|", " p".repeat(16)).repeat(512);
    assert_eq!(good(&text(&wide)).len(), MOST_WORDS);
    let parts = " ws".repeat(8) + &" sub31".repeat(8);
    let long = "ruleset nested|".repeat(32) + &format!("rule 10{parts}|").repeat(512);
    assert_eq!(good(&text(&long)).len(), MOST_WORDS);
    assert_eq!(long.len(), MOST_BYTES);
}

#[test]
fn texts_of_a_megabyte() {
    let megabyte = 1 << 20;
    let lines = text(T_SHOWN);
    bad(&vec![b'a'; megabyte], 0);
    bad(&vec![b'\n'; megabyte], 0);
    bad(&[&lines[..], &vec![b'a'; megabyte]].concat(), 6);
    bad(&[&lines[..], &vec![b'\n'; megabyte]].concat(), 6);
    bad(
        &[&lines[..], b"rule\t1", &b"\tp".repeat(megabyte / 2), b"\n"].concat(),
        6,
    );
    bad(
        &[&lines[..], b"rule\t", &vec![b'1'; megabyte], b"\n"].concat(),
        6,
    );
    bad(&b"rule\t1\tp\n".repeat(megabyte / 9), 0);
    bad(
        &[&lines[..], &b"rule\t1\n".repeat(megabyte / 7)].concat(),
        514,
    );
}

#[test]
fn no_room_is_16() {
    let listing = text(T_SHOWN);
    for room in [0, 1, 2, 3, 28] {
        assert_eq!(read(&listing, room), (ReadAnswer::NoRoom, vec![]));
    }
    assert_eq!(read(&listing, 29), read(&listing, 30));
    for room in [0, 1, 2, listing.len() - 1] {
        assert_eq!(write(&T, room), (WriteAnswer::NoRoom, vec![]));
    }
    assert_eq!(write(&T, listing.len()), write(&T, listing.len() + 1));
    assert_eq!(ReadAnswer::NoRoom.number(), 16);
    assert_eq!(WriteAnswer::NoRoom.number(), 16);
    assert_eq!(ReadAnswer::NoRoom.written(), Err(ReadAnswer::NoRoom));
}

#[test]
fn bad_table_is_2_whatever_the_room() {
    let one_short = &T[..28];
    let semicolon = [one_short, &[59]].concat();
    let one_long = [&T[..], &[112]].concat();
    for table in [&[], one_short, &one_long, &semicolon] {
        for room in [0, MOST_BYTES] {
            assert_eq!(write(table, room), (WriteAnswer::BadTable, vec![]));
        }
    }
    assert_eq!(WriteAnswer::BadTable.number(), 2);
    assert_eq!(WriteAnswer::BadTable.to_string(), "the rule table is bad");
}
