//! Tables and sheets of the tests.

use crate::lent::Call;

/// Visits for every walk that is to end by itself.
pub const ALL: u32 = 1_000_000;

/// Document 01's table T: `mov` with an expression, `mov` with ruleset 1, and there `p` and `q`.
pub const T: [u16; 29] = [
    2, 4, 12, 0, 1, 0, 0, 5, 0, 5, 5, 1, 10, 1, 1, 11, 1, 109, 111, 118, 256, 257, 109, 111, 118,
    256, 513, 112, 113,
];

/// T on `mov p`, free(3,5)=5, all else 255.
pub const MOV: Call = Call {
    table: &T,
    line: b"mov p",
    sheet: &{
        let mut sheet = [255; 72];
        sheet[3 * 6 + 5] = 5;
        sheet
    },
    budget: ALL,
    base: 0,
    room: 12,
};

/// A table from a text with a byte for each part: a space is whitespace, `?` an expression, a byte
/// from 128 the nested ruleset that it names, any other itself. `;` ends a rule, and `|` begins the
/// next ruleset, nested only.
pub fn table(text: &[u8]) -> Vec<u16> {
    let (mut flags, mut records, mut parts) = (vec![0], vec![], vec![]);
    let mut first = 0;
    for &byte in text {
        match byte {
            b';' => {
                let end = parts.len() as u16;
                records.extend([flags.len() as u16 - 1, first, end - first]);
                first = end;
            }
            b'|' => flags.push(1),
            b' ' => parts.push(256),
            b'?' => parts.push(257),
            128.. => parts.push(512 + u16::from(byte) - 128),
            _ => parts.push(byte.into()),
        }
    }
    let sizes = [flags.len(), records.len() / 3, parts.len()].map(|size| size as u16);
    [&sizes[..], &flags, &records, &parts].concat()
}

/// Rulesets 0 to 16 of one rule each: the same parts, then the next ruleset, and in ruleset 16 the
/// last part that is given. Ruleset 17 is empty.
pub fn chain(same: &[u8], last: u8) -> Vec<u16> {
    let nexts = (129..=144).chain([last]);
    table(
        &nexts
            .flat_map(|next| [same, &[next, b';', b'|']].concat())
            .collect::<Vec<_>>(),
    )
}

/// A sheet for a line of n bytes: the free ends are given as start, limit and end, and there are no
/// others.
pub fn sheet(n: usize, free: &[(usize, usize, u8)]) -> Vec<u8> {
    let mut sheet = vec![255; 2 * (n + 1) * (n + 1)];
    for &(start, limit, end) in free {
        sheet[start * (n + 1) + limit] = end;
    }
    sheet
}

#[test]
fn text_of_t() {
    assert_eq!(table(b"mov ?;mov \x81;|p;q;"), T);
    assert_eq!(sheet(5, &[(3, 5, 5)]), MOV.sheet);
}
