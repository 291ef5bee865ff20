//! Both calls on tables as text beside the model, on random input: listings with a few bytes, lines
//! or fields changed, and table words with spare parts, shared ones and parts in another order.

use crate::lent::{read, write, Call};
use crate::model::{told_of_table, told_of_text, Data, Part, Rule};
use crate::tables::sheet;

/// The same numbers in every run.
pub struct Random(pub u64);

impl Random {
    /// Below the bound.
    pub fn below(&mut self, bound: usize) -> usize {
        self.0 ^= self.0 << 13;
        self.0 ^= self.0 >> 7;
        self.0 ^= self.0 << 17;
        (self.0 >> 11) as usize % bound
    }

    pub fn one_in(&mut self, many: usize) -> bool {
        self.below(many) == 0
    }

    pub fn pick<T: Copy>(&mut self, of: &[T]) -> T {
        of[self.below(of.len())]
    }

    fn part(&mut self, sets: usize) -> Part {
        match self.below(8) {
            0 => Part::Whitespace,
            1 => Part::Expression,
            2 | 3 => Part::Nested(self.below(sets)),
            _ => Part::Exact(self.pick(b"!09:<AZaz~()+\"wse")),
        }
    }

    /// Small data within the limits; some rules have a parameter too many for them.
    fn data(&mut self) -> Data {
        let sets = if self.one_in(20) {
            32
        } else {
            1 + self.below(3)
        };
        let tops = (0..sets).map(|_| self.one_in(2)).collect();
        let mut of: Vec<usize> = (0..self.below(5)).map(|_| self.below(sets)).collect();
        of.sort();
        let rule = |set| {
            let most = if self.one_in(20) { 24 } else { 4 };
            let parts = (0..self.below(most)).map(|_| self.part(sets)).collect();
            Rule { set, parts }
        };
        let rules = of.into_iter().map(rule).collect();
        Data { tops, rules }
    }
}

const BYTES: &[u8] = b"\t\t\t\n\n\r 0123;ampwsexprulesetRT\0\x7f\xff";

const FIELDS: &[&[u8]] = &[
    b"ruleset",
    b"rule",
    b"top",
    b"nested",
    b"ws",
    b"expr",
    b"sub",
    b"sub0",
    b"sub1",
    b"sub00",
    b"sub01",
    b"sub31",
    b"sub32",
    b"sub256",
    b"0",
    b"1",
    b"00",
    b"31",
    b"32",
    b"256",
    b"65536",
    b"4294967296",
    b"",
    b";",
    b"p",
    b"Rule",
    b"\r",
    b" ",
];

/// Drops, doubles, swaps or changes one of some items, or ends after one.
fn change<T: Clone>(random: &mut Random, items: &mut Vec<T>, fresh: T) {
    if items.is_empty() {
        return items.push(fresh);
    }
    let (at, other) = (random.below(items.len()), random.below(items.len()));
    match random.below(6) {
        0 => drop(items.remove(at)),
        1 => items.insert(at, items[at].clone()),
        2 => items.swap(at, other),
        3 => items.insert(at, fresh),
        4 if random.one_in(4) => items.truncate(at),
        _ => items[at] = fresh,
    }
}

/// One more change of a text: of its bytes, its lines, or the fields of one line.
fn mutate(random: &mut Random, text: &mut Vec<u8>) {
    let mut lines: Vec<Vec<u8>> = text
        .split(|&byte| byte == b'\n')
        .map(<[u8]>::to_vec)
        .collect();
    let at = random.below(lines.len());
    match random.below(3) {
        0 => {
            let byte = random.pick(BYTES);
            return change(random, text, byte);
        }
        1 => {
            let line = lines[at].clone();
            change(random, &mut lines, line);
        }
        _ => {
            let fields = lines[at].split(|&byte| byte == b'\t');
            let mut fields: Vec<&[u8]> = fields.collect();
            let fresh = random.pick(FIELDS);
            change(random, &mut fields, fresh);
            let line = fields.join(&b'\t');
            lines[at] = line;
        }
    }
    *text = lines.join(&b'\n');
}

/// Words that have this data, with spare parts, equal ranges shared and the parts in any order.
fn spread(random: &mut Random, data: &Data) -> Vec<u16> {
    let packed = data.pack();
    let sets = data.tops.len();
    let (head, rest) = packed.split_at(3 + sets);
    let (records, parts) = rest.split_at(3 * data.rules.len());
    let (mut head, mut records) = (head.to_vec(), records.to_vec());
    let mut laid: Vec<u16> = vec![];
    let mut order: Vec<usize> = (0..data.rules.len()).collect();
    for i in 0..order.len() {
        let other = random.below(order.len());
        order.swap(i, other);
    }
    for rule in order {
        for _ in 0..random.below(3) {
            laid.push(random.pick(&[33, 126, 256, 257, 512]));
        }
        let [first, count] = [1, 2].map(|field| usize::from(records[3 * rule + field]));
        let own = &parts[first..first + count];
        let shared = laid.windows(count.max(1)).position(|window| window == own);
        records[3 * rule + 1] = shared.unwrap_or(laid.len()) as u16;
        if shared.is_none() {
            laid.extend(own);
        }
    }
    // Shared parts leave fewer words than the counts add up to; a table has as many.
    while laid.len() < parts.len() {
        laid.push(256);
    }
    head[2] = laid.len() as u16;
    [head, records, laid].concat()
}

/// Rooms exactly right, one too small and larger for a result; any, if there is none.
fn rooms<T>(random: &mut Random, result: Option<&Vec<T>>) -> Vec<usize> {
    match result.map(Vec::len) {
        None => vec![random.pick(&[0, 7, 64])],
        Some(exact) => vec![exact, exact - 1, exact + 1 + random.below(9)],
    }
}

#[test]
fn texts_like_the_model() {
    let mut random = Random(0x9E37_79B9_7F4A_7C15);
    let (mut accepted, mut refused) = (0, 0);
    while accepted + refused < 200_000 {
        let listing = random.data().print();
        for _ in 0..20 {
            let mut text = listing.clone();
            for _ in 0..random.pick(&[0, 1, 1, 1, 2, 4]) {
                mutate(&mut random, &mut text);
            }
            let model = Data::parse(&text).map(|data| data.pack());
            for room in rooms(&mut random, model.as_ref().ok()) {
                assert_eq!(read(&text, room), told_of_text(&model, room), "{text:?}");
            }
            *(if model.is_ok() {
                &mut accepted
            } else {
                &mut refused
            }) += 1;
        }
    }
    assert!(accepted.min(refused) > 40_000, "{accepted}, {refused}");
}

#[test]
fn tables_like_the_model() {
    let mut random = Random(0xD1B5_4A32_D192_ED03);
    let (mut accepted, mut refused) = (0, 0);
    while accepted + refused < 40_000 {
        let data = random.data();
        let mut table = spread(&mut random, &data);
        if random.one_in(3) {
            let word = random.pick(&[0, 1, 2, 3, 32, 59, 64, 127, 256, 258, 512, 513, 65535]);
            change(&mut random, &mut table, word);
        }
        let model = Data::unpack(&table).map(|data| data.print());
        for room in rooms(&mut random, model.as_ref()) {
            assert_eq!(
                write(&table, room),
                told_of_table(&model, room),
                "{table:?}"
            );
        }
        *(if model.is_some() {
            &mut accepted
        } else {
            &mut refused
        }) += 1;
    }
    assert!(accepted.min(refused) > 5_000, "{accepted}, {refused}");
}

/// Text to words and back, and words to text and back, with the data that the model finds in them. A
/// table and what it comes back as answer a line alike.
#[test]
fn round_trips() {
    let mut random = Random(0x2545_F491_4F6C_DD1D);
    for _ in 0..5_000 {
        let data = random.data();
        let table = spread(&mut random, &data);
        let (written, text) = write(&table, 4096);
        let Ok(bytes) = written.written() else {
            assert_eq!(Data::unpack(&table), None);
            continue;
        };
        assert_eq!(Data::unpack(&table), Some(data.clone()));
        assert_eq!((bytes, &text), (text.len(), &data.print()));
        let (_, words) = read(&text, 1024);
        assert_eq!(words, data.pack());
        let (_, again) = write(&words, 4096);
        assert_eq!(again, text);

        let line: Vec<u8> = (0..random.below(6))
            .map(|_| random.pick(b"!09:aAzZws+"))
            .collect();
        let call = Call {
            table: &table,
            line: &line,
            sheet: &sheet(line.len(), &[(0, line.len(), line.len() as u8)]),
            budget: 10_000,
            base: 0,
            room: 1024,
        };
        let packed = Call {
            table: &words,
            ..call
        };
        assert_eq!(call.scan(), packed.scan());
        assert_eq!(call.lookup(), packed.lookup());
    }
}
