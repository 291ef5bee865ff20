//! Compares selection: on every list with the model, and on good lists with the Rust. Its lists grow: 14 is not asked of it.
use crate::cases;
use crate::model;
use crate::random::Random;
use crate::report::Report;
use crate::sides;

fn compare(report: &mut Report, words: &[u32], last: u32, room: usize) {
    let (told, left_alone) = sides::proved_select(words, last, room);
    let expected = model::select(words, last != 0, room);
    report.see("selections", true);
    report.see(number_name(expected.number), true);
    if told != expected || !left_alone {
        report.differ(format!(
            "selection of {words:?}, last pass {last}, room {room}: proved {told:?} (rest of the buffer unchanged: \
             {left_alone}), document 01 {expected:?}"
        ));
        return;
    }
    if told.number == 10 || told.number == 14 {
        return;
    }
    let Some(rust) = sides::rust_choice(words, last != 0, told.number) else {
        report.differ(format!("the Rust panics on selection of {words:?}"));
        return;
    };
    report.see("compared with the Rust", true);
    report.see("  with an unresolved word", words.contains(&0));
    report.see("  several chosen", told.number == 0 && told.count > 1);
    report.see("  words marked", told.words != words);
    if told != rust {
        report.differ(format!(
            "selection of {words:?}, last pass {last}: proved {told:?}, Rust {rust:?}"
        ));
    }
}

fn number_name(number: u32) -> &'static str {
    match number {
        0 => "number 0",
        10 => "number 10",
        11 => "number 11",
        12 => "number 12",
        13 => "number 13",
        _ => "number 14",
    }
}

/// Names the numbers first, so that they stand together.
pub fn numbers(report: &mut Report) {
    report.see("selections", false);
    for number in [0, 10, 11, 12, 13, 14] {
        report.see(number_name(number), false);
    }
}

/// Every list of at most four words out of one of each kind, guessed or not, sized ones of two sizes, and two bad ones, on
/// both passes, with every room up to its length.
pub fn short(report: &mut Report) {
    let words = [0, 2, 3, 4, 5, 6, 7, 14, 15, 1, 10];
    for list in cases::all_up_to(&words, 4) {
        for last in [0, 1] {
            for room in 0..=list.len() {
                compare(report, &list, last, room);
            }
        }
    }
}

/// Random lists of a seed, long ones and damaged ones among them.
pub fn random(report: &mut Report, seed: u64, cases: u64) {
    for number in 0..cases {
        let random = &mut Random::new(seed ^ 0x7365_6C65, number);
        let kinds: &[u32] = *random.pick(&[
            &[3][..],
            &[2, 3],
            &[1, 3],
            &[1, 2],
            &[1],
            &[2],
            &[1, 2, 3],
            &[0, 1, 2, 3],
            &[0, 3],
            &[0, 1],
        ]);
        let sizes: &[u32] = *random.pick(&[
            &[0][..],
            &[8],
            &[0, 8],
            &[8, 16],
            &[8, 16, 24, 65535],
            &[1, 2, 3, 4, 5, 6],
        ]);
        let guess = *random.pick(&[0, 0, 100, 500, 1000]);
        let mut length = *random.pick(&[0, 1, 1, 2, 2, 3, 4, 6, 12, 40]);
        if random.chance(2) {
            length = *random.pick(&[4095, 4096, 4097]);
        }
        let mut words: Vec<u32> = (0..length)
            .map(|_| match *random.pick(kinds) {
                0 => 0,
                3 => random.chance(guess) as u32 + 6 + 8 * *random.pick(sizes),
                kind => random.chance(guess) as u32 + 2 * kind,
            })
            .collect();
        if random.chance(150) && !words.is_empty() {
            let at = random.below(words.len());
            words[at] = match random.below(3) {
                0 => 1,
                1 => words[at] ^ (1 << random.below(32)),
                _ => random.next() as u32,
            };
        }
        let room = match random.below(3) {
            0 => random.between(0, 3),
            _ => words.len(),
        };
        compare(report, &words, 0, room);
        compare(report, &words, *random.pick(&[1, 1, 2, u32::MAX]), room);
    }
}
