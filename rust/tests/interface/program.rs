//! Programs: number 17 in each of its cases, the room that is left, a base a line, and both calls on
//! random programs beside a model that is document 02's sentences, with the single call for each
//! line.

use crate::bases::{moved, BASES, TOO_GREAT};
use crate::lent::{Call, ProgramCall, ProgramTold};
use crate::random::Random;
use crate::tables::{chain, sheet, table, ALL, MOV, T};
use std::thread;
use tholdrimash::{sheet_len, Answer, LineAnswer, LineAnswers, ProgramAnswer, MOST_LINES};

/// A line with its sheet, its budget and its base. A line of more than 120 bytes has no sheet.
#[derive(Clone)]
pub struct Line {
    pub bytes: Vec<u8>,
    pub sheet: Vec<u8>,
    pub budget: u32,
    pub base: u32,
}

impl Line {
    fn new(bytes: &[u8], free: &[(usize, usize, u8)]) -> Line {
        let sheet = match sheet_len(bytes.len()) {
            0 => vec![],
            _ => sheet(bytes.len(), free),
        };
        Line {
            bytes: bytes.to_vec(),
            sheet,
            budget: ALL,
            base: 0,
        }
    }
}

/// `mov` with the expression or register that it is on T, in 11 words, and one of T's readings of 8
/// words.
fn mov(byte: u8) -> Line {
    Line::new(&[b"mov ", &[byte][..]].concat(), &[(3, 5, 5)])
}

/// The program of some lines, all lengths right.
fn program(table: &[u16], lines: &[Line], room: usize) -> ProgramCall {
    let mut call = ProgramCall {
        table: table.to_vec(),
        text: vec![],
        ends: vec![],
        sheets: vec![],
        budgets: vec![],
        bases: vec![],
        rows: 2 * lines.len(),
        room,
    };
    for line in lines {
        call.text.extend(&line.bytes);
        call.ends.push(call.text.len() as u32);
        call.sheets.extend(&line.sheet);
        call.budgets.push(line.budget);
        call.bases.push(line.base);
    }
    call
}

type Single = fn(Call<'_>) -> (Answer, Vec<u32>);

const SCAN: Single = |call| call.scan();
const LOOKUP: Single = |call| call.lookup();

/// Document 02's sentences on a whole program. What a line gives is asked of the single call, with
/// the room left as its buffer; so is whether the table is bad.
fn model(call: &ProgramCall, single: Single) -> ProgramTold {
    let refused = |refusal| (refusal, vec![], vec![]);
    let empty = Call {
        table: &call.table,
        line: b"",
        sheet: &[255; 2],
        budget: 0,
        base: 0,
        room: 0,
    };
    // "A bad table refuses the whole call before any line."
    if single(empty).0 == Answer::BadTable {
        return refused(ProgramAnswer::BadTable);
    }
    // "17 for more than 256 lines, ends that fall or pass the text, or sheets, budgets or rows of
    // the wrong length; nothing written." And "one base a line (else 17)".
    let starts: Vec<u32> = [0].into_iter().chain(call.ends.iter().copied()).collect();
    let mut spans = starts.iter().zip(&call.ends);
    let lines = call.ends.len();
    if lines > 256
        || !spans.all(|(start, end)| start <= end && *end as usize <= call.text.len())
        || call.budgets.len() != lines
        || call.bases.len() != lines
        || call.rows != 2 * lines
    {
        return refused(ProgramAnswer::BadProgram);
    }
    // "Sheets stand one after another, 2(n+1)² bytes for a line of n bytes up to 120 and none for a
    // longer one."
    let spans: Vec<[usize; 2]> = starts
        .iter()
        .zip(&call.ends)
        .map(|(start, end)| [*start as usize, *end as usize])
        .collect();
    let sheet_of = |[start, end]: [usize; 2]| match end - start {
        n @ 0..=120 => 2 * (n + 1) * (n + 1),
        _ => 0,
    };
    if spans.iter().map(|span| sheet_of(*span)).sum::<usize>() != call.sheets.len() {
        return refused(ProgramAnswer::BadProgram);
    }
    let (mut rows, mut answers) = (vec![], vec![]);
    let mut sheets = &call.sheets[..];
    let limits = call.budgets.iter().zip(&call.bases);
    for (span, (budget, base)) in spans.into_iter().zip(limits) {
        let (sheet, rest) = sheets.split_at(sheet_of(span));
        sheets = rest;
        // "Each line's numbers and answer words are what the single call would give"; "Number 9 is
        // measured against the room left".
        let (told, words) = single(Call {
            table: &call.table,
            line: &call.text[span[0]..span[1]],
            sheet,
            budget: *budget,
            base: *base,
            room: call.room - answers.len(),
        });
        // "Its number, and the answer words used before it."
        rows.extend([told.number(), answers.len() as u32]);
        // "A refused line takes no words and stops nothing."
        answers.extend(words);
    }
    let words = answers.len();
    (ProgramAnswer::Read { words }, rows, answers)
}

/// Both calls give what the model says, which is returned; of the lines' answers by the scan, the
/// iterator tells the same.
fn like_the_model(call: &ProgramCall) -> [ProgramTold; 2] {
    let expected = [SCAN, LOOKUP].map(|single| model(call, single));
    assert_eq!(call.scan(), expected[0], "scan of {call:?}");
    assert_eq!(call.lookup(), expected[1], "lookup of {call:?}");
    let (told, rows, answers) = &expected[0];
    if told.written().is_ok() {
        let lines = LineAnswers::read(rows, answers).expect("the rows of a call");
        assert_eq!(lines.len(), call.ends.len());
        let numbers: Vec<u32> = lines.clone().map(LineAnswer::number).collect();
        let told: Vec<u32> = rows.iter().copied().step_by(2).collect();
        assert_eq!(numbers, told);
        let words: Vec<u32> = lines
            .flat_map(|line| line.written().unwrap_or(&[]))
            .copied()
            .collect();
        assert_eq!(words, *answers);
    }
    expected
}

/// Scan and lookup both give these rows and words.
fn gives(call: &ProgramCall, rows: &[u32], answers: &[u32]) {
    let [told, _] = like_the_model(call);
    let words = answers.len();
    let expected = (ProgramAnswer::Read { words }, rows.to_vec(), answers.into());
    assert_eq!(told, expected);
    assert_eq!(call.both(), expected);
}

fn refused(call: &ProgramCall) {
    call.refused(17, ProgramAnswer::BadProgram);
    let _ = like_the_model(call);
}

/// T's readings of `mov p`, `mov q` and `mov 7`.
const P: [u32; 11] = [1, 4, 0, 1, 1, 1, 4, 5, 1, 0, 0];
const Q: [u32; 11] = [1, 4, 0, 1, 1, 1, 4, 5, 1, 1, 0];
const SEVEN: [u32; 8] = [1, 3, 0, 0, 1, 0, 4, 5];

#[test]
fn one_line_is_the_single_call() {
    let call = program(&T, &[mov(b'p')], 12);
    gives(&call, &[0, 0], &P);
    assert_eq!(call.both().2, MOV.both().1);
    assert_eq!(ProgramAnswer::Read { words: 11 }.number(), 0);
}

#[test]
fn no_line_is_a_program() {
    gives(&program(&T, &[], 0), &[], &[]);
    let mut call = program(&T, &[], 5);
    call.text = b"; no line's".to_vec();
    gives(&call, &[], &[]);
}

#[test]
fn lines_one_after_another() {
    let lines = [mov(b'p'), mov(b'7'), mov(b'q')];
    let answers = [&P[..], &SEVEN, &Q].concat();
    gives(&program(&T, &lines, 64), &[0, 0, 0, 11, 0, 19], &answers);
}

#[test]
fn equal_ends_are_empty_lines() {
    let empty = Line::new(b"", &[]);
    let nothing = table(b";"); // one rule of no parts, which reads the empty line
    let lines = vec![empty; 3];
    let call = program(&nothing, &lines, 15);
    assert_eq!(call.ends, [0, 0, 0]);
    gives(
        &call,
        &[0, 0, 0, 5, 0, 10],
        &[1, 0, 0, 0, 0, 1, 0, 0, 0, 0, 1, 0, 0, 0, 0],
    );
    let mixed = [lines[0].clone(), mov(b'p'), lines[0].clone()];
    let call = program(&T, &mixed, 64);
    assert_eq!(call.ends, [0, 5, 5]);
    assert_eq!(call.scan().1, [1, 0, 0, 0, 1, 11]);
}

#[test]
fn text_after_the_last_end_is_no_line() {
    let mut call = program(&T, &[mov(b'p')], 12);
    call.text.extend(b" ;\0 anything");
    gives(&call, &[0, 0], &P);
}

/// A long line is number 3, has no sheet, and the lines after it have theirs.
#[test]
fn a_line_of_121_between_good_ones() {
    for n in [121, 122, 300] {
        let long = Line::new(&vec![b'a'; n], &[]);
        let call = program(&T, &[mov(b'p'), long, mov(b'q')], 22);
        let answers = [P, Q].concat();
        gives(&call, &[0, 0, 3, 11, 0, 11], &answers);
    }
    let longest = Line::new(&[b'a'; 120], &[]);
    let call = program(&T, &[longest, mov(b'p')], 11);
    assert_eq!(call.sheets.len(), 2 * 121 * 121 + 72);
    assert_eq!(call.scan().1, [1, 0, 0, 0]);
}

/// A buffer that is full in the middle takes a shorter answer later, and is then full to its end.
#[test]
fn number_9_is_measured_against_the_room_left() {
    let lines = [mov(b'p'), mov(b'q'), mov(b'7'), mov(b'p'), mov(b'7')];
    let answers = [&P[..], &SEVEN].concat();
    for room in 19..22 {
        let call = program(&T, &lines, room);
        gives(&call, &[0, 0, 9, 11, 0, 11, 9, 19, 9, 19], &answers);
    }
    let call = program(&T, &lines, 7);
    gives(&call, &[9, 0, 9, 0, 9, 0, 9, 0, 9, 0], &[]);
}

#[test]
fn each_number_of_a_line() {
    let spoilt = |budget| Line {
        budget,
        ..mov(b'p')
    };
    let based = |base| Line { base, ..mov(b'p') };
    let mut bad_sheet = mov(b'p');
    bad_sheet.sheet[3 * 6 + 5] = 6;
    let lines = [
        Line::new(b"nop", &[]),
        Line::new(b"mov;", &[]),
        Line::new(b"mov ", &[]),
        bad_sheet,
        spoilt(0),
        spoilt(ALL + 1),
        spoilt(14),
        based(TOO_GREAT[0]),
        based(u32::MAX),
        spoilt(15),
        mov(b'p'),
        based(u32::MAX),
    ];
    let call = program(&T, &lines, 11);
    let numbers: Vec<u32> = call.both().1.into_iter().step_by(2).collect();
    assert_eq!(numbers, [1, 3, 3, 4, 5, 5, 6, 19, 19, 0, 9, 19]);
    let _ = like_the_model(&call);

    // Some lines go too deep, or fill the pool, and the others do as ever.
    let a = Line::new(b"a", &[]);
    let empty = Line::new(b"", &[]);
    let deep = program(&chain(b"", 128 + 17), &[a.clone(), empty.clone()], 9);
    assert_eq!(deep.both().1, [7, 0, 7, 0]);
    let many = table(b"\x81\x81\x81\x81\x81\x81\x81;a;|;;;");
    let full = program(&many, &[empty, a], 64);
    assert_eq!(full.lookup().1[..2], [8, 0]);
    let _ = like_the_model(&full);
}

/// Each line's spans are moved by its own base, whichever the others' are.
#[test]
fn a_base_a_line() {
    for base in BASES {
        let mut lines = [mov(b'p'), mov(b'7'), mov(b'q')];
        lines[1].base = base;
        lines[2].base = 12;
        let answers = [&P[..], &moved(&SEVEN, base), &moved(&Q, 12)].concat();
        gives(&program(&T, &lines, 64), &[0, 0, 0, 11, 0, 19], &answers);
    }
    // The same line from the file's start to the greatest base.
    let lines = BASES.map(|base| Line { base, ..mov(b'p') });
    let rows: Vec<u32> = (0..BASES.len() as u32).flat_map(|i| [0, 11 * i]).collect();
    let answers = BASES.map(|base| moved(&P, base)).concat();
    gives(&program(&T, &lines, answers.len()), &rows, &answers);
}

/// A line whose base is too great takes no words, and those after it are read.
#[test]
fn number_19_is_a_line_s_own() {
    for base in TOO_GREAT {
        let mut lines = [mov(b'p'), mov(b'7'), mov(b'q')];
        lines[1].base = base;
        gives(
            &program(&T, &lines, 22),
            &[0, 0, 19, 11, 0, 11],
            &[P, Q].concat(),
        );
        lines[0].base = base;
        gives(&program(&T, &lines, 22), &[19, 0, 19, 0, 0, 0], &Q);
        lines[2].base = base;
        gives(&program(&T, &lines, 22), &[19, 0, 19, 0, 19, 0], &[]);
        // Its budget is judged before, its room after it.
        lines[1].budget = 0;
        gives(&program(&T, &lines, 0), &[19, 0, 5, 0, 19, 0], &[]);
    }
}

#[test]
fn two_hundred_and_fifty_six_lines() {
    let lines = vec![mov(b'7'); MOST_LINES + 1];
    let rows: Vec<u32> = (0..256).flat_map(|i| [0, 8 * i]).collect();
    let call = program(&T, &lines[1..], 8 * 256);
    gives(&call, &rows, &SEVEN.repeat(256));
    refused(&program(&T, &lines, 8 * 257));
    refused(&program(&table(b";"), &vec![Line::new(b"", &[]); 257], 0));
    // However many they are.
    let mut call = program(&T, &[], 0);
    call.ends = vec![0; 70_000];
    call.budgets = vec![ALL; 70_000];
    call.bases = vec![0; 70_000];
    call.rows = 140_000;
    call.sheets = vec![255; 140_000];
    refused(&call);
}

/// The deepest match takes the most stack, also as a line of a program.
#[test]
fn deepest_line_in_a_small_stack() {
    let deepest = || {
        let line = Line {
            bytes: vec![],
            sheet: vec![0; 2],
            budget: ALL,
            base: 0,
        };
        let lines = [line.clone(), line];
        program(&chain(b"???????", b'?'), &lines, 2 * 461).both()
    };
    let thread = thread::Builder::new().stack_size(256 * 1024);
    let (told, rows, _) = thread.spawn(deepest).unwrap().join().unwrap();
    assert_eq!(told, ProgramAnswer::Read { words: 2 * 461 });
    assert_eq!(rows, [0, 0, 0, 461]);
}

#[test]
fn bad_shapes_are_17() {
    let good = program(&T, &[mov(b'p'), mov(b'7'), mov(b'q')], 64);
    let spoil = |spoil: &dyn Fn(&mut ProgramCall)| {
        let mut call = good.clone();
        spoil(&mut call);
        refused(&call);
    };
    gives(&good, &[0, 0, 0, 11, 0, 19], &[&P[..], &SEVEN, &Q].concat());
    spoil(&|call| call.ends = vec![5, 4, 15]); // ends that fall
    spoil(&|call| call.ends = vec![15, 10, 5]);
    spoil(&|call| call.ends = vec![5, 10, 9]);
    for fallen in [0, 2] {
        // Whatever sheets they have: none for the line that would end before it begins, or two bytes.
        spoil(&|call| {
            call.ends = vec![10, 5, 15];
            call.sheets = vec![255; 242 + fallen + 242];
        });
    }
    spoil(&|call| call.ends = vec![5, 10, 16]); // past the text
    spoil(&|call| call.ends = vec![5, 10, u32::MAX]);
    spoil(&|call| call.ends = vec![5, 16, 15]);
    spoil(&|call| call.ends = vec![5, 1 << 31, 15]);
    spoil(&|call| call.ends = vec![5, 10]); // a line too few
    spoil(&|call| call.ends = vec![5, 10, 15, 15]); // and one too many
    spoil(&|call| call.text.truncate(14));
    spoil(&|call| call.text.clear());
    spoil(&|call| call.sheets.truncate(3 * 72 - 1));
    spoil(&|call| call.sheets.push(255));
    spoil(&|call| call.sheets.truncate(2 * 72));
    spoil(&|call| call.sheets.clear());
    spoil(&|call| call.ends = vec![4, 10, 15]); // right lines, sheets for others
    spoil(&|call| call.budgets.truncate(2));
    spoil(&|call| call.budgets.push(ALL));
    spoil(&|call| call.budgets.clear());
    spoil(&|call| call.bases.truncate(2));
    spoil(&|call| call.bases.push(0));
    spoil(&|call| call.bases.push(u32::MAX));
    spoil(&|call| call.bases.clear());
    spoil(&|call| call.rows = 5);
    spoil(&|call| call.rows = 7);
    spoil(&|call| call.rows = 3);
    spoil(&|call| call.rows = 0);
    // A long line has no sheet, not even the one that it would have.
    let mut long = program(&T, &[Line::new(&[b'a'; 121], &[])], 64);
    gives(&long, &[3, 0], &[]);
    long.sheets = vec![255; 2 * 122 * 122];
    refused(&long);
    let said = ProgramAnswer::BadProgram.to_string();
    assert_eq!(
        said,
        "the program's lines, sheets, budgets, bases or rows are bad"
    );
}

#[test]
fn a_bad_table_is_told_before_17() {
    let good = program(&T, &[mov(b'p')], 64);
    for words in [0, 28] {
        let mut call = good.clone();
        call.table.truncate(words);
        call.refused(2, ProgramAnswer::BadTable);
        call.rows = 1;
        call.ends = vec![9];
        call.sheets.clear();
        call.budgets = vec![ALL; 300];
        call.bases = vec![u32::MAX; 2];
        call.refused(2, ProgramAnswer::BadTable);
    }
    // Also where there is no line.
    program(&[], &[], 0).refused(2, ProgramAnswer::BadTable);
}

/// Only the rows of a call, with the words that it wrote, are read.
#[test]
fn rows_that_no_call_wrote() {
    let lines = [mov(b'p'), Line::new(b"nop", &[]), mov(b'7')];
    let (_, rows, words) = program(&T, &lines, 64).scan();
    assert_eq!(rows, [0, 0, 1, 11, 0, 11]);
    let told: Vec<LineAnswer> = LineAnswers::read(&rows, &words).unwrap().collect();
    let matched = |words| LineAnswer::Matched { words };
    assert_eq!(told, [matched(&P), LineAnswer::NoMatch, matched(&SEVEN)]);
    assert_eq!(told[0].readings().unwrap().count, 4);
    assert_eq!(told[1].readings(), None);
    assert_eq!(told[1].written(), Err(LineAnswer::NoMatch));

    let is_read = |rows: &[u32], words: &[u32]| LineAnswers::read(rows, words).is_some();
    assert!(is_read(&[], &[]));
    assert!(!is_read(&[], &words));
    assert!(!is_read(&rows, &words[..10]));
    assert!(is_read(&[0, 0], &[]), "words are not looked at");
    for bad in [
        [0, 1, 1, 11, 0, 11], // not from 0 on
        [0, 0, 1, 11, 0, 12], // a refused line with a word
        [0, 0, 1, 11, 1, 11], // or with the last words
        [0, 0, 1, 20, 0, 20], // more words than there are
        [0, 0, 1, 11, 0, 10], // fewer than before
        [0, 0, 2, 11, 0, 11], // a number that no line has
        [0, 0, 10, 11, 0, 11],
        [0, 0, 18, 11, 0, 11],
        [0, 0, 20, 11, 0, 11],
        [0, 0, 1, u32::MAX, 0, 11],
    ] {
        assert!(!is_read(&bad, &words), "{bad:?}");
    }
    assert!(!is_read(&rows[..5], &words));
    for number in [1, 3, 4, 5, 6, 7, 8, 9, 19] {
        let row = [number, 0];
        let line = LineAnswers::read(&row, &[]).unwrap().next().unwrap();
        assert_eq!(line.number(), number);
        assert!(!line.to_string().is_empty());
    }
}

/// Two programs joined give the first's rows and the second's, the second's words moved on by the
/// first's, given room.
#[test]
fn programs_joined() {
    let mut random = Random(0x6A09_E667_F3BC_C909);
    for _ in 0..500 {
        let table = random.table();
        let [first, second] = [random.lines(8), random.lines(8)];
        let room = ROOM;
        let joined = program(&table, &[&first[..], &second].concat(), room).scan();
        let [first, second] = [first, second].map(|lines| program(&table, &lines, room).scan());
        let moved = |row: &[u32]| [row[0], row[1] + first.2.len() as u32];
        let rows = second.1.chunks(2).flat_map(moved).collect();
        assert_eq!(joined.1, [first.1, rows].concat());
        assert_eq!(joined.2, [first.2, second.2].concat());
    }
}

/// Room for all that few lines need, by the rules below.
const ROOM: usize = 2_000;

/// Rules out of few characters, so that lines of the same characters have readings.
const RULES: &[&[u8]] = &[
    b"a;ab;?;a?;?+?;\x81;a\x81;\x81+\x81;a \x81;;|a;b;ab;?;",
    b"mov ?;mov \x81;|p;q;",
    b"a;b;ab;a b;?b;aab;aaab;aaa?;ba;B;",
    b"a?,?;a?;a(?);ab?;b\x81,\x81;b\x81;|a;b;(\x81);?;",
    b"\x81\x81;a;|;a;aa;",
    b"\x80a;ab;b;", // left recursion: number 7
    b"",
    b"|a;",
];

impl Random {
    pub fn table(&mut self) -> Vec<u16> {
        table(self.pick(RULES))
    }

    /// A sheet with ends that lie right, and sometimes one that does not.
    fn sheet(&mut self, n: usize) -> Vec<u8> {
        let side = n + 1;
        let mut sheet = vec![255; 2 * side * side];
        for at in 0..sheet.len() {
            let (c, l) = (at / side % side, at % side);
            if c > l {
                sheet[at] = self.pick(&[0, 255, 77]);
            } else if self.one_in(3) {
                sheet[at] = (c + self.below(l - c + 1)) as u8;
            }
        }
        if self.one_in(12) {
            let at = self.below(sheet.len());
            sheet[at] = self.pick(&[0, 1, n as u8 + 1, 254]);
        }
        sheet
    }

    /// Mostly one that a file may have, sometimes a limit, or too great a one.
    fn base(&mut self) -> u32 {
        match self.below(20) {
            0 => self.pick(&TOO_GREAT),
            1..=3 => self.pick(&BASES),
            _ => self.below(1 << 20) as u32,
        }
    }

    pub fn line(&mut self) -> Line {
        let n = match self.below(60) {
            0 => self.pick(&[119, 120, 121, 122, 130]),
            _ => self.below(7),
        };
        let mut bytes: Vec<u8> = (0..n).map(|_| self.pick(b"aaabbAB+, \r()movpq")).collect();
        if n > 0 && self.one_in(15) {
            let at = self.below(n);
            bytes[at] = self.pick(b";\0\x7f\n\r ");
        } else if let Some(b' ' | b'\r') = bytes.last() {
            bytes[n - 1] = b'a';
        }
        let sheet = match sheet_len(n) {
            0 => vec![],
            _ if n > 10 => vec![255; sheet_len(n)],
            _ => self.sheet(n),
        };
        let budget = match self.below(8) {
            0 => self.pick(&[0, 1, 2, 3, 5, 8, 13, ALL + 1, u32::MAX]),
            _ => 1_000,
        };
        Line {
            bytes,
            sheet,
            budget,
            base: self.base(),
        }
    }

    fn lines(&mut self, most: usize) -> Vec<Line> {
        (0..self.below(most + 1)).map(|_| self.line()).collect()
    }

    /// Something changed that may make it a bad program.
    fn spoil(&mut self, call: &mut ProgramCall) {
        let longer = self.one_in(2);
        match self.below(9) {
            0 if !call.ends.is_empty() => {
                let at = self.below(call.ends.len());
                let length = call.text.len() as u32;
                call.ends[at] = match self.below(6) {
                    0 => call.ends[at].wrapping_add(1),
                    1 => call.ends[at].wrapping_sub(1),
                    2 => length,
                    3 => length + 1,
                    4 => 0,
                    _ => self.pick(&[u32::MAX, 1 << 31, 1 << 16]),
                };
            }
            1 if call.ends.len() > 1 => {
                let at = 1 + self.below(call.ends.len() - 1);
                call.ends.swap(at - 1, at);
            }
            2 if longer => call.text.push(b'a'),
            2 => drop(call.text.pop()),
            3 if longer => call.sheets.push(255),
            3 => drop(call.sheets.pop()),
            4 if longer => call.budgets.push(1_000),
            4 => drop(call.budgets.pop()),
            5 if longer => call.rows += 1,
            5 => call.rows = call.rows.saturating_sub(1),
            6 if longer => call.rows += 2,
            6 => drop(call.ends.pop()),
            7 if longer => call.bases.push(0),
            7 => drop(call.bases.pop()),
            _ if self.one_in(2) => drop(call.table.pop()),
            _ => call.table[0] = self.pick(&[0, 33, 1, 2]),
        }
    }
}

#[test]
fn random_programs_like_the_model() {
    let mut random = Random(0xBB67_AE85_84CA_A73B);
    let (mut read, mut refused, mut numbers) = (0, 0, [0; 20]);
    for number in 0..24_000 {
        let table = random.table();
        let most = match number % 2_000 {
            0 => MOST_LINES + 1,
            _ => 6,
        };
        let mut lines = random.lines(most);
        if most > MOST_LINES {
            lines.resize_with(MOST_LINES + number / 2_000 % 2, || random.line());
        }
        let mut call = program(&table, &lines, ROOM);
        // As much as all need, less, about one line's, and more.
        let needed = call.scan().2.len();
        call.room = match random.below(4) {
            0 => needed,
            1 => random.below(needed + 1),
            2 => random.below(40),
            _ => needed + random.below(9),
        };
        if random.one_in(3) {
            random.spoil(&mut call);
        }
        for (told, rows, _) in like_the_model(&call) {
            *(match told {
                ProgramAnswer::Read { .. } => &mut read,
                _ => &mut refused,
            }) += 1;
            for row in rows.chunks(2) {
                numbers[row[0] as usize] += 1;
            }
        }
    }
    assert!(read > 30_000 && refused > 8_000, "{read}, {refused}");
    let seen = [0, 1, 3, 4, 5, 6, 7, 9, 19].map(|number| numbers[number]);
    assert!(seen.iter().all(|times| *times > 500), "{numbers:?}");
}
