//! Calls on memory that is watched: what is lent to be read must stay, and so must the buffer after
//! what was written, and what stands around each.

use std::fmt::Debug;
use tholdrimash::{
    fill_sheet, lookup_line, lookup_program, match_line, match_program, read_table, select,
    write_table, Answer, FillAnswer, Pass, Program, ProgramAnswer, ReadAnswer, Selection,
    WriteAnswer,
};

/// Stands around what is lent, and in every place of a buffer.
const FILLER: u16 = 0xA5C3;

/// The same for words of 32 bits. Each half of it differs from what answers hold.
const WIDE_FILLER: u32 = 0xA5C3_5A3C;

const AROUND: usize = 8;

/// What a call is lent, with filler around it.
struct Lent<T> {
    all: Vec<T>,
    before: Vec<T>,
}

impl<T: Copy + Debug + PartialEq> Lent<T> {
    fn new(given: &[T], filler: T) -> Lent<T> {
        let around = [filler; AROUND];
        let all = [&around, given, &around].concat();
        let before = all.clone();
        Lent { all, before }
    }

    fn given(&mut self) -> &mut [T] {
        let end = self.all.len() - AROUND;
        &mut self.all[AROUND..end]
    }

    /// The first places, having seen that nothing else has changed.
    fn changed(self, places: usize) -> Vec<T> {
        let end = AROUND + places;
        assert_eq!(self.all[..AROUND], self.before[..AROUND], "before them");
        assert_eq!(self.all[end..], self.before[end..], "after the words");
        self.all[AROUND..end].to_vec()
    }

    fn unchanged(self) {
        assert_eq!(self.all, self.before);
    }
}

fn buffer(room: usize) -> Lent<u16> {
    Lent::new(&vec![FILLER; room], FILLER)
}

fn answer_buffer(room: usize) -> Lent<u32> {
    Lent::new(&vec![WIDE_FILLER; room], WIDE_FILLER)
}

type Function = fn(&[u16], &[u8], &[u8], u32, u32, &mut [u32]) -> Answer;

/// What matching is given.
#[derive(Clone, Copy)]
pub struct Call<'a> {
    pub table: &'a [u16],
    pub line: &'a [u8],
    pub sheet: &'a [u8],
    pub budget: u32,
    pub base: u32,
    pub room: usize,
}

impl Call<'_> {
    pub fn scan(self) -> (Answer, Vec<u32>) {
        self.by(match_line)
    }

    pub fn lookup(self) -> (Answer, Vec<u32>) {
        self.by(lookup_line)
    }

    /// The answer and the words written.
    fn by(self, function: Function) -> (Answer, Vec<u32>) {
        let mut table = Lent::new(self.table, FILLER);
        let mut line = Lent::new(self.line, 0xA5);
        let mut sheet = Lent::new(self.sheet, 0xA5);
        let mut answer = answer_buffer(self.room);
        let told = function(
            table.given(),
            line.given(),
            sheet.given(),
            self.budget,
            self.base,
            answer.given(),
        );
        table.unchanged();
        line.unchanged();
        sheet.unchanged();
        (told, answer.changed(told.written().unwrap_or(0)))
    }

    /// What scan and lookup both give.
    pub fn both(self) -> (Answer, Vec<u32>) {
        let told = self.scan();
        assert_eq!(told, self.lookup(), "scan and lookup");
        told
    }

    /// Both give this refusal, by this number.
    pub fn refused(self, number: u32, refusal: Answer) {
        assert_eq!(self.both(), (refusal, vec![]));
        assert_eq!(refusal.number(), number);
        assert_eq!(refusal.written(), Err(refusal));
    }
}

/// What a program call is given. It lends so many words for rows, which should be two a line.
#[derive(Clone, Debug)]
pub struct ProgramCall {
    pub table: Vec<u16>,
    pub text: Vec<u8>,
    pub ends: Vec<u32>,
    pub sheets: Vec<u8>,
    pub budgets: Vec<u32>,
    pub bases: Vec<u32>,
    pub rows: usize,
    pub room: usize,
}

/// What a program call gives: the answer, the rows and the answer words written.
pub type ProgramTold = (ProgramAnswer, Vec<u32>, Vec<u32>);

type ProgramFunction = fn(&[u16], Program<'_>, &mut [u32], &mut [u32]) -> ProgramAnswer;

impl ProgramCall {
    pub fn scan(&self) -> ProgramTold {
        self.by(match_program)
    }

    pub fn lookup(&self) -> ProgramTold {
        self.by(lookup_program)
    }

    fn by(&self, function: ProgramFunction) -> ProgramTold {
        let mut table = Lent::new(&self.table, FILLER);
        let mut text = Lent::new(&self.text, 0xA5);
        let mut ends = Lent::new(&self.ends, u32::MAX);
        let mut sheets = Lent::new(&self.sheets, 0xA5);
        let mut budgets = Lent::new(&self.budgets, u32::MAX);
        let mut bases = Lent::new(&self.bases, u32::MAX);
        let mut rows = Lent::new(&vec![u32::MAX; self.rows], u32::MAX);
        let mut answers = answer_buffer(self.room);
        let program = Program {
            text: text.given(),
            ends: ends.given(),
            sheets: sheets.given(),
            budgets: budgets.given(),
            bases: bases.given(),
        };
        let told = function(table.given(), program, rows.given(), answers.given());
        table.unchanged();
        text.unchanged();
        ends.unchanged();
        sheets.unchanged();
        budgets.unchanged();
        bases.unchanged();
        let written = told.written();
        let rows = rows.changed(if written.is_ok() { self.rows } else { 0 });
        (told, rows, answers.changed(written.unwrap_or(0)))
    }

    /// What scan and lookup both give.
    pub fn both(&self) -> ProgramTold {
        let told = self.scan();
        assert_eq!(told, self.lookup(), "scan and lookup");
        told
    }

    /// Both give this refusal, by this number, and write nothing.
    pub fn refused(&self, number: u32, refusal: ProgramAnswer) {
        assert_eq!(self.both(), (refusal, vec![], vec![]));
        assert_eq!(refusal.number(), number);
        assert_eq!(refusal.written(), Err(refusal));
    }
}

/// A sheet of so many bytes filled from a line: the answer and the bytes written.
pub fn fill(line: &[u8], room: usize) -> (FillAnswer, Vec<u8>) {
    let mut line = Lent::new(line, 0xA5);
    let mut sheet = Lent::new(&vec![0xA5; room], 0xA5);
    let told = fill_sheet(line.given(), sheet.given());
    line.unchanged();
    (told, sheet.changed(told.written().unwrap_or(0)))
}

/// A selection: the answer, the outcomes after it and the indices written.
pub fn selected(outcomes: &[u32], pass: Pass, room: usize) -> (Selection, Vec<u32>, Vec<u16>) {
    let mut words = Lent::new(outcomes, u32::MAX);
    let mut chosen = buffer(room);
    let told = select(words.given(), pass, chosen.given());
    let written = chosen.changed(told.written().unwrap_or(0));
    (told, words.changed(outcomes.len()), written)
}

/// A table read from text: the answer and the words written.
pub fn read(text: &[u8], room: usize) -> (ReadAnswer, Vec<u16>) {
    let mut text = Lent::new(text, 0xA5);
    let mut table = buffer(room);
    let told = read_table(text.given(), table.given());
    text.unchanged();
    (told, table.changed(told.written().unwrap_or(0)))
}

/// A table written as text: the answer and the bytes written.
pub fn write(table: &[u16], room: usize) -> (WriteAnswer, Vec<u8>) {
    let mut table = Lent::new(table, FILLER);
    let mut text = Lent::new(&vec![0xA5; room], 0xA5);
    let told = write_table(table.given(), text.given());
    table.unchanged();
    (told, text.changed(told.written().unwrap_or(0)))
}
