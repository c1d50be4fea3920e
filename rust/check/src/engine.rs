//! What is compared: anything that starts searches and calls for readings, that reads and writes tables, that makes tables of word lists,
//! or that writes sheets.
use crate::answer::{Answer, Run, Started};
use crate::query::MOST_CEILING;
use crate::table::Table;
use readings::limits::FACES;

/// What a start is handed, beside the run that it sets.
#[derive(Clone, Copy, Debug)]
pub struct Start<'a> {
    pub table: &'a [u16],
    pub task: u32,
    pub ceiling: u32,
    pub upper: &'a [u8],
    pub lower: &'a [u8],
}

/// What a call for the next reading is handed.
#[derive(Debug)]
pub struct Next<'a> {
    pub table: &'a [u16],
    pub upper: &'a [u8],
    pub lower: &'a [u8],
    pub run: &'a mut Run,
    pub stack: &'a mut [u32],
    pub allowance: u32,
    pub output: &'a mut [u8],
}

impl<'a> Next<'a> {
    /// What the start of its search was handed.
    pub fn start(&self) -> Start<'a> {
        Start {
            table: self.table,
            task: self.run.task,
            ceiling: self.run.ceiling,
            upper: self.upper,
            lower: self.lower,
        }
    }

    /// The same, lent on.
    pub fn lend(&mut self) -> Next<'_> {
        Next {
            run: self.run,
            stack: self.stack,
            output: self.output,
            ..*self
        }
    }
}

/// Starts and calls on a loaded table.
pub trait Engine {
    /// Answers `done` and sets the run, or refuses; refusal 12 shows a cycle.
    fn start(&self, start: Start, run: &mut Run) -> Started;

    /// Goes on with a run until a reading, the end, the allowance or a refusal.
    fn next(&self, call: Next) -> Answer;

    /// What a start with empty words under the highest ceiling tells.
    fn start_empty(&self, table: &Table, task: u32) -> Started {
        let start = Start {
            table: &table.cells(),
            task,
            ceiling: MOST_CEILING,
            upper: &[],
            lower: &[],
        };
        self.start(start, &mut Run::default())
    }
}

/// A table's text read to cells, and cells written as text.
pub trait Texts {
    fn read(&self, text: &[u8], table: &mut [u16]) -> Answer;
    fn write(&self, table: &[u16], text: &mut [u8]) -> Answer;
}

/// The letter tree's table of lent words, each as a length byte and its letters.
pub trait Trees {
    fn tree(&self, words: &[u8], table: &mut [u16]) -> Answer;
}

/// What a sheet is written from.
#[derive(Clone, Copy, Debug)]
pub struct Sheet<'a> {
    /// One after another, each as its length, two bytes with the high one first, and its letters.
    pub readings: &'a [u8],
    /// The characters of letters 1 to 63.
    pub faces: &'a [u8; FACES],
    /// 0 where the run may go on.
    pub ended: u32,
}

/// Sheets of lent readings.
pub trait Sheets {
    fn sheet(&self, sheet: Sheet, destination: &mut [u8]) -> Answer;
}
