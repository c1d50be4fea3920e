//! The six calls of the C interface on memory that the caller lends: plain slices and plain integers in, numbers out.
//! `include/readings.h` says what each does, and what to do after refusals 22 and 23.
//!
//! ```
//! use readings::lending::{self, Run};
//! use readings::{Answer, Task, limits};
//!
//! let text = b"010001000100010002\n020000\n030000\n04000001020000\n04000001030000\n050005\n";
//! let mut table = [0; limits::TABLE_CELLS];
//! let cells = lending::table_read(text, &mut table).done()?;
//! let (table, word) = (&table[..cells], [1]);
//!
//! let mut run = Run::default();
//! lending::start(table, Task::Synthesis as u32, limits::MOST_CEILING, &word, &[], &mut run).done()?;
//!
//! let mut stack = [0; limits::stack_cells(1, 1)];
//! let mut output = [0; limits::output_letters(1, 1)];
//! let reply = lending::next(table, &word, &[], &mut run, &mut stack, 1_000, &mut output);
//! assert_eq!(reply.answer(), Answer::Found { steps: 2, length: 1 });
//! assert_eq!(output, [2]);
//! # Ok::<(), Box<dyn std::error::Error>>(())
//! ```
use crate::limits::{CYCLE_STATES, FACES, MOST_CEILING};
use crate::{Answer, Refusal, StartRefused};

/// The kinds of a reply.
mod kind {
    pub const DONE: u32 = 0;
    pub const FOUND: u32 = 1;
    pub const PAUSED: u32 = 2;
    pub const ENDED: u32 = 3;
    pub const REFUSED: u32 = 4;
}

/// What a call answers. A field that has no meaning for its kind is 0.
#[must_use]
#[repr(C)]
#[derive(Clone, Copy, Debug, Default, PartialEq, Eq)]
pub struct Reply {
    /// 0 done, 1 found, 2 paused, 3 ended, 4 refused.
    pub kind: u32,
    /// The refusal's number.
    pub number: u32,
    /// The steps made in this call.
    pub steps: u32,
    /// Cells of a table, bytes of a text or a sheet, states of a cycle or letters of a reading.
    pub length: u32,
}

/// What a start answers. With refusal 12 the states of the cycle of [`StartRefused::cycle`], as many as the answer's length tells, then
/// zeros; else all zeros.
#[must_use]
#[repr(C)]
#[derive(Clone, Copy, Debug, PartialEq, Eq)]
pub struct StartReply {
    /// The answer.
    pub answer: Reply,
    /// The cycle's states, then zeros.
    pub cycle: [u16; CYCLE_STATES],
}

/// The caller's record of a search; a run of zeros belongs to none. A copy of it, with a copy of the used frames, is a place to come
/// back to.
#[repr(C)]
#[derive(Clone, Copy, Debug, Default, PartialEq, Eq)]
pub struct Run {
    /// The task's number.
    pub task: u32,
    /// How many initial states are started.
    pub started: u32,
    /// How many frames of the stack are in use.
    pub depth: u32,
    /// The highest sum of penalties that a path may have.
    pub ceiling: u32,
}

impl Run {
    /// What a start of a task that passes sets under [`MOST_CEILING`].
    pub const fn of(task: u32) -> Run {
        Run::under(task, MOST_CEILING)
    }

    /// What a start of a task that passes sets under a ceiling.
    pub const fn under(task: u32, ceiling: u32) -> Run {
        Run {
            task,
            started: 0,
            depth: 0,
            ceiling,
        }
    }
}

impl Reply {
    fn refusal(self) -> Option<Refusal> {
        let is_refused = self.kind == kind::REFUSED;
        is_refused.then(|| Refusal::of(self.number).expect("a refusal's number"))
    }

    /// The answer of [`table_read`], [`words_read`], [`table_write`] or [`sheet_write`]: how many cells or bytes were written. Panics
    /// on a reply of [`next`] that was not refused.
    pub fn done(self) -> Result<usize, Refusal> {
        match self.kind {
            kind::DONE => Ok(self.length as usize),
            _ => Err(self.refusal().expect("a reply of another call than `next`")),
        }
    }

    /// The answer of [`next`]. Panics on a reply of another call that was done.
    pub fn answer(self) -> Answer {
        let steps = self.steps;
        match self.kind {
            kind::FOUND => Answer::Found {
                steps,
                length: self.length as usize,
            },
            kind::PAUSED => Answer::Paused { steps },
            kind::ENDED => Answer::Ended { steps },
            _ => Answer::Refused {
                steps,
                refusal: self.refusal().expect("a reply of `next`"),
            },
        }
    }
}

impl StartReply {
    /// The answer of [`start`].
    pub fn done(&self) -> Result<(), StartRefused> {
        let cycle = &self.cycle[..self.answer.length as usize];
        self.answer
            .done()
            .map(drop)
            .map_err(|refusal| StartRefused {
                refusal,
                cycle: cycle.to_vec(),
            })
    }
}

/// The C functions. Pointers are not null, also where a length is 0, and point to aligned memory of that many elements.
mod raw {
    use super::{FACES, Reply, Run, StartReply};

    unsafe extern "C" {
        pub fn rd_table_read(text: *const u8, n: usize, table: *mut u16, m: usize) -> Reply;

        pub fn rd_words_read(words: *const u8, n: usize, table: *mut u16, m: usize) -> Reply;

        pub fn rd_table_write(table: *const u16, n: usize, text: *mut u8, m: usize) -> Reply;

        pub fn rd_start(
            table: *const u16,
            n: usize,
            task: u32,
            ceiling: u32,
            upper: *const u8,
            u: usize,
            lower: *const u8,
            l: usize,
            run: *mut Run,
        ) -> StartReply;

        pub fn rd_next(
            table: *const u16,
            n: usize,
            upper: *const u8,
            u: usize,
            lower: *const u8,
            l: usize,
            run: *mut Run,
            stack: *mut u32,
            s: usize,
            allowance: u32,
            output: *mut u8,
            o: usize,
        ) -> Reply;

        pub fn rd_sheet_write(
            readings: *const u8,
            n: usize,
            faces: *const [u8; FACES],
            ended: u32,
            sheet: *mut u8,
            m: usize,
        ) -> Reply;
    }
}

/// Reads a table's text into cells.
pub fn table_read(text: &[u8], table: &mut [u16]) -> Reply {
    // SAFETY: each pointer is of a slice that lives through the call, with its length; what is written is borrowed alone.
    unsafe { raw::rd_table_read(text.as_ptr(), text.len(), table.as_mut_ptr(), table.len()) }
}

/// Reads a list of words, each as a length byte and its letters, into the cells of its letter tree's table.
/// [`TREE_CELLS`](crate::limits::TREE_CELLS) cells are enough for every list. The first word that is refused decides (30, 31, 32), then
/// the destination (24).
///
/// ```
/// use readings::{Refusal, lending, limits};
///
/// let mut table = [0; limits::TREE_CELLS];
/// let cells = lending::words_read(&[1, 5, 2, 5, 9], &mut table).done()?; // the words 05 and 05 09
/// assert_eq!(cells, limits::table_cells(1, 2, 4));
/// let refused = lending::words_read(&[2, 5, 9, 1, 5], &mut table).done();
/// assert_eq!(refused, Err(Refusal::WordOrder));
/// # Ok::<(), Refusal>(())
/// ```
pub fn words_read(words: &[u8], table: &mut [u16]) -> Reply {
    // SAFETY: as in `table_read`.
    unsafe { raw::rd_words_read(words.as_ptr(), words.len(), table.as_mut_ptr(), table.len()) }
}

/// Writes the text of a loaded table.
pub fn table_write(table: &[u16], text: &mut [u8]) -> Reply {
    // SAFETY: as in `table_read`.
    unsafe { raw::rd_table_write(table.as_ptr(), table.len(), text.as_mut_ptr(), text.len()) }
}

/// Begins a search and sets the run, or refuses and leaves it. The task and the ceiling may be any numbers.
pub fn start(
    table: &[u16],
    task: u32,
    ceiling: u32,
    upper: &[u8],
    lower: &[u8],
    run: &mut Run,
) -> StartReply {
    // SAFETY: as in `table_read`; the run is a record of its own with the layout of C.
    unsafe {
        raw::rd_start(
            table.as_ptr(),
            table.len(),
            task,
            ceiling,
            upper.as_ptr(),
            upper.len(),
            lower.as_ptr(),
            lower.len(),
            run,
        )
    }
}

/// Goes on with a search, for at most `allowance` steps, to the next reading. A stack has [`FRAME_CELLS`](crate::limits::FRAME_CELLS)
/// cells a frame.
pub fn next(
    table: &[u16],
    upper: &[u8],
    lower: &[u8],
    run: &mut Run,
    stack: &mut [u32],
    allowance: u32,
    output: &mut [u8],
) -> Reply {
    // SAFETY: as in `start`; run, stack and output are each borrowed alone.
    unsafe {
        raw::rd_next(
            table.as_ptr(),
            table.len(),
            upper.as_ptr(),
            upper.len(),
            lower.as_ptr(),
            lower.len(),
            run,
            stack.as_mut_ptr(),
            stack.len(),
            allowance,
            output.as_mut_ptr(),
            output.len(),
        )
    }
}

/// Writes the answer sheet of readings that stand one after another, each as its length, two bytes with the high one first, and its
/// letters. The last line is `MORE` where `ended` is 0, else `END`.
pub fn sheet_write(readings: &[u8], faces: &[u8; FACES], ended: u32, sheet: &mut [u8]) -> Reply {
    // SAFETY: as in `table_read`; the faces are as many as the call reads.
    unsafe {
        raw::rd_sheet_write(
            readings.as_ptr(),
            readings.len(),
            faces,
            ended,
            sheet.as_mut_ptr(),
            sheet.len(),
        )
    }
}
