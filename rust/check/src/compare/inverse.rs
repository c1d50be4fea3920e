//! Starts, calls and writes on a table beside those of the exchanged task on its inverse, with the words exchanged: both must answer and
//! leave the same.
use super::same;
use crate::answer::{Answer, Run, Started};
use crate::engine::{Engine, Next, Start, Texts};
use crate::query;
use readings::limits::{ARC_CELLS, FRAME_CELLS, INITIALS_AT};
use std::cell::RefCell;

/// The seed of the series of searches.
pub const SEARCHES: u64 = 0x1F7E47;

/// The cells of the inverse table, also where the table breaks rules: the letters of each arc exchanged, as far as there are cells.
pub fn cells(table: &[u16]) -> Vec<u16> {
    let mut cells = table.to_vec();
    if let Some(&[_, initials, terminals, arcs]) = table.first_chunk() {
        let at = INITIALS_AT + usize::from(initials) + usize::from(terminals);
        let behind = cells.get_mut(at..).unwrap_or_default();
        let rows = behind.chunks_exact_mut(ARC_CELLS).take(arcs.into());
        rows.for_each(|row| row.swap(1, 2));
    }
    cells
}

/// A run of the exchanged task.
fn exchanged(run: Run) -> Run {
    Run {
        task: query::inverse(run.task),
        ..run
    }
}

/// A stack with the letters passed above and below exchanged in each frame.
fn turned(stack: &[u32]) -> Vec<u32> {
    let mut stack = stack.to_vec();
    let frames = stack.chunks_exact_mut(FRAME_CELLS);
    frames.for_each(|frame| frame.swap(2, 3));
    stack
}

/// An engine that is asked about the other table as well each time: it answers for the one, and keeps the first difference. A call on the
/// other goes on from where the one was, exchanged; what a call before it left was the same.
pub struct Beside<'a, E, T> {
    engine: &'a E,
    other: T,
    agreed: RefCell<Result<(), String>>,
}

/// Puts a case to tables, each beside what is made of its cells. A difference between the two is told before one from the model.
pub fn compare<E, T: Fn(&[u16]) -> Vec<u16>>(
    engine: &E,
    other: T,
    case: impl FnOnce(&Beside<E, T>) -> Result<(), String>,
) -> Result<(), String> {
    let both = Beside {
        engine,
        other,
        agreed: RefCell::new(Ok(())),
    };
    let told = case(&both);
    both.agreed.into_inner().and(told)
}

impl<E, T> Beside<'_, E, T> {
    fn keep(&self, compare: impl FnOnce() -> Result<(), String>) {
        let mut agreed = self.agreed.borrow_mut();
        if agreed.is_ok() {
            *agreed = compare();
        }
    }
}

impl<E: Engine, T: Fn(&[u16]) -> Vec<u16>> Engine for Beside<'_, E, T> {
    fn start(&self, start: Start, run: &mut Run) -> Started {
        let mut other_run = exchanged(*run);
        let other = Start {
            table: &(self.other)(start.table),
            task: query::inverse(start.task),
            ceiling: start.ceiling,
            upper: start.lower,
            lower: start.upper,
        };
        let other = self.engine.start(other, &mut other_run);
        let started = self.engine.start(start, run);
        self.keep(|| {
            same("other start", other, started)?;
            same("run of the other start", exchanged(other_run), *run)
        });
        started
    }

    fn next(&self, mut call: Next) -> Answer {
        let mut run = exchanged(*call.run);
        let mut stack = turned(call.stack);
        let mut output = call.output.to_vec();
        let other = self.engine.next(Next {
            table: &(self.other)(call.table),
            upper: call.lower,
            lower: call.upper,
            run: &mut run,
            stack: &mut stack,
            allowance: call.allowance,
            output: &mut output,
        });
        let answer = self.engine.next(call.lend());
        self.keep(|| {
            same("other answer", other, answer)?;
            same("other run", exchanged(run), *call.run)?;
            same("other stack", &turned(&stack)[..], &call.stack[..])?;
            same("other output", &output[..], &call.output[..])
        });
        answer
    }
}

impl<E: Texts, T: Fn(&[u16]) -> Vec<u16>> Texts for Beside<'_, E, T> {
    fn read(&self, text: &[u8], table: &mut [u16]) -> Answer {
        self.engine.read(text, table)
    }

    /// Only the answers are compared: the texts differ in their letters.
    fn write(&self, table: &[u16], text: &mut [u8]) -> Answer {
        let mut other_text = text.to_vec();
        let other = self.engine.write(&(self.other)(table), &mut other_text);
        let answer = self.engine.write(table, text);
        self.keep(|| same("other text", other, answer));
        answer
    }
}
