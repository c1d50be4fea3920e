//! What a start and a call must answer on anything that they are handed: the refusals in order, then the rule for one step.
//! Plain and slow, on structs and vectors, after the specification's list of refusals and its rule for one step.
use crate::answer::{Answer, Run, Started};
use crate::engine::{Engine, Next, Sheet, Sheets, Start, Texts, Trees};
use crate::idle;
use crate::query;
use crate::sheet;
use crate::table::{self, Arc, Table};
use crate::text;
use crate::words;
use readings::limits::FRAME_CELLS;
use std::ops::Range;

/// No more frames of a stack are used.
const MOST_FRAMES: usize = 33_024;

#[derive(Clone, Copy, Debug, PartialEq, Eq)]
struct Frame {
    state: u32,
    next: u32,
    upper: u32,
    lower: u32,
    sum: u32,
}

/// A search on a good table, task and words.
struct Search<'a> {
    table: Table,
    upper: &'a [u8],
    lower: &'a [u8],
    reads_upper: bool,
    reads_lower: bool,
    ceiling: u32,
}

/// A step that was made, with the reading if it found one, or the refusal that keeps it from being made.
type Made = Result<Option<Vec<u8>>, u32>;

/// Where the cells of a frame stand.
fn place(i: usize) -> Range<usize> {
    FRAME_CELLS * i..FRAME_CELLS * (i + 1)
}

fn frame_at(stack: &[u32], i: usize) -> Frame {
    let cells = &stack[place(i)];
    Frame {
        state: cells[0],
        next: cells[1],
        upper: cells[2],
        lower: cells[3],
        sum: cells[4],
    }
}

fn put_frame(stack: &mut [u32], i: usize, frame: Frame) {
    let cells = [frame.state, frame.next, frame.upper, frame.lower, frame.sum];
    stack[place(i)].copy_from_slice(&cells);
}

/// How many letters of a side are passed after an arc's letter; none where it does not fit.
fn passed(read: bool, word: &[u8], letter: u16, before: u32) -> Option<u32> {
    if letter == 0 {
        return Some(before);
    }
    let fits = !read || word.get(before as usize).map(|x| u16::from(*x)) == Some(letter);
    fits.then(|| before + 1)
}

impl<'a> Search<'a> {
    /// 20, 11, 10, 39.
    fn ask(start: Start<'a>) -> Result<Search<'a>, u32> {
        let table = Table::loaded(start.table).ok_or(20u32)?;
        if let Some(number) = query::fault(start.task, start.ceiling, start.upper, start.lower) {
            return Err(number);
        }
        let (reads_upper, reads_lower) = query::sides(start.task).ok_or(11u32)?;
        Ok(Search {
            table,
            upper: start.upper,
            lower: start.lower,
            reads_upper,
            reads_lower,
            ceiling: start.ceiling,
        })
    }

    /// The numbers of a state's first arc and of the one after its last.
    fn arcs_of(&self, state: u32) -> (u32, u32) {
        let first = self.table.first_arc(state as u16);
        let count = self.table.arcs_of(state as u16).len();
        (first as u32, (first + count) as u32)
    }

    fn new_frame(&self, state: u16, upper: u32, lower: u32, sum: u32) -> Frame {
        Frame {
            state: state.into(),
            next: self.arcs_of(state.into()).0,
            upper,
            lower,
            sum,
        }
    }

    /// An arc as it reads after a frame: with the next letter, if it has a class; none where that is not in the class.
    fn as_read(&self, frame: Frame, arc: Arc) -> Option<Arc> {
        let Some(class) = table::class(&self.table.classes, arc.upper) else {
            return Some(arc);
        };
        let (word, at) = if self.reads_upper {
            (self.upper, frame.upper)
        } else {
            (self.lower, frame.lower)
        };
        let letter = u16::from(*word.get(at as usize)?);
        class.contains(&letter).then(|| arc.with_letter(letter))
    }

    /// The frame that an arc makes by fitting, by its letters and under the ceiling. No sum is wrapped, whatever a frame that was handed
    /// over holds.
    fn follow(&self, frame: Frame, arc: Arc) -> Option<Frame> {
        let arc = self.as_read(frame, arc)?;
        let sum = frame.sum.checked_add(arc.penalty.into())?;
        if sum > self.ceiling {
            return None;
        }
        let upper = passed(self.reads_upper, self.upper, arc.upper, frame.upper)?;
        let lower = passed(self.reads_lower, self.lower, arc.lower, frame.lower)?;
        Some(self.new_frame(arc.target, upper, lower, sum))
    }

    /// A next arc inside its state's arcs, or one past the last.
    fn next_holds(&self, frame: Frame) -> bool {
        let (first, end) = self.arcs_of(frame.state);
        (first..=end).contains(&frame.next)
    }

    /// A frame above another is what the arc just tried below makes; its own next arc may have moved on.
    fn link_holds(&self, below: Frame, above: Frame) -> bool {
        if below.next == self.arcs_of(below.state).0 {
            return false; // no arc was tried
        }
        let arc = self.table.arcs[below.next as usize - 1];
        let Some(made) = self.follow(below, arc) else {
            return false;
        };
        let made_above = Frame {
            next: above.next,
            ..made
        };
        made_above == above
    }

    /// The run and its used frames are a place in a search (else 21).
    fn place_holds(&self, run: Run, stack: &[u32]) -> bool {
        let (started, depth) = (run.started as usize, run.depth as usize);
        if started > self.table.initials.len()
            || depth > stack.len() / FRAME_CELLS
            || depth > MOST_FRAMES
        {
            return false;
        }
        if depth == 0 {
            return true;
        }
        if started == 0 {
            return false;
        }
        let frames: Vec<Frame> = (0..depth).map(|i| frame_at(stack, i)).collect();
        let state = u32::from(self.table.initials[started - 1]);
        let bottom = frames[0];
        let new = (bottom.state, bottom.upper, bottom.lower, bottom.sum) == (state, 0, 0, 0);
        if !new || !self.next_holds(bottom) {
            return false;
        }
        let mut pairs = frames.windows(2);
        pairs.all(|pair| self.link_holds(pair[0], pair[1]) && self.next_holds(pair[1]))
    }

    fn is_over(&self, run: Run) -> bool {
        run.depth == 0 && run.started as usize == self.table.initials.len()
    }

    fn accepts(&self, frame: Frame) -> bool {
        self.table.is_terminal(frame.state as u16)
            && (!self.reads_upper || frame.upper as usize == self.upper.len())
            && (!self.reads_lower || frame.lower as usize == self.lower.len())
    }

    /// The letters that the arcs of a path write.
    fn output(&self, path: &[Arc]) -> Vec<u8> {
        let written = path
            .iter()
            .map(|arc| match (self.reads_upper, self.reads_lower) {
                (true, false) => arc.lower,
                (false, true) => arc.upper,
                _ => 0,
            });
        let letters = written.filter(|letter| *letter != 0);
        letters.map(|letter| letter as u8).collect()
    }

    /// A frame put on top: 22, then 23 where its path accepts. `path` holds the path's arcs.
    fn push(&self, run: Run, stack: &[u32], frame: Frame, path: &[Arc], room: usize) -> Made {
        let depth = run.depth as usize;
        if depth == MOST_FRAMES || depth == stack.len() / FRAME_CELLS {
            return Err(22);
        }
        if !self.accepts(frame) {
            return Ok(None);
        }
        let output = self.output(path);
        if output.len() > room {
            return Err(23);
        }
        Ok(Some(output))
    }

    /// The arcs just tried in the used frames, as they read: the path to the top frame's last tried arc.
    fn tried(&self, run: Run, stack: &[u32]) -> Vec<Arc> {
        let frames = (0..run.depth as usize).map(|i| frame_at(stack, i));
        let arcs = frames.map(|f| self.as_read(f, self.table.arcs[f.next as usize - 1]));
        arcs.map(|arc| arc.expect("an arc that fits")).collect()
    }

    /// One step, where the end is not reached.
    fn step(&self, run: &mut Run, stack: &mut [u32], room: usize) -> Made {
        if run.depth == 0 {
            let frame = self.new_frame(self.table.initials[run.started as usize], 0, 0, 0);
            let made = self.push(*run, stack, frame, &[], room)?;
            put_frame(stack, 0, frame);
            run.started += 1;
            run.depth = 1;
            return Ok(made);
        }
        let top = run.depth as usize - 1;
        let frame = frame_at(stack, top);
        if frame.next == self.arcs_of(frame.state).1 {
            run.depth -= 1;
            return Ok(None);
        }
        let counted = Frame {
            next: frame.next + 1,
            ..frame
        };
        let arc = self.table.arcs[frame.next as usize];
        let Some(longer) = self.follow(frame, arc) else {
            put_frame(stack, top, counted);
            return Ok(None);
        };
        let path = if self.accepts(longer) {
            let below = Run {
                depth: run.depth - 1,
                ..*run
            };
            let mut path = self.tried(below, stack);
            path.extend(self.as_read(frame, arc));
            path
        } else {
            Vec::new()
        };
        let made = self.push(*run, stack, longer, &path, room)?;
        put_frame(stack, top, counted);
        put_frame(stack, top + 1, longer);
        run.depth += 1;
        Ok(made)
    }

    /// The steps of a call: the end is looked for before the allowance, the allowance before a step.
    fn go(&self, run: &mut Run, stack: &mut [u32], allowance: u32, output: &mut [u8]) -> Answer {
        let mut steps = 0;
        loop {
            if self.is_over(*run) {
                return Answer::ended(steps);
            }
            if steps == allowance {
                return Answer::paused(steps);
            }
            match self.step(run, stack, output.len()) {
                Err(number) => return Answer::refused(number, steps),
                Ok(None) => steps += 1,
                Ok(Some(reading)) => {
                    output[..reading.len()].copy_from_slice(&reading);
                    return Answer::found(steps + 1, reading.len());
                }
            }
        }
    }
}

/// The model.
#[derive(Clone, Copy, Debug)]
pub struct Model;

impl Engine for Model {
    fn start(&self, start: Start, run: &mut Run) -> Started {
        let search = match Search::ask(start) {
            Ok(search) => search,
            Err(number) => return Started::bare(Answer::refused(number, 0)),
        };
        if let Some(cycle) = idle::shown(&search.table, start.task) {
            return Started::with_cycle(&cycle);
        }
        *run = Run::under(start.task, start.ceiling);
        Started::bare(Answer::done(0))
    }

    fn next(&self, call: Next) -> Answer {
        match Search::ask(call.start()) {
            Err(number) => Answer::refused(number, 0),
            Ok(search) if !search.place_holds(*call.run, call.stack) => Answer::refused(21, 0),
            Ok(search) => search.go(call.run, call.stack, call.allowance, call.output),
        }
    }
}

impl Texts for Model {
    fn read(&self, text: &[u8], table: &mut [u16]) -> Answer {
        text::read(text, table)
    }

    fn write(&self, table: &[u16], text: &mut [u8]) -> Answer {
        text::write(table, text)
    }
}

impl Trees for Model {
    fn tree(&self, words: &[u8], table: &mut [u16]) -> Answer {
        words::read(words, table)
    }
}

impl Sheets for Model {
    fn sheet(&self, sheet: Sheet, destination: &mut [u8]) -> Answer {
        sheet::write(sheet, destination)
    }
}
