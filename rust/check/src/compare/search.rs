//! A start and the list of calls after it, on one run: every call against the model, and the list as a whole against the lister.
use super::call::{self, Call};
use super::start::{self, Start};
use super::tally::Tally;
use crate::answer::{Answer, ENDED, FOUND, Run};
use crate::draw::{self, Asked};
use crate::engine::Engine;
use crate::lister::{self, Listing};
use crate::random::Random;
use crate::table::Table;
use readings::limits::FRAME_CELLS;

/// Entries of a traversal that are listed at most.
const LISTED: u64 = 4_000;

/// More letters than a reading of such a search has.
const LONG: usize = 4_096;

/// A search under way, with what was received so far.
struct Way {
    cells: Vec<u16>,
    upper: Vec<u8>,
    lower: Vec<u8>,
    listing: Listing,
    enough: usize,
    run: Run,
    /// The used frames as the last call left them.
    frames: Vec<u32>,
    steps: u64,
    readings: Vec<Vec<u8>>,
}

/// What a call is lent.
#[derive(Clone, Copy)]
struct Loan {
    cells: usize,
    allowance: u32,
    letters: usize,
}

fn begin(
    engine: &impl Engine,
    table: &Table,
    task: u32,
    asked: Asked,
    tally: &mut Tally,
) -> Result<Option<Way>, String> {
    let start = Start::of(table, task, asked);
    let (answer, run) = start::compare(engine, &start)?;
    tally.add_start(&start, answer);
    let Start {
        ceiling,
        upper,
        lower,
        ..
    } = start;
    Ok((!answer.is_refused()).then(|| Way {
        cells: start.table,
        listing: lister::list_under(table, task, ceiling, &upper, &lower, LISTED),
        enough: lister::enough_frames(table, &upper, &lower),
        upper,
        lower,
        run,
        frames: Vec::new(),
        steps: 0,
        readings: Vec::new(),
    }))
}

impl Way {
    /// A stack of so many cells: the used frames, if it has that many, and anything above them.
    fn stack(&self, cells: usize, random: &mut Random) -> Vec<u32> {
        let mut stack: Vec<u32> = (0..cells).map(|_| random.below(5) as u32).collect();
        if cells >= self.frames.len() {
            stack[..self.frames.len()].copy_from_slice(&self.frames);
        }
        stack
    }

    /// One call on the run, compared, and the list of calls up to it.
    fn call(
        &mut self,
        engine: &impl Engine,
        loan: Loan,
        random: &mut Random,
    ) -> Result<Answer, String> {
        let mut call = Call {
            table: self.cells.clone(),
            upper: self.upper.clone(),
            lower: self.lower.clone(),
            run: self.run,
            stack: self.stack(loan.cells, random),
            allowance: loan.allowance,
            output: vec![0xEE; loan.letters],
        };
        let answer = call::compare(engine, &mut call)?;
        self.check(answer, loan, &call)
            .map_err(|difference| format!("{difference}, at the call that left {call:?}"))?;
        Ok(answer)
    }

    /// The readings received are those among the first entries, as many as the steps told; the end is told exactly at the tree's
    /// size; enough frames are never too few, and 21 comes exactly with fewer frames than are used.
    fn check(&mut self, answer: Answer, loan: Loan, call: &Call) -> Result<(), String> {
        let frames = loan.cells / FRAME_CELLS;
        let short = frames < self.run.depth as usize;
        if (answer.number == 21) != short {
            return Err(format!("{answer:?} at a place in the search"));
        }
        if answer.number == 22 && frames >= self.enough {
            return Err("22 with enough frames".to_string());
        }
        self.run = call.run;
        if !short {
            self.frames = call.stack[..FRAME_CELLS * self.run.depth as usize].to_vec();
        }
        self.steps += u64::from(answer.steps);
        if answer.kind == FOUND {
            self.readings
                .push(call.output[..answer.length as usize].to_vec());
        }
        let told = self.listing.readings.iter();
        let due = told
            .take_while(|r| r.step <= self.steps)
            .map(|r| &r.letters);
        if !due.eq(&self.readings) {
            return Err(format!("after {} steps {:?}", self.steps, self.readings));
        }
        let over = self.listing.whole && self.steps == self.listing.size;
        if (answer.kind == ENDED) != over {
            return Err(format!("{answer:?} after {} steps", self.steps));
        }
        Ok(())
    }

    /// The steps that the lister followed and no call has made yet.
    fn left(&self) -> u64 {
        self.listing.size - self.steps
    }

    /// Any allowance, as far as the lister went.
    fn allowance(&self, random: &mut Random) -> u32 {
        let some = match random.below(8) {
            0 => 0,
            1 | 2 => 1,
            3 => random.within(2, 9) as u32,
            4 => random.within(10, 99) as u32,
            5 => self.left() as u32, // what the end takes exactly
            6 => 1_000,
            _ => u32::MAX,
        };
        if self.listing.whole {
            some
        } else {
            some.min(self.left() as u32)
        }
    }

    /// Any loan: no frame, few, one more or less than used, enough, left-over cells; a buffer too short, or long.
    fn loan(&self, random: &mut Random) -> Loan {
        let depth = self.run.depth as usize;
        let frames = match random.below(8) {
            0 => random.below(4),
            1 => depth.saturating_sub(1),
            2 => depth,
            3 | 4 => depth + random.within(1, 3),
            5 => random.below(self.enough.min(300) + 1),
            6 => self.enough,
            _ => self.enough + random.below(3),
        };
        let letters = match random.below(4) {
            0 => random.below(3),
            1 => random.below(8),
            _ => LONG,
        };
        Loan {
            cells: FRAME_CELLS * frames + random.below(FRAME_CELLS),
            allowance: self.allowance(random),
            letters,
        }
    }

    /// A loan with which nothing is refused.
    fn plenty(&self) -> Loan {
        Loan {
            cells: FRAME_CELLS * self.enough,
            allowance: if self.listing.whole {
                u32::MAX
            } else {
                self.left() as u32
            },
            letters: LONG,
        }
    }
}

/// A random search: calls with any loans, and then, mostly, enough of everything until the end, which is told again and again.
pub fn any(engine: &impl Engine, random: &mut Random, tally: &mut Tally) -> Result<(), String> {
    let task = random.within(1, 3) as u32;
    let falling = !random.one_in(5);
    let table = draw::table(random, task, falling);
    let asked = draw::asked(random, &table, task);
    let Some(mut way) = begin(engine, &table, task, asked, tally)? else {
        return Ok(());
    };
    for _ in 0..random.within(1, 20) {
        let loan = way.loan(random);
        tally.add(way.call(engine, loan, random)?);
    }
    let calls = if random.one_in(8) { 3 } else { 60 };
    for _ in 0..calls {
        let loan = way.plenty();
        let answer = way.call(engine, loan, random)?;
        tally.add(answer);
        if way.left() == 0 {
            break;
        }
    }
    let loan = way.loan(random);
    tally.add(way.call(engine, loan, random)?);
    Ok(())
}
