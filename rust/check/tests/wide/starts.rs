//! `rd_start`.
use crate::inputs::{k, tables, tasks, words};
use crate::narrow::Boundary;
use crate::narrow::Cut::{Low, Most};
use crate::narrow::Part::*;
use crate::{Checked, NARROW, is, tells};
use readings_check::answer::{Answer, Run, Started};
use readings_check::compare::start::{self, Start};
use readings_check::engine::{self, Engine};
use readings_check::query::MOST_CEILING;
use readings_check::table::{Arc, Table};

/// Recognition of two empty words over table K.
fn plain() -> Start {
    Start {
        table: k(),
        task: 1,
        ceiling: MOST_CEILING,
        upper: vec![],
        lower: vec![],
    }
}

/// What a start answers, by the model and by the library.
fn told(engine: &Boundary, start: Start) -> Result<Answer, String> {
    Ok(start::compare(engine, &start)?.0)
}

fn table(engine: &Boundary) -> Checked {
    let call = |table| told(engine, Start { table, ..plain() });
    tables(call, Answer::done(0))
}

#[test]
fn start_tables() {
    tells(table, StartTable, NARROW);
    tells(table, StartTable, &[Most(4_096), Most(5_763)]);
    tells(table, StartCells, &[Low(8), Low(13), Low(15)]);
}

fn task(engine: &Boundary) -> Checked {
    tasks(|task| told(engine, Start { task, ..plain() }))
}

#[test]
fn start_tasks() {
    tells(task, StartTask, NARROW);
    tells(task, StartTask, &[Low(2), Low(24), Low(31), Most(3)]);
}

/// A ceiling of at most 17 bits is set, as far as it keeps the limit; any higher one gives 39.
fn ceiling(engine: &Boundary) -> Checked {
    let with = |ceiling| told(engine, Start { ceiling, ..plain() });
    for bit in 0..32 {
        let passed = match bit {
            0..17 => Answer::done(0),
            _ => Answer::refused(39, 0),
        };
        is(with(1 << bit)?, passed)?;
    }
    is(with(100_000)?, Answer::done(0))?;
    is(with(100_001)?, Answer::refused(39, 0))
}

#[test]
fn start_ceilings() {
    tells(ceiling, StartCeiling, NARROW);
    let cuts = [Low(17), Low(24), Low(31), Most(99_999), Most(100_000)];
    tells(ceiling, StartCeiling, &cuts);
}

fn word(engine: &Boundary) -> Checked {
    let call = |task, upper, lower| {
        let mut start = plain();
        (start.task, start.upper, start.lower) = (task, upper, lower);
        told(engine, start)
    };
    words(call, Answer::done(0))
}

#[test]
fn start_words() {
    for part in [StartUpper, StartLower] {
        tells(word, part, NARROW);
        tells(word, part, &[Low(6), Most(63), Most(64)]);
    }
}

/// A refused start leaves every bit of a run; one that passes sets them all.
fn run(engine: &Boundary) -> Checked {
    let stale = Run {
        task: u32::MAX,
        started: 0x8765_4321,
        depth: 0xFEDC_BA98,
        ceiling: 0x1234_5678,
    };
    for (task, left) in [(4, stale), (2, Run::of(2))] {
        let mut run = stale;
        let start = engine::Start {
            table: &k(),
            task,
            ceiling: MOST_CEILING,
            upper: &[1, 2],
            lower: &[],
        };
        engine.start(start, &mut run);
        if run != left {
            return Err(format!("run is {run:?}, expected {left:?}"));
        }
    }
    Ok(())
}

#[test]
fn start_runs() {
    tells(run, StartRun, NARROW);
    tells(run, StartRun, &[Low(24), Low(31), Most(65_536)]);
}

/// An idle cycle through all 256 states.
fn cycle(engine: &Boundary) -> Checked {
    let table = Table {
        states: 256,
        initials: vec![0],
        terminals: vec![],
        arcs: (0..256).map(|s| Arc::new(s, 0, 0, (s + 1) % 256)).collect(),
        ..Table::default()
    };
    let start = Start {
        table: table.cells(),
        ..plain()
    };
    let states: Vec<u16> = (0..256).collect();
    is(told(engine, start)?, Started::with_cycle(&states).answer)
}

#[test]
fn start_cycles() {
    tells(cycle, StartLength, &[Low(8), Most(255)]);
}
