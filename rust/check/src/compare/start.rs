//! One start: the answer, the run, and the cycle that the answer holds.
use super::penalties::damage_cells as damage_penalties;
use super::tally::Tally;
use super::{RUN_GUARD, classes, loops, rival, same};
use crate::answer::{Answer, Run, Started};
use crate::draw::{self, Asked, penalties};
use crate::engine::{self, Engine};
use crate::lent::Lent;
use crate::model::Model;
use crate::random::Random;
use crate::table::Table;

/// What a start is handed.
#[derive(Clone, Debug)]
pub struct Start {
    pub table: Vec<u16>,
    pub task: u32,
    pub ceiling: u32,
    pub upper: Vec<u8>,
    pub lower: Vec<u8>,
}

impl Start {
    /// A start of a task on a table, with what is asked.
    pub fn of(table: &Table, task: u32, asked: Asked) -> Start {
        let Asked {
            upper,
            lower,
            ceiling,
        } = asked;
        Start {
            table: table.cells(),
            task,
            ceiling,
            upper,
            lower,
        }
    }

    pub fn lend(&self) -> engine::Start<'_> {
        engine::Start {
            table: &self.table,
            task: self.task,
            ceiling: self.ceiling,
            upper: &self.upper,
            lower: &self.lower,
        }
    }
}

/// The answer, the states of its cycle and the cells beyond them are as expected.
fn told_as(told: &Started, expected: &Started) -> Result<(), String> {
    let bare = |started: &Started| Answer {
        length: 0,
        ..started.answer
    };
    same("answer", bare(told), bare(expected))?;
    let cells = told.cycle.split_at_checked(told.answer.length as usize);
    let (states, rest) = cells.ok_or("a cycle longer than its cells")?;
    let shown = &expected.cycle[..expected.answer.length as usize];
    same("cycle", states, shown)
        .map_err(|difference| format!("{difference}, rival {:?}", rival::of(states, shown)))?;
    same(
        "cells beyond the cycle",
        rest,
        &expected.cycle[states.len()..],
    )
}

fn check(engine: &impl Engine, start: &Start) -> Result<(Answer, Run), String> {
    let stale = [Run {
        task: 9,
        started: 9,
        depth: 9,
        ceiling: 9,
    }];
    let mut expected_run = stale[0];
    let expected = Model.start(start.lend(), &mut expected_run);
    let mut table = Lent::new(&start.table, 0xABCD);
    let mut upper = Lent::new(&start.upper, 0xAB);
    let mut lower = Lent::new(&start.lower, 0xAB);
    let mut run = Lent::new(&stale, RUN_GUARD);
    let lent = engine::Start {
        table: table.lend(),
        task: start.task,
        ceiling: start.ceiling,
        upper: upper.lend(),
        lower: lower.lend(),
    };
    let told = engine.start(lent, &mut run.lend()[0]);
    told_as(&told, &expected)?;
    run.expect("run", &[expected_run])?;
    table.expect("table", &start.table)?;
    upper.expect("upper word", &start.upper)?;
    lower.expect("lower word", &start.lower)?;
    Ok((expected.answer, expected_run))
}

/// Starts with the model, with the engine, and compares.
pub fn compare(engine: &impl Engine, start: &Start) -> Result<(Answer, Run), String> {
    check(engine, start).map_err(|difference| {
        let loops = loops::of(start);
        format!("{difference}, loops {loops:?}, in {start:?}")
    })
}

/// A start of a task on a table, with words that may pass, under a ceiling that keeps the limit, mostly.
fn on(random: &mut Random, table: &Table, task: u32) -> Start {
    let mut start = Start::of(table, task, draw::asked(random, table, task));
    if random.one_in(8) {
        start.ceiling = *random.pick(&penalties::EDGES);
    }
    start
}

/// A start of any task on a random table, with and without idle cycles, with words that may be bad.
pub fn any(engine: &impl Engine, random: &mut Random, tally: &mut Tally) -> Result<(), String> {
    let task = random.within(1, 3) as u32;
    let falling = random.one_in(3);
    let table = draw::table(random, task, falling);
    let mut start = on(random, &table, task);
    if random.one_in(2) {
        spoil(random, &mut start);
    }
    let (answer, _) = compare(engine, &start)?;
    tally.add_start(&start, answer);
    Ok(())
}

/// A start of any task on a random table with many idle arcs between few states.
pub fn knotted(engine: &impl Engine, random: &mut Random, tally: &mut Tally) -> Result<(), String> {
    let task = random.within(1, 3) as u32;
    let table = draw::knotted(random, task);
    let start = on(random, &table, task);
    let (answer, _) = compare(engine, &start)?;
    tally.add_start(&start, answer);
    Ok(())
}

/// Tasks, known and unknown; 257, 258 and 65,539 would be known ones if they were cut short.
const TASKS: [u32; 10] = [0, 1, 2, 3, 4, 255, 257, 258, 65_539, u32::MAX];

/// One thing made bad, or nearly.
fn spoil(random: &mut Random, start: &mut Start) {
    match random.below(8) {
        0 => start.task = *random.pick(&TASKS),
        1 => start.upper = word(random),
        2 => start.lower = word(random),
        3 => {
            let at = classes::some_cell(random, &start.table);
            start.table[at] = *random.pick(&[0, 1, 2, 63, 64, 71, 72, 255, 256, 65_535]);
        }
        4 => start.table.truncate(random.below(start.table.len())),
        5 => classes::damage_cells(random, &mut start.table),
        6 => damage_penalties(random, &mut start.table),
        _ => start.table.extend([7, 9]), // cells after a table are nobody's
    }
}

/// A word at the edge of the rules.
fn word(random: &mut Random) -> Vec<u8> {
    let length = *random.pick(&[0, 1, 2, 63, 64, 65, 66, 200, 255, 256, 300]);
    let mut word = vec![random.within(1, 63) as u8; length];
    if length > 0 && random.one_in(2) {
        let at = random.below(length);
        word[at] = *random.pick(&[0, 1, 63, 64, 128, 255]);
    }
    word
}
