//! `rd_next`.
use crate::inputs::{k, tables, tasks, words};
use crate::narrow::Boundary;
use crate::narrow::Cut::{Low, Most, Rest};
use crate::narrow::Part::*;
use crate::{Checked, NARROW, is, tells};
use readings::limits::{FRAME_CELLS, MOST_FRAMES as MOST};
use readings_check::answer::{Answer, Run};
use readings_check::compare::call::{self, Call};
use readings_check::engine::{Engine, Next};
use readings_check::table::{Arc, Table};

/// The first call in synthesis of 01 02 over table K.
fn first() -> Call {
    Call {
        table: k(),
        upper: vec![1, 2],
        lower: vec![],
        run: Run::of(2),
        stack: vec![9; FRAME_CELLS * 9],
        allowance: 100,
        output: vec![0xEE; 8],
    }
}

/// What it answers: 01 02 after three steps.
fn found() -> Answer {
    Answer::found(3, 2)
}

/// What a call answers, by the model and by the library.
fn told(engine: &Boundary, mut call: Call) -> Result<Answer, String> {
    call::compare(engine, &mut call)
}

/// Of the empty word, which the largest table reads at once.
fn table(engine: &Boundary) -> Checked {
    let call = |table| {
        let mut call = first();
        (call.table, call.upper) = (table, vec![]);
        told(engine, call)
    };
    tables(call, Answer::found(1, 0))
}

#[test]
fn call_tables() {
    tells(table, NextTable, NARROW);
    tells(table, NextTable, &[Most(4_096), Most(5_763)]);
    tells(table, NextCells, &[Low(8), Low(13), Low(15)]);
}

fn word(engine: &Boundary) -> Checked {
    let call = |task, upper, lower| {
        let mut call = first();
        (call.run, call.upper, call.lower) = (Run::of(task), upper, lower);
        told(engine, call)
    };
    words(call, Answer::ended(7))
}

#[test]
fn call_words() {
    for part in [NextUpper, NextLower] {
        tells(word, part, NARROW);
        tells(word, part, &[Low(6), Most(63), Most(64)]);
    }
}

/// A run with a high bit is refused, and left as it was.
fn run(engine: &Boundary) -> Checked {
    let with = |run: Run| {
        let mut call = first();
        (call.run, call.upper) = (run, vec![]);
        told(engine, call)
    };
    tasks(|task| with(Run::of(task)))?;
    for bit in 1..32 {
        let (mut started, mut deep) = (Run::of(2), Run::of(2));
        started.started = 1 << bit;
        deep.depth = 1 << bit;
        is(with(started)?, Answer::refused(21, 0))?;
        is(with(deep)?, Answer::refused(21, 0))?;
    }
    Ok(())
}

#[test]
fn call_runs() {
    for part in [NextTask, NextStarted, NextDepth, NextRun] {
        tells(run, part, NARROW);
        tells(run, part, &[Low(24), Low(31)]);
    }
    tells(run, NextTask, &[Low(2), Most(3)]);
    tells(run, NextRun, &[Most(65_536)]);
}

/// Arcs of penalty 255 through all states, 65,025 in all.
fn penalized() -> Call {
    let arcs = (0..255).map(|s| Arc::new(s, 0, 0, s + 1).with_penalty(255));
    let table = Table {
        states: 256,
        initials: vec![0],
        terminals: vec![255],
        arcs: arcs.collect(),
        ..Table::default()
    };
    Call {
        table: table.cells(),
        upper: vec![],
        stack: vec![9; FRAME_CELLS * 256],
        allowance: u32::MAX,
        ..first()
    }
}

/// A ceiling is held against the whole sum; one over 100,000 gives 39.
fn ceiling(engine: &Boundary) -> Checked {
    let under = |ceiling| {
        let run = Run::under(2, ceiling);
        told(engine, Call { run, ..penalized() })
    };
    for enough in [65_025, 65_536, 65_537, 99_999, 100_000] {
        is(under(enough)?, Answer::found(256, 0))?;
    }
    is(under(65_024)?, Answer::ended(511))?; // the last arc is tried in vain
    for bit in 17..32 {
        is(under(1 << bit)?, Answer::refused(39, 0))?;
        is(under((1 << bit) + 65_536)?, Answer::refused(39, 0))?;
    }
    is(under(100_001)?, Answer::refused(39, 0))
}

#[test]
fn call_ceilings() {
    tells(ceiling, NextCeiling, NARROW);
    tells(ceiling, NextCeiling, &[Low(17), Low(24), Low(31)]);
    tells(ceiling, NextCeiling, &[Most(65_024), Most(100_000)]);
    tells(ceiling, NextRun, &[Low(16), Most(65_536)]);
    tells(ceiling, LeftFrames, &[Low(8), Low(13), Low(15)]);
}

/// A search of 256 initial states starts as many, and 257 are refused.
fn started(engine: &Boundary) -> Checked {
    let table = Table {
        states: 256,
        initials: (0..256).collect(),
        ..Table::default()
    };
    let mut call = Call {
        table: table.cells(),
        allowance: 1_000,
        ..first()
    };
    is(call::compare(engine, &mut call)?, Answer::ended(512))?; // each pushed and dropped
    is(call::compare(engine, &mut call)?, Answer::ended(0))?;
    call.run.started = 257;
    is(told(engine, call)?, Answer::refused(21, 0))
}

#[test]
fn call_started() {
    tells(started, NextStarted, &[Low(8), Most(255), Most(256)]);
    tells(started, LeftStarted, &[Low(8), Most(255)]);
}

/// A state that leads to itself and reads nothing: a place of any depth, though no start allows it.
fn looping(depth: usize, cells: usize) -> Call {
    let table = Table {
        states: 1,
        initials: vec![0],
        terminals: vec![0],
        arcs: vec![Arc::new(0, 0, 1, 0)],
        ..Table::default()
    };
    let mut stack: Vec<u32> = (0..depth as u32).flat_map(|k| [0, 1, 0, k, 0]).collect();
    stack.resize(cells, 9);
    Call {
        table: table.cells(),
        upper: vec![1],
        run: Run {
            started: u32::from(depth > 0),
            depth: depth as u32,
            ..Run::of(2)
        },
        stack,
        allowance: u32::MAX,
        ..first()
    }
}

/// A run of 33,024 frames moves on, one of 33,025 is refused.
fn depth(engine: &Boundary) -> Checked {
    let mut full = looping(MOST, FRAME_CELLS * MOST);
    full.allowance = 10;
    is(told(engine, full)?, Answer::paused(10))?; // ten frames dropped
    let over = looping(MOST + 1, FRAME_CELLS * (MOST + 1));
    is(told(engine, over)?, Answer::refused(21, 0))
}

#[test]
fn call_depths() {
    tells(depth, NextDepth, &[Low(8), Low(13), Low(15)]);
    tells(depth, NextDepth, &[Most(33_023), Most(33_024)]);
    tells(depth, LeftDepth, &[Low(8), Low(13), Low(15), Most(33_000)]);
}

/// A stack cut to one frame is full after a step; a long one is used up to 33,024 frames.
fn stack(engine: &Boundary) -> Checked {
    for length in [65_536 + 4, 200_000 + 4] {
        let stack = vec![9; length];
        is(told(engine, Call { stack, ..first() })?, found())?;
    }
    for length in [FRAME_CELLS * MOST, 262_144 + 4] {
        let full = Answer::refused(22, MOST as u32);
        is(told(engine, looping(0, length))?, full)?;
    }
    Ok(())
}

#[test]
fn call_stacks() {
    tells(stack, NextStack, NARROW);
    tells(stack, NextStack, &[Low(17), Low(18), Rest(200_000)]);
    tells(stack, NextStack, &[Most(65_536), Most(132_095)]);
    tells(stack, LeftFrames, &[Low(8), Low(13), Low(15), Most(33_022)]);
}

/// A used cell with a high bit is refused.
fn frames(engine: &Boundary) -> Checked {
    let mut place = first();
    is(call::compare(engine, &mut place)?, found())?;
    for at in 0..FRAME_CELLS * 3 {
        for bit in 8..32 {
            let mut call = place.clone();
            call.stack[at] += 1 << bit;
            is(told(engine, call)?, Answer::refused(21, 0))?;
        }
    }
    Ok(())
}

#[test]
fn call_frames() {
    tells(frames, NextFrames, NARROW);
    tells(frames, NextFrames, &[Low(24), Low(31)]);
}

/// Any allowance of one bit is enough for the first reading.
fn allowance(engine: &Boundary) -> Checked {
    for bit in 2..32 {
        let mut call = first();
        call.allowance = 1 << bit;
        is(told(engine, call)?, found())?;
    }
    Ok(())
}

#[test]
fn call_allowances() {
    tells(allowance, NextAllowance, NARROW);
    tells(allowance, NextAllowance, &[Low(24), Low(31)]);
}

/// Two arcs from a state to itself: a word of 22 letters has 2^23 - 1 paths, each of three steps, after one for the start.
fn steps(engine: &Boundary) -> Checked {
    let table = Table {
        states: 1,
        initials: vec![0],
        terminals: vec![],
        arcs: vec![Arc::new(0, 1, 1, 0), Arc::new(0, 1, 2, 0)],
        ..Table::default()
    };
    let (cells, word) = (table.cells(), [1; 22]);
    let (mut run, mut stack) = (Run::of(2), [9; FRAME_CELLS * 23]);
    let mut next = |allowance| {
        engine.next(Next {
            table: &cells,
            upper: &word,
            lower: &[],
            run: &mut run,
            stack: &mut stack,
            allowance,
            output: &mut [],
        })
    };
    let mut left = 1 + 3 * ((1 << 23) - 1);
    for bit in [8, 13, 16, 24] {
        is(next(1 << bit), Answer::paused(1 << bit))?;
        left -= 1 << bit;
    }
    is(next(u32::MAX), Answer::ended(left))
}

#[test]
fn call_steps() {
    for part in [NextAllowance, NextSteps] {
        let cuts = [Low(8), Low(13), Low(16), Low(24), Most(65_535)];
        tells(steps, part, &cuts);
    }
}

/// The longest reading has 33,023 letters; an output of one less is too short.
fn output(engine: &Boundary) -> Checked {
    let mut place = looping(MOST - 1, FRAME_CELLS * MOST);
    place.upper.clear();
    place.stack[FRAME_CELLS * (MOST - 2) + 1] = 0; // the top frame's arc is still to be tried
    let with = |length| {
        let mut call = place.clone();
        call.output = vec![0xEE; length];
        told(engine, call)
    };
    is(with(MOST - 2)?, Answer::refused(23, 0))?;
    is(with(MOST - 1)?, Answer::found(1, MOST - 1))?;
    is(with(65_536 + MOST - 2)?, Answer::found(1, MOST - 1))
}

#[test]
fn call_outputs() {
    tells(output, NextOutput, NARROW);
    tells(output, NextOutput, &[Low(15), Most(32_768), Most(33_022)]);
    tells(output, NextLength, &[Low(8), Low(13), Low(15)]);
}
