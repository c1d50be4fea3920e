//! Calls on what no search left: runs, frames, stacks, tables and words with damage, or made of anything.
use super::call::{self, Call};
use super::classes;
use super::penalties::damage_cells as damage_penalties;
use super::tally::Tally;
use crate::answer::Run;
use crate::draw::{self, Asked, penalties};
use crate::engine::Engine;
use crate::model::Model;
use crate::query::MOST_CEILING;
use crate::random::Random;
use crate::table;
use readings::limits::{ARC_CELLS, CLASSES_AT, FRAME_CELLS, INITIALS_AT};

/// A place in a random search, made by the model.
fn place(random: &mut Random) -> Call {
    let task = random.within(1, 3) as u32;
    let falling = random.one_in(2);
    let table = draw::table(random, task, falling);
    let Asked {
        upper,
        lower,
        ceiling,
    } = draw::asked(random, &table, task);
    let mut call = Call {
        table: table.cells(),
        upper,
        lower,
        run: Run::under(task, ceiling),
        stack: (0..FRAME_CELLS * random.within(1, 40))
            .map(|_| random.below(4) as u32)
            .collect(),
        allowance: 0,
        output: vec![0xEE; 64],
    };
    for _ in 0..random.within(0, 4) {
        call.allowance = random.below(30) as u32;
        Model.next(call.lend());
    }
    call
}

/// A number near another, or at an edge.
fn near(random: &mut Random, x: u32) -> u32 {
    match random.below(6) {
        0 => x.wrapping_add(1),
        1 => x.wrapping_sub(1),
        2 => 0,
        3 => random.below(6) as u32,
        4 => *random.pick(&[63, 64, 65, 255, 256, 257, 1_024, 33_024, 33_025, 65_536]),
        _ => u32::MAX - random.below(2) as u32,
    }
}

fn near_cell(random: &mut Random, x: u16) -> u16 {
    near(random, x.into()) as u16
}

fn damage_run(random: &mut Random, call: &mut Call) {
    match random.below(6) {
        0 => call.run.task = near(random, call.run.task),
        1 => call.run.started = near(random, call.run.started),
        2 => call.run.depth = near(random, call.run.depth),
        3 => call.run.ceiling = *random.pick(&penalties::EDGES),
        _ => call.run.ceiling = another_ceiling(random, call),
    }
}

/// A ceiling about the highest sum of the used frames, or any.
fn another_ceiling(random: &mut Random, call: &Call) -> u32 {
    let used = call.stack.chunks(FRAME_CELLS).take(call.run.depth as usize);
    let sums = used.filter_map(|frame| frame.get(FRAME_CELLS - 1));
    let highest = sums.copied().max().unwrap_or(0);
    penalties::ceiling(random, highest.min(MOST_CEILING))
}

/// A cell of a used frame, or two frames exchanged.
fn damage_frames(random: &mut Random, call: &mut Call) {
    let used = FRAME_CELLS * call.run.depth as usize;
    if used == 0 || used > call.stack.len() {
        return;
    }
    if random.one_in(5) {
        let frames = used / FRAME_CELLS;
        let (a, b) = (random.below(frames), random.below(frames));
        for k in 0..FRAME_CELLS {
            call.stack.swap(FRAME_CELLS * a + k, FRAME_CELLS * b + k);
        }
    } else {
        let mut at = random.below(used);
        if random.one_in(4) {
            at += FRAME_CELLS - 1 - at % FRAME_CELLS; // its sum
        }
        call.stack[at] = near(random, call.stack[at]);
    }
}

/// A cell, a fault of classes, a penalty, two arcs' worth of cells exchanged or made equal, cells cut off or put after it.
fn damage_table(random: &mut Random, call: &mut Call) {
    let table = &mut call.table;
    if table.is_empty() {
        return;
    }
    match random.below(8) {
        0 | 1 => {
            let at = classes::some_cell(random, table);
            table[at] = near_cell(random, table[at]);
        }
        2 => table.truncate(random.below(table.len())),
        3 => table.extend([1, 2, 3]),
        4 | 5 => classes::damage_cells(random, table),
        6 => damage_penalties(random, table),
        _ if table.len() >= INITIALS_AT + 2 * ARC_CELLS => {
            let (a, b) = (table.len() - 2 * ARC_CELLS, table.len() - ARC_CELLS);
            if random.one_in(2) {
                table.copy_within(a..b, b);
            } else {
                (0..ARC_CELLS).for_each(|k| table.swap(a + k, b + k));
            }
        }
        _ => {}
    }
}

fn damage_word(random: &mut Random, word: &mut Vec<u8>) {
    match random.below(4) {
        0 => word.push(random.within(1, 3) as u8),
        1 => word.truncate(word.len() / 2),
        2 => word.resize(random.within(60, 70), 1),
        _ if word.is_empty() => word.push(0),
        _ => {
            let at = random.below(word.len());
            word[at] = *random.pick(&[0, 1, 2, 3, 63, 64, 200]);
        }
    }
}

fn damage(random: &mut Random, call: &mut Call) {
    match random.below(12) {
        0 | 1 => damage_run(random, call),
        2..=5 => damage_frames(random, call),
        6 => call.stack.truncate(random.below(call.stack.len() + 1)),
        7 | 8 => damage_table(random, call),
        9 => damage_word(random, &mut call.upper),
        10 => damage_word(random, &mut call.lower),
        _ => std::mem::swap(&mut call.upper, &mut call.lower),
    }
}

/// A place in a search with none to three damages, then one call and one more.
pub fn any(engine: &impl Engine, random: &mut Random, tally: &mut Tally) -> Result<(), String> {
    let mut call = place(random);
    for _ in 0..random.below(4) {
        damage(random, &mut call);
    }
    for _ in 0..2 {
        call.allowance = *random.pick(&[0, 1, 2, 5, 30, 300]);
        call.output = vec![0xEE; *random.pick(&[0, 1, 2, 5, 60])];
        tally.add(call::compare(engine, &mut call)?);
    }
    Ok(())
}

/// Cells below a number, and classes that keep the rules where they stand in a table.
fn any_cells(random: &mut Random, most: usize) -> Vec<u16> {
    let count = random.below(30);
    let mut cells: Vec<u16> = (0..count).map(|_| random.below(most) as u16).collect();
    if count >= CLASSES_AT {
        let defined = random.below(3);
        let classes = table::class_cells(&draw::classes::some(random, defined));
        cells.splice(CLASSES_AT..CLASSES_AT, classes);
    }
    cells
}

/// A call on numbers of any kind, small ones mostly.
pub fn arbitrary(
    engine: &impl Engine,
    random: &mut Random,
    tally: &mut Tally,
) -> Result<(), String> {
    let most = *random.pick(&[2, 3, 5, 70]);
    let table = if random.one_in(2) {
        let task = random.within(1, 3) as u32;
        draw::table(random, task, true).cells()
    } else {
        any_cells(random, most)
    };
    let mut numbers =
        |count: usize| -> Vec<u32> { (0..count).map(|_| random.below(most) as u32).collect() };
    let run = numbers(4);
    let words = numbers(8);
    let stack = numbers(28);
    let word = |at: usize| {
        let letters = words[..words[at] as usize % 4].iter();
        letters.map(|x| *x as u8).collect()
    };
    let mut call = Call {
        table,
        upper: word(6),
        lower: word(7),
        run: Run {
            task: run[0],
            started: run[1],
            depth: run[2],
            ceiling: run[3],
        },
        stack,
        allowance: random.below(40) as u32,
        output: vec![0xEE; random.below(4)],
    };
    tally.add(call::compare(engine, &mut call)?);
    Ok(())
}
