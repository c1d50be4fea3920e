//! The comparison notices what is told or touched beyond what document 01 says, be it one cell.
use readings::limits::FRAME_CELLS;
use readings_check::answer::{Answer, DONE, ENDED, FOUND, PAUSED, Run, Started};
use readings_check::compare::fixed;
use readings_check::engine::{Engine, Next, Sheet, Sheets, Start, Trees};
use readings_check::twin::SOUND;

/// What a call leaves.
struct Left<'a> {
    answer: &'a mut Answer,
    run: &'a mut Run,
    stack: &'a mut [u32],
    output: &'a mut [u8],
    cycle: &'a mut [u16],
}

/// An engine whose calls are meddled with at their end.
struct Meddled(fn(Left));

impl Engine for Meddled {
    fn start(&self, start: Start, run: &mut Run) -> Started {
        let mut started = SOUND.start(start, run);
        self.0(Left {
            answer: &mut started.answer,
            run,
            stack: &mut [],
            output: &mut [],
            cycle: &mut started.cycle,
        });
        started
    }

    fn next(&self, mut call: Next) -> Answer {
        let mut answer = SOUND.next(call.lend());
        self.0(Left {
            answer: &mut answer,
            run: call.run,
            stack: call.stack,
            output: call.output,
            cycle: &mut [],
        });
        answer
    }
}

fn noticed(meddle: fn(Left), said: &str) {
    let difference = fixed::all(&Meddled(meddle)).expect_err("it is not noticed");
    assert!(difference.contains(said), "noticed otherwise: {difference}");
}

#[test]
fn output_after_the_reading() {
    let meddle = |left: Left| {
        if left.answer.kind == FOUND
            && let Some(cell) = left.output.get_mut(left.answer.length as usize)
        {
            *cell = 0;
        }
    };
    noticed(meddle, "output: cell");
}

#[test]
fn output_on_a_refusal() {
    let meddle = |left: Left| {
        if left.answer.number == 22
            && let Some(cell) = left.output.first_mut()
        {
            *cell = 1;
        }
    };
    noticed(meddle, "output: cell 0");
}

#[test]
fn a_dropped_frame_cleared() {
    let meddle = |left: Left| {
        let above = FRAME_CELLS * left.run.depth as usize;
        if left.answer.kind == PAUSED
            && let Some(cell) = left.stack.get_mut(above)
        {
            *cell = 77;
        }
    };
    noticed(meddle, "stack: cell");
}

#[test]
fn a_run_moved_on_by_a_refusal() {
    noticed(
        |left| left.run.depth += u32::from(left.answer.number == 23),
        "run: cell 0",
    );
}

#[test]
fn a_step_invented() {
    noticed(
        |left| left.answer.steps += u32::from(left.answer.kind == ENDED),
        "answer is",
    );
}

#[test]
fn a_length_told_without_meaning() {
    noticed(
        |left| left.answer.length += u32::from(left.answer.kind == PAUSED),
        "answer is",
    );
}

#[test]
fn a_cycle_told_by_a_start_that_passes() {
    let meddle = |left: Left| {
        if left.answer.kind == DONE
            && let Some(cell) = left.cycle.last_mut()
        {
            *cell = 1;
        }
    };
    noticed(meddle, "cells beyond the cycle");
}

#[test]
fn a_cycle_in_the_wrong_order() {
    let meddle = |left: Left| {
        if left.answer.number == 12 && left.answer.length >= 3 {
            left.cycle.swap(0, 1);
        }
    };
    noticed(meddle, "cycle is [");
}

#[test]
fn a_cycle_told_twice_over() {
    let meddle = |left: Left| {
        if left.answer.number == 12 {
            let length = left.answer.length as usize;
            left.cycle.copy_within(0..length.min(100), length.min(100));
            left.answer.length *= 2;
        }
    };
    noticed(meddle, "cycle is [");
}

/// Tables of word lists whose answer and destination are meddled with at the end of a call.
struct Pruned(fn(&mut Answer, &mut [u16]));

impl Trees for Pruned {
    fn tree(&self, words: &[u8], table: &mut [u16]) -> Answer {
        let mut answer = SOUND.tree(words, table);
        self.0(&mut answer, table);
        answer
    }
}

fn noticed_in_lists(prune: fn(&mut Answer, &mut [u16]), said: &str) {
    let difference = fixed::all_lists(&Pruned(prune)).expect_err("it is not noticed");
    assert!(difference.contains(said), "noticed otherwise: {difference}");
}

#[test]
fn the_last_cell_of_a_long_destination() {
    let prune = |answer: &mut Answer, cells: &mut [u16]| {
        if answer.kind == DONE && cells.len() > answer.length as usize {
            cells[cells.len() - 1] = 0;
        }
    };
    noticed_in_lists(prune, "destination: cell 232 is 0, expected 23130");
}

#[test]
fn a_short_destination_for_a_table_cleared() {
    let prune = |answer: &mut Answer, cells: &mut [u16]| {
        if answer.number == 24 {
            cells.fill(0);
        }
    };
    noticed_in_lists(prune, "destination: cell 0 is 0, expected 23130");
}

#[test]
fn the_last_cell_for_a_list_that_is_refused() {
    for number in [30, 31, 32] {
        let prune = match number {
            30 => last_cell::<30>,
            31 => last_cell::<31>,
            _ => last_cell::<32>,
        };
        noticed_in_lists(prune, "destination: cell 3037 is 0, expected 23130");
    }
}

/// Clears the last cell on a refusal.
fn last_cell<const NUMBER: u32>(answer: &mut Answer, cells: &mut [u16]) {
    if answer.number == NUMBER
        && let Some(cell) = cells.last_mut()
    {
        *cell = 0;
    }
}

#[test]
fn a_length_told_for_a_table_that_is_too_long() {
    noticed_in_lists(
        |answer, _| answer.length += 5 * u32::from(answer.number == 24),
        "answer is Answer { kind: 4, number: 24, steps: 0, length: 5 }",
    );
}

#[test]
fn words_told_as_steps() {
    let prune = |answer: &mut Answer, cells: &mut [u16]| {
        if answer.kind == DONE {
            answer.steps = cells[2].into();
        }
    };
    noticed_in_lists(
        prune,
        "answer is Answer { kind: 0, number: 0, steps: 1, length: 144 }",
    );
}

/// Sheets whose answer and destination are meddled with at the end of a call.
struct Smudged(fn(&mut Answer, &mut [u8]));

impl Sheets for Smudged {
    fn sheet(&self, sheet: Sheet, destination: &mut [u8]) -> Answer {
        let mut answer = SOUND.sheet(sheet, destination);
        self.0(&mut answer, destination);
        answer
    }
}

fn noticed_in_sheets(smudge: fn(&mut Answer, &mut [u8]), said: &str) {
    let difference = fixed::all_sheets(&Smudged(smudge)).expect_err("it is not noticed");
    assert!(difference.contains(said), "noticed otherwise: {difference}");
}

#[test]
fn the_last_byte_of_a_long_destination() {
    let smudge = |answer: &mut Answer, bytes: &mut [u8]| {
        if answer.kind == DONE && bytes.len() > answer.length as usize {
            bytes[bytes.len() - 1] = b' ';
        }
    };
    noticed_in_sheets(smudge, "sheet: cell 318 is 32, expected 238");
}

#[test]
fn a_short_destination_cleared() {
    let smudge = |answer: &mut Answer, bytes: &mut [u8]| {
        if answer.number == 24 {
            bytes.fill(b' ');
        }
    };
    noticed_in_sheets(smudge, "sheet: cell 0 is 32, expected 238");
}

#[test]
fn the_last_byte_for_a_list_that_is_refused() {
    let smudge = |answer: &mut Answer, bytes: &mut [u8]| {
        if answer.number == 33
            && let Some(byte) = bytes.last_mut()
        {
            *byte = b'\n';
        }
    };
    noticed_in_sheets(smudge, "is 10, expected 238");
}

#[test]
fn a_length_told_for_a_short_destination() {
    noticed_in_sheets(
        |answer, _| answer.length += 219 * u32::from(answer.number == 24),
        "answer is Answer { kind: 4, number: 24, steps: 0, length: 219 }",
    );
}

#[test]
fn lines_told_as_steps() {
    noticed_in_sheets(
        |answer, _| answer.steps = answer.length / 73,
        "answer is Answer { kind: 0, number: 0, steps: 3, length: 219 }",
    );
}
