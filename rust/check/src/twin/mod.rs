//! A second text of the engine, written for speed: the benchmark measures the proved library against it. It makes the same checks,
//! steps and answers. A fault can be planted in it, to see that the tests find it.
mod check;
mod classes;
mod cycle;
pub mod fault;
mod place;
mod reach;
mod scan;
mod search;
mod sheet;
mod shown;
mod spelled;
mod words;

use crate::answer::{Answer, Run, Started};
use crate::engine::{Engine, Next, Sheet, Sheets, Start, Trees};
use check::View;
use readings::limits::MOST_CEILING;
use search::Search;

/// The twin, with a planted fault; with or without instructions that look at several arcs at once.
#[derive(Clone, Copy, Debug)]
pub struct Twin<const FAULT: u8, const VECTOR: bool = true>;

/// The twin without fault.
pub const SOUND: Twin<{ fault::NONE }> = Twin;

/// The same in plain Rust.
pub const PLAIN: Twin<{ fault::NONE }, false> = Twin;

fn is_over(ceiling: u32) -> bool {
    ceiling > MOST_CEILING
}

fn word_holds(word: &[u8]) -> bool {
    word.len() <= 64 && word.iter().fold(true, |ok, x| ok & (1..=63).contains(x))
}

/// 20, 11, 10, and 39 where the ceiling is not looked at later.
#[inline(always)]
fn ask<const FAULT: u8, const VECTOR: bool>(start: Start, late: bool) -> Result<View, u32> {
    let view = check::check::<FAULT, VECTOR>(start.table).ok_or(20u32)?;
    let sides_hold = match start.task {
        1 => true,
        2 => start.lower.is_empty(),
        3 => start.upper.is_empty(),
        _ => false,
    };
    if !sides_hold {
        return Err(11);
    }
    if FAULT == fault::CEILING_BEFORE_WORDS && is_over(start.ceiling) {
        return Err(39);
    }
    if !word_holds(start.upper) || !word_holds(start.lower) {
        return Err(10);
    }
    if !late && is_over(start.ceiling) {
        return Err(39);
    }
    Ok(view)
}

impl<const FAULT: u8, const VECTOR: bool> Engine for Twin<FAULT, VECTOR> {
    #[inline(never)]
    fn start(&self, start: Start, run: &mut Run) -> Started {
        let late = matches!(FAULT, fault::CEILING_AFTER_CYCLES | fault::CEILING_ANY);
        let view = match ask::<FAULT, VECTOR>(start, late) {
            Ok(view) => view,
            Err(number) => return Started::bare(Answer::refused(number, 0)),
        };
        let task = start.task;
        let mut started = Started::bare(Answer::done(0));
        let cycle = &mut started.cycle;
        let both = FAULT == fault::RECOGNITION_CYCLES && task == 2;
        let found = match task {
            1 => cycle::find::<true, true, FAULT>(&view, start, cycle),
            2 if both => cycle::find::<true, true, FAULT>(&view, start, cycle),
            2 => cycle::find::<true, false, FAULT>(&view, start, cycle),
            _ => cycle::find::<false, true, FAULT>(&view, start, cycle),
        };
        if found == 0 {
            if FAULT == fault::CEILING_AFTER_CYCLES && is_over(start.ceiling) {
                return Started::bare(Answer::refused(39, 0));
            }
            *run = Run::under(task, start.ceiling);
        } else {
            started.answer = Answer {
                length: found as u32,
                ..Answer::refused(12, 0)
            };
        }
        started
    }

    #[inline(never)]
    fn next(&self, call: Next) -> Answer {
        let late = matches!(FAULT, fault::CEILING_AFTER_PLACE | fault::CEILING_ANY);
        let view = match ask::<FAULT, VECTOR>(call.start(), late) {
            Ok(view) => view,
            Err(number) => return Answer::refused(number, 0),
        };
        match call.run.task {
            1 => Search::<true, true, FAULT>::new(&view, &call).call(call),
            2 => Search::<true, false, FAULT>::new(&view, &call).call(call),
            _ => Search::<false, true, FAULT>::new(&view, &call).call(call),
        }
    }
}

impl<const FAULT: u8, const VECTOR: bool> Trees for Twin<FAULT, VECTOR> {
    #[inline(never)]
    fn tree(&self, words: &[u8], table: &mut [u16]) -> Answer {
        words::read::<FAULT>(words, table)
    }
}

impl<const FAULT: u8, const VECTOR: bool> Sheets for Twin<FAULT, VECTOR> {
    #[inline(never)]
    fn sheet(&self, sheet: Sheet, destination: &mut [u8]) -> Answer {
        sheet::write::<FAULT>(sheet, destination)
    }
}
