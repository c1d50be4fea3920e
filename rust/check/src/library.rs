//! The proved library, called through the package `readings`.
use crate::answer::{Answer, Run, Started};
use crate::engine::{Engine, Next, Sheet, Sheets, Start, Texts, Trees};
use readings::lending;

/// The proved library. It keeps nothing: all memory is lent by the caller.
#[derive(Clone, Copy, Debug)]
pub struct Library;

impl Texts for Library {
    fn read(&self, text: &[u8], table: &mut [u16]) -> Answer {
        lending::table_read(text, table).into()
    }

    fn write(&self, table: &[u16], text: &mut [u8]) -> Answer {
        lending::table_write(table, text).into()
    }
}

impl Trees for Library {
    fn tree(&self, words: &[u8], table: &mut [u16]) -> Answer {
        lending::words_read(words, table).into()
    }
}

impl Engine for Library {
    fn start(&self, start: Start, run: &mut Run) -> Started {
        let Start {
            table,
            task,
            ceiling,
            upper,
            lower,
        } = start;
        lending::start(table, task, ceiling, upper, lower, run).into()
    }

    fn next(&self, call: Next) -> Answer {
        lending::next(
            call.table,
            call.upper,
            call.lower,
            call.run,
            call.stack,
            call.allowance,
            call.output,
        )
        .into()
    }
}

impl Sheets for Library {
    fn sheet(&self, sheet: Sheet, destination: &mut [u8]) -> Answer {
        lending::sheet_write(sheet.readings, sheet.faces, sheet.ended, destination).into()
    }
}
