//! Where the idle cycles of a start lie, as far as it matters for refusal 12 what arcs lead to from an initial state.
use super::start::Start;
use crate::idle;
use crate::query;
use crate::table::{Arc, Table};

#[derive(Clone, Copy, Debug, PartialEq, Eq, PartialOrd, Ord)]
pub enum Loops {
    /// Only where no arcs lead: the start passes.
    Apart,
    /// Where arcs lead by letters that the words have, and others where none do.
    Both,
    /// Where arcs lead, but on every way there is a letter that its word has not; others may be where none do.
    Barred,
}

/// Where they lie; none where they lie otherwise, or where the start is refused for something else.
pub fn of(start: &Start) -> Option<Loops> {
    let table = Table::loaded(&start.table)?;
    if query::fault(start.task, start.ceiling, &start.upper, &start.lower).is_some() {
        return None;
    }
    let has_cycle = |table: &Table| idle::shown(table, start.task).is_some();
    let apart = has_cycle(&unreached(&table));
    if !has_cycle(&table) {
        apart.then_some(Loops::Apart)
    } else if !has_cycle(&with_arcs(&table, |arc| is_allowed(start, &table, arc))) {
        Some(Loops::Barred)
    } else {
        apart.then_some(Loops::Both)
    }
}

/// A table with some of its arcs.
fn with_arcs(table: &Table, keep: impl Fn(&Arc) -> bool) -> Table {
    let mut table = table.clone();
    table.arcs.retain(keep);
    table
}

/// The part of a table that is not reached, with every state initial.
fn unreached(table: &Table) -> Table {
    let reached = idle::reached(table);
    Table {
        initials: (0..table.states).collect(),
        ..with_arcs(table, |arc| !reached.contains(&arc.source))
    }
}

/// Whether each letter on a side that is read is 0 or stands somewhere in its word, of a class one letter on every side.
fn is_allowed(start: &Start, table: &Table, arc: &Arc) -> bool {
    let (upper, lower) = query::sides(start.task).expect("a task");
    let has = |word: &[u8], letter: u16| letter == 0 || word.contains(&(letter as u8));
    let mut arcs = table.plain_arcs(*arc).into_iter();
    arcs.any(|arc| {
        (!upper || has(&start.upper, arc.upper)) && (!lower || has(&start.lower, arc.lower))
    })
}
