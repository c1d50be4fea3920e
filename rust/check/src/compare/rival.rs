//! What a cycle is beside the one that is shown, and which such cycles a start has.
use super::start::Start;
use crate::cycles;
use crate::idle;
use crate::table::Table;
use std::cmp::Ordering::{Equal, Greater, Less};
use std::collections::BTreeSet;

/// All cycles are gone through in tables of so many states at most.
const SMALL: u16 = 6;

#[derive(Clone, Copy, Debug, PartialEq, Eq, PartialOrd, Ord)]
pub enum Rival {
    /// A longer one from the same state.
    Longer,
    /// One from the same state and as long, whose states come later.
    Later,
    /// A shorter one from a higher state.
    Shorter,
    /// One from a higher state that is not shorter.
    Higher,
    /// The same one, but not from its lowest state.
    Turned,
}

/// What a cycle is; none where it is the shown one, or would come before it: no idle cycle that is reached does.
pub fn of(cycle: &[u16], shown: &[u16]) -> Option<Rival> {
    let is_turned = (1..shown.len()).any(|k| cycle == [&shown[k..], &shown[..k]].concat());
    if is_turned {
        return Some(Rival::Turned);
    }
    let (first, length) = (cycle.first(), cycle.len());
    match (first.cmp(&shown.first()), length.cmp(&shown.len())) {
        (Greater, Less) => Some(Rival::Shorter),
        (Greater, _) => Some(Rival::Higher),
        (Equal, Greater) => Some(Rival::Longer),
        (Equal, Equal) if cycle > shown => Some(Rival::Later),
        _ => None,
    }
}

/// What the cycles of a start are that is refused with 12, if its table is small.
pub fn all(start: &Start) -> BTreeSet<Rival> {
    let rivals = || {
        let table = Table::loaded(&start.table).filter(|table| table.states <= SMALL)?;
        let shown = idle::shown(&table, start.task)?;
        let cycles = cycles::all(&table, start.task);
        Some(cycles.iter().filter_map(|c| of(c, &shown)).collect())
    };
    rivals().unwrap_or_default()
}
