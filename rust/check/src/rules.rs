//! Refusals 3 to 8 and 34: the first number that an item of a table earns, after the items of its kind before it. 34 is looked for right
//! after 5.
use crate::table::{self, Arc, Classes, Table};

/// 3, of the counts.
pub fn counts(states: u16, initials: u16, terminals: u16, arcs: u16) -> Option<u32> {
    let kept = (1..=256).contains(&states)
        && (1..=states).contains(&initials)
        && terminals <= states
        && arcs <= 1024;
    (!kept).then_some(3)
}

/// 4 and 6, of an initial state.
pub fn initial(states: u16, before: &[u16], state: u16) -> Option<u32> {
    if state >= states {
        Some(4)
    } else if before.contains(&state) {
        Some(6)
    } else {
        None
    }
}

/// 4 and 6, of a terminal state.
pub fn terminal(states: u16, before: &[u16], state: u16) -> Option<u32> {
    if state >= states {
        Some(4)
    } else if before.last().is_some_and(|last| *last >= state) {
        Some(6)
    } else {
        None
    }
}

/// 34, of the letters of a class: from 1 to 63, rising.
pub fn letters(letters: &[u16]) -> Option<u32> {
    let within = letters.iter().all(|letter| (1..=63).contains(letter));
    let rising = letters.windows(2).all(|pair| pair[0] < pair[1]);
    (!within || !rising).then_some(34)
}

/// 34, of a class: from 0 to 7, above those before it, with letters that hold.
pub fn class(before: &Classes, number: u16, class: &[u16]) -> Option<u32> {
    let last = before.iter().rposition(|letters| !letters.is_empty());
    let kept = number <= 7 && last.is_none_or(|last| last < usize::from(number));
    if kept { letters(class) } else { Some(34) }
}

/// The numbers of an arc, as they are looked for.
pub const ORDER: [u32; 5] = [4, 5, 34, 7, 8];

/// The first number, in this order, that an arc earns after the arcs of a table.
pub fn arc(table: &Table, arc: Arc, order: [u32; 5]) -> Option<u32> {
    order
        .into_iter()
        .find(|number| arc_earns(table, arc, *number))
}

fn arc_earns(table: &Table, arc: Arc, number: u32) -> bool {
    match number {
        4 => arc.source >= table.states || arc.target >= table.states,
        5 => arc.upper > 71 || arc.lower > 71,
        34 => !arc.is_plain() && !class_holds(&table.classes, arc),
        7 => table
            .arcs
            .last()
            .is_some_and(|last| last.source > arc.source),
        _ => table.arcs.iter().any(|other| other.bare() == arc.bare()),
    }
}

/// 20, of the penalty of a loaded arc.
pub fn penalty(penalty: u16) -> Option<u32> {
    (penalty > 255).then_some(20)
}

/// The same class on both sides, and a defined one.
fn class_holds(classes: &Classes, arc: Arc) -> bool {
    arc.upper == arc.lower && table::class(classes, arc.upper).is_some()
}
