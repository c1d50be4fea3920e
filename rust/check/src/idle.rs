//! Idle cycles that arcs lead to from an initial state: closed walks of arcs that read nothing. Here is how the one that is shown is found
//! in a table of any size; `cycles` has all of a small one.
use crate::query;
use crate::table::{Arc, Table};
use std::collections::{BTreeSet, VecDeque};

/// An arc with no letter on any side that the task reads.
pub fn is_idle(task: u32, arc: &Arc) -> bool {
    let (upper, lower) = query::sides(task).expect("a task");
    !(upper && arc.upper != 0 || lower && arc.lower != 0)
}

/// The states that arcs lead to from the initial ones, which are first. The letters of these arcs play no part.
pub fn reached(table: &Table) -> Vec<u16> {
    let mut states = table.initials.clone();
    let mut followed = 0;
    while let Some(state) = states.get(followed) {
        for arc in table.arcs_of(*state) {
            if !states.contains(&arc.target) {
                states.push(arc.target);
            }
        }
        followed += 1;
    }
    states
}

/// The states that idle arcs lead to from a state, lowest first.
fn targets(table: &Table, task: u32, state: u16) -> BTreeSet<u16> {
    let arcs = table.arcs_of(state).iter();
    let idle = arcs.filter(|arc| is_idle(task, arc));
    idle.map(|arc| arc.target).collect()
}

/// The shortest idle cycle from a state, and among those the one whose states come first. Walks stand in the queue by length, then by
/// their states; where one before has come to a state, another to it is longer or comes later.
fn shortest(table: &Table, task: u32, state: u16) -> Option<Vec<u16>> {
    let mut walks = VecDeque::from([vec![state]]);
    let mut met = BTreeSet::new();
    while let Some(walk) = walks.pop_front() {
        let next = targets(table, task, walk[walk.len() - 1]);
        if next.contains(&state) {
            return Some(walk);
        }
        for target in next {
            if met.insert(target) {
                walks.push_back([&walk[..], &[target]].concat());
            }
        }
    }
    None
}

/// The cycle that refusal 12 shows, from the lowest state that is reached and on an idle cycle; none where arcs lead to no such cycle.
pub fn shown(table: &Table, task: u32) -> Option<Vec<u16>> {
    let mut states = reached(table);
    states.sort();
    let mut states = states.into_iter();
    states.find_map(|state| shortest(table, task, state))
}
