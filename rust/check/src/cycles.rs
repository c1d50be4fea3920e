//! Every idle cycle that is reached, by going through all walks, and the one that is shown as the least of them. There are very many walks:
//! for small tables only.
use crate::idle;
use crate::table::Table;

/// Goes on with a walk of idle arcs that has no state twice; an arc back to its first state makes it a cycle.
fn go_on(table: &Table, task: u32, walk: &mut Vec<u16>, cycles: &mut Vec<Vec<u16>>) {
    let last = walk[walk.len() - 1];
    let arcs = table.arcs_of(last).iter();
    for arc in arcs.filter(|arc| idle::is_idle(task, arc)) {
        if arc.target == walk[0] {
            cycles.push(walk.clone());
        } else if !walk.contains(&arc.target) {
            walk.push(arc.target);
            go_on(table, task, walk, cycles);
            walk.pop();
        }
    }
}

/// All idle cycles that are reached, each from every one of its states.
pub fn all(table: &Table, task: u32) -> Vec<Vec<u16>> {
    let mut cycles = Vec::new();
    for state in idle::reached(table) {
        go_on(table, task, &mut vec![state], &mut cycles);
    }
    cycles
}

/// The one that refusal 12 shows: by its first state, then its length, then its states one by one.
pub fn shown(table: &Table, task: u32) -> Option<Vec<u16>> {
    let key = |cycle: &Vec<u16>| (cycle[0], cycle.len(), cycle.clone());
    all(table, task).into_iter().min_by_key(key)
}
