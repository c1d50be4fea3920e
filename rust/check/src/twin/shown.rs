//! Which cycle is shown: from the lowest reached state that is on one the shortest, and among those the one whose states come first.
use super::check::View;
use super::{fault, reach};
use crate::engine::Start;
use std::collections::VecDeque;
use std::iter;

/// The source and the target of an idle arc.
pub type Step = [u8; 2];

/// The states of the cycle shown; none where no cycle is reached. It is handed the idle arcs that are left, the last ones first, and how
/// many of them leave each state.
pub fn shown<const UP: bool, const LOW: bool, const FAULT: u8>(
    view: &View,
    start: Start,
    idle: &mut [Step],
    leaving: &[u16; 256],
) -> Option<Vec<u8>> {
    match FAULT {
        fault::AS_LISTED => idle.reverse(),
        fault::DEPTH_FIRST => idle.sort_unstable_by_key(|[source, target]| (*source, !target)),
        _ => idle.sort_unstable(),
    }
    let mut reached = reach::states::<UP, LOW, FAULT>(view, start);
    reached.retain(|state| leaving[*state as usize] != 0);
    reached.sort_unstable();
    let from = |state: u8| round::<FAULT>(idle, state);
    let mut reached = reached.into_iter();
    let mut states = match FAULT {
        fault::SHORTEST_OF_ALL => reached.filter_map(from).min_by_key(Vec::len),
        _ => reached.find_map(from),
    }?;
    match FAULT {
        fault::UNREACHED_TOLD => states = (0..=255).find_map(from)?,
        fault::BEGUN_ELSEWHERE => states.rotate_left(1),
        _ => {}
    }
    Some(states)
}

/// The cycle from a state, if it is on one. States are met by the length of the way to them and then by the states on it, since arcs
/// stand by source and target; so the first one with an arc back ends the shortest and first cycle.
fn round<const FAULT: u8>(idle: &[Step], begin: u8) -> Option<Vec<u8>> {
    let mut before = [None; 256]; // the state from which each one was met
    let mut met = VecDeque::from([begin]);
    let next = |met: &mut VecDeque<u8>| match FAULT {
        fault::DEPTH_FIRST => met.pop_back(),
        _ => met.pop_front(),
    };
    while let Some(state) = next(&mut met) {
        let first = idle.partition_point(|[source, _]| *source < state);
        let steps = idle[first..].iter();
        for [_, target] in steps.take_while(|[source, _]| *source == state) {
            if *target == begin {
                let way = iter::successors(Some(state), |state| before[*state as usize]);
                let mut states: Vec<u8> = way.collect();
                states.reverse();
                return Some(states);
            }
            if before[*target as usize].is_none() {
                before[*target as usize] = Some(state);
                met.push_back(*target);
            }
        }
    }
    None
}
