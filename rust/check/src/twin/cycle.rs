//! The search for an idle cycle that is reached. Idle arcs whose target has none fall away until nothing changes; what is left leads
//! round, and only then it matters what is reached, and which cycle is shown.
use super::check::{Arc, View};
use super::fault;
use super::shown::{self, Step};
use crate::answer::CYCLE;
use crate::engine::Start;

#[inline(always)]
pub fn is_idle<const UP: bool, const LOW: bool>(arc: &Arc) -> bool {
    (!UP || arc[1] == 0) & (!LOW || arc[2] == 0)
}

/// Writes the states of the cycle shown into cells of zeros, and tells how many there are; 0 and nothing written where there is none.
#[inline(always)]
pub fn find<const UP: bool, const LOW: bool, const FAULT: u8>(
    view: &View,
    start: Start,
    cycle: &mut [u16; CYCLE],
) -> usize {
    let mut idle: [Step; 1024] = [[0; 2]; 1024];
    let mut count = 0;
    let mut leaving = [0u16; 256]; // idle arcs from each state
    for arc in view.arcs.iter().rev() {
        let mut is_idle = is_idle::<UP, LOW>(arc);
        if FAULT == fault::PENALTY_NOT_IDLE {
            is_idle &= arc[4] == 0;
        }
        idle[count & 1023] = [arc[0] as u8, arc[3] as u8];
        count += usize::from(is_idle);
        leaving[arc[0] as usize & 255] += u16::from(is_idle);
    }
    // Last arcs first: what leads to a higher state falls away in one round.
    loop {
        let mut kept = 0;
        for k in 0..count {
            let [source, target] = idle[k];
            if leaving[target as usize] == 0 {
                leaving[source as usize] -= 1;
            } else {
                idle[kept] = [source, target];
                kept += 1;
            }
        }
        if kept == 0 {
            return 0;
        }
        if kept == count {
            return tell::<UP, LOW, FAULT>(view, start, &mut idle[..kept], &leaving, cycle);
        }
        count = kept;
    }
}

/// The shown cycle into its cells.
#[cold]
#[inline(never)]
fn tell<const UP: bool, const LOW: bool, const FAULT: u8>(
    view: &View,
    start: Start,
    idle: &mut [Step],
    leaving: &[u16; 256],
    cycle: &mut [u16; CYCLE],
) -> usize {
    let shown = shown::shown::<UP, LOW, FAULT>(view, start, idle, leaving);
    let states = shown.unwrap_or_default();
    for (cell, state) in cycle.iter_mut().zip(&states) {
        *cell = u16::from(*state);
    }
    states.len()
}
