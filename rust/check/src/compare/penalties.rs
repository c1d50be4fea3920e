//! Faults of penalties, or nearly: in loaded tables, and in the lines of a text.
use super::classes::{is_arc, joined, some_arc, split};
use crate::random::Random;
use readings::limits::{ARC_CELLS, INITIALS_AT};

/// Penalties at the edges of the rules; some would keep them if they were cut to a byte.
const PENALTIES: [u16; 10] = [0, 1, 2, 254, 255, 256, 257, 511, 4_096, 65_535];

/// The penalty of an arc changed, or an arc put in place of the next one, which keeps its penalty. What lies beyond the end is not changed.
pub fn damage_cells(random: &mut Random, cells: &mut [u16]) {
    if cells.len() <= INITIALS_AT {
        return;
    }
    let at = some_arc(random, cells);
    let last = at + ARC_CELLS - 1;
    if random.one_in(3) && at + 2 * ARC_CELLS <= cells.len() {
        cells.copy_within(at..last, at + ARC_CELLS);
    } else if let Some(penalty) = cells.get_mut(last) {
        *penalty = *random.pick(&PENALTIES);
    }
}

/// An arc's line with its penalty or its kind changed, with a byte more or less, or repeated with another penalty.
pub fn damage_line(random: &mut Random, source: &mut Vec<u8>) {
    let mut lines = split(source);
    let arcs = (0..lines.len()).filter(|at| is_arc(&lines[*at]));
    let arcs: Vec<usize> = arcs.collect();
    if arcs.is_empty() {
        return;
    }
    let at = *random.pick(&arcs);
    let penalty = *random.pick(&[0, 1, 2, 254, 255]);
    let line = &mut lines[at];
    match random.below(7) {
        0 => line[0] = 11 - line[0],
        1 => line.push(penalty),
        2 => _ = line.pop(),
        3 => {
            line.resize(7, 0);
            line[0] = 4;
        }
        4 | 5 => penalize(line, penalty),
        _ => {
            let mut again = line.clone();
            penalize(&mut again, penalty);
            let other = *random.pick(&arcs);
            lines[other] = again;
        }
    }
    *source = joined(&lines);
}

/// The line of the same arc with this penalty, be it 0.
fn penalize(line: &mut Vec<u8>, penalty: u8) {
    line.truncate(7);
    line[0] = 7;
    line.push(penalty);
}
