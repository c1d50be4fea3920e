//! The table check, and where each state's arcs begin.
use super::classes::{self, Classes};
use super::{fault, scan};
use readings::limits::{ARC_CELLS, CLASSES_AT};

/// Source, upper letter, lower letter, target, penalty.
pub type Arc = [u16; ARC_CELLS];

/// The parts of a table that keeps the rules.
pub struct View<'a> {
    pub classes: Classes,
    pub initials: &'a [u16],
    pub terminals: &'a [u16],
    pub arcs: &'a [Arc],
    /// For each state, and one past the last, how many arcs have a lower source.
    pub first: [u16; 257],
}

fn counts_hold([states, initials, terminals, arcs]: [u16; CLASSES_AT]) -> bool {
    (1..=256).contains(&states)
        && (1..=states).contains(&initials)
        && terminals <= states
        && arcs <= 1024
}

fn initials_hold(list: &[u16], states: u16) -> bool {
    let mut seen = [0u64; 4];
    for &state in list {
        if state >= states {
            return false;
        }
        let (word, bit) = (state as usize / 64 % 4, 1u64 << (state % 64));
        if seen[word] & bit != 0 {
            return false;
        }
        seen[word] |= bit;
    }
    true
}

fn terminals_hold(list: &[u16], states: u16) -> bool {
    let rise = list
        .windows(2)
        .fold(true, |ok, pair| ok & (pair[0] < pair[1]));
    rise && list.last().is_none_or(|last| *last < states)
}

/// Sources that do not fall and no arc twice, for arcs in any order. Penalties are not compared.
#[cold]
fn distinct<const FAULT: u8>(arcs: &[Arc]) -> bool {
    let mut begin = 0;
    for (k, arc) in arcs.iter().enumerate() {
        if arc[0] < arcs[begin][0] {
            return false;
        }
        if arc[0] > arcs[begin][0] {
            begin = k;
        }
        let same = |other: &Arc| match FAULT {
            fault::PENALTY_COMPARED => other == arc,
            _ => scan::lanes(other) == scan::lanes(arc),
        };
        if arcs[begin..k].iter().any(same) {
            return false;
        }
    }
    true
}

/// A state without arcs begins where the one before it ends.
fn fill(first: &mut [u16]) {
    let empty = first[1..].iter().fold(false, |any, end| any | (*end == 0));
    if empty {
        let mut last = 0;
        for end in first {
            last = last.max(*end);
            *end = last;
        }
    }
}

/// The parts of a table; none where it breaks a rule.
#[inline(always)]
pub fn check<const FAULT: u8, const VECTOR: bool>(table: &[u16]) -> Option<View<'_>> {
    let (counts, rest) = table.split_first_chunk::<CLASSES_AT>()?;
    let [states, initials, terminals, arcs] = *counts;
    if !counts_hold(*counts) {
        return None;
    }
    let (classes, rest) = rest.split_first_chunk::<{ classes::CELLS }>()?;
    let (initials, rest) = rest.split_at_checked(initials.into())?;
    let (terminals, rest) = rest.split_at_checked(terminals.into())?;
    let arcs = rest.get(..ARC_CELLS * arcs as usize)?;
    let arcs = arcs.as_chunks::<ARC_CELLS>().0;
    if !initials_hold(initials, states) || !terminals_hold(terminals, states) {
        return None;
    }
    let classes = classes::read(classes)?;
    let mut first = [0; 257];
    let seen = if VECTOR {
        scan::vector::<FAULT>(arcs, states, &mut first)
    } else {
        scan::portable::<FAULT>(arcs, states, &mut first)
    };
    if !seen.within || !(seen.plain || classes::hold(&classes, arcs)) {
        return None;
    }
    if !seen.rising && !distinct::<FAULT>(arcs) {
        return None;
    }
    fill(&mut first[..=states as usize]);
    Some(View {
        classes,
        initials,
        terminals,
        arcs,
        first,
    })
}
