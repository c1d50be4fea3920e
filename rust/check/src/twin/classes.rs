//! The classes of a table, each as one number with a bit for each of its letters, and the arcs that have one.
use super::check::Arc;
use readings::limits::{CLASS_LETTERS, FIRST_CLASS, MOST_CLASSES};

/// The letters of each class; 0 where it is not defined.
pub type Classes = [u64; MOST_CLASSES];

const FIRST: u16 = FIRST_CLASS as u16;

/// Cells of the classes.
pub const CELLS: usize = MOST_CLASSES * CLASS_LETTERS;

/// The classes of their cells; none where a row breaks a rule.
#[inline(always)]
pub fn read(cells: &[u16; CELLS]) -> Option<Classes> {
    let any = cells.iter().fold(0, |any, cell| any | cell);
    if any == 0 {
        return Some([0; MOST_CLASSES]);
    }
    rows(cells)
}

/// Letters from 1 to 63 that rise, then zeros.
#[cold]
fn rows(cells: &[u16; CELLS]) -> Option<Classes> {
    let mut classes = [0; MOST_CLASSES];
    for (class, row) in classes.iter_mut().zip(cells.chunks(CLASS_LETTERS)) {
        let mut before = 0;
        let mut letters = row.iter().copied();
        for letter in letters.by_ref().take_while(|letter| *letter != 0) {
            if letter <= before || letter >= FIRST {
                return None;
            }
            *class |= 1 << letter;
            before = letter;
        }
        if letters.any(|cell| cell != 0) {
            return None;
        }
    }
    Some(classes)
}

/// Whether an arc has a class.
#[inline(always)]
pub fn is_of_class(arc: &Arc) -> bool {
    arc[1] >= FIRST
}

/// The letters of the class of an arc that has one.
#[inline(always)]
pub fn letters(classes: &Classes, arc: &Arc) -> u64 {
    classes[usize::from(arc[1] - FIRST) % MOST_CLASSES]
}

/// Each arc has no class, or a defined one on both sides. Their letters are within their limits.
#[cold]
pub fn hold(classes: &Classes, arcs: &[Arc]) -> bool {
    let holds = |arc: &Arc| match is_of_class(arc) {
        true => arc[1] == arc[2] && letters(classes, arc) != 0,
        false => arc[2] < FIRST,
    };
    arcs.iter().all(holds)
}
