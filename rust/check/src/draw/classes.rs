//! Random classes, and arcs that have one.
use crate::random::Random;
use crate::table::{Arc, Classes};

/// The letters of a class: mostly few and low, as in words; now and then up to 16 of any.
fn letters(random: &mut Random) -> Vec<u16> {
    let (count, highest) = match random.below(6) {
        0 => (*random.pick(&[1, 2, 15, 16]), 63),
        1 => (random.within(1, 16), 16),
        _ => (random.within(1, 3), 4),
    };
    let mut letters: Vec<u16> = (1..=highest).collect();
    random.shuffle(&mut letters);
    letters.truncate(count);
    letters.sort();
    letters
}

/// So many of the classes.
pub fn some(random: &mut Random, count: usize) -> Classes {
    let mut classes = Classes::default();
    classes[..count].fill_with(|| letters(random));
    random.shuffle(&mut classes);
    classes
}

/// Puts a defined class, if there is any, on one arc in so many.
pub fn put(random: &mut Random, classes: &Classes, arcs: &mut [Arc], one_in: usize) {
    let defined = (0..8).filter(|k| !classes[*k].is_empty());
    let defined: Vec<u16> = defined.map(|k| k as u16).collect();
    for arc in arcs {
        if !defined.is_empty() && random.one_in(one_in) {
            *arc = Arc::of_class(arc.source, *random.pick(&defined), arc.target);
        }
    }
}
