//! What arcs lead to from the initial states, whatever their letters.
use super::check::{Arc, View};
use super::{classes, cycle, fault};
use crate::engine::Start;

/// The states that the arcs followed lead to from the initial ones, as they are met.
#[inline(always)]
fn met(view: &View, follows: impl Fn(&Arc) -> bool) -> Vec<u8> {
    let mut seen = [false; 256];
    let mut states = [0u8; 257]; // those seen; one seen again is written after them and does not count
    let mut count = 0;
    for state in view.initials {
        seen[*state as usize & 255] = true;
        states[count] = *state as u8;
        count += 1;
    }
    let mut done = 0;
    while done < count {
        let state = states[done] as usize;
        let (begin, end) = (view.first[state] as usize, view.first[state + 1] as usize);
        for arc in view.arcs[begin..end].iter().filter(|arc| follows(arc)) {
            let target = arc[3] as usize & 255;
            states[count] = target as u8;
            count += usize::from(!seen[target]);
            seen[target] = true;
        }
        done += 1;
    }
    states[..count].to_vec()
}

/// The letters of a word, a bit each, and bit 0 for no letter.
fn known(word: &[u8]) -> u64 {
    word.iter().fold(1, |known, letter| known | 1 << letter)
}

/// The states that are reached, as they are met.
pub fn states<const UP: bool, const LOW: bool, const FAULT: u8>(
    view: &View,
    start: Start,
) -> Vec<u8> {
    let fits = |arc: &Arc| {
        let letters = |side: usize| match arc[side] {
            0 => u64::MAX,
            _ if classes::is_of_class(arc) => classes::letters(&view.classes, arc),
            letter => 1 << letter,
        };
        let (above, below) = (
            letters(1) & known(start.upper),
            letters(2) & known(start.lower),
        );
        let alike = !UP || !LOW || !classes::is_of_class(arc) || above & below != 0;
        (!UP || above != 0) && (!LOW || below != 0) && alike
    };
    match FAULT {
        fault::ALL_REACHED => (0..=255).collect(),
        fault::INITIALS_REACHED => met(view, |_| false),
        fault::IDLE_REACHED => met(view, cycle::is_idle::<UP, LOW>),
        fault::WORD_REACHED => met(view, fits),
        _ => met(view, |_| true),
    }
}
