//! Random word lists, and words to be cut into listed words.
use crate::random::Random;
use std::collections::BTreeSet;

/// A word out of so many letters.
pub fn word(random: &mut Random, letters: usize, shortest: usize, longest: usize) -> Vec<u8> {
    let length = random.within(shortest, longest);
    let each = (0..length).map(|_| random.within(1, letters) as u8);
    each.collect()
}

/// At most so many different words in dictionary order.
fn rising(random: &mut Random, count: usize, letters: usize, longest: usize) -> Vec<Vec<u8>> {
    let drawn = (0..count).map(|_| word(random, letters, 1, longest));
    let words: BTreeSet<Vec<u8>> = drawn.collect();
    words.into_iter().collect()
}

/// Words in dictionary order; there may be too many for a table.
pub fn any(random: &mut Random) -> Vec<Vec<u8>> {
    let letters = *random.pick(&[1, 2, 3, 5, 26, 62]);
    let longest = *random.pick(&[1, 3, 5, 8, 20, 64]);
    let count = match random.below(8) {
        0 => random.below(3),
        1 => random.within(20, 80),
        2 => random.within(80, 300),
        _ => random.within(2, 20),
    };
    rising(random, count, letters, longest)
}

/// A few short words out of few letters, in dictionary order: many words can be cut into them in several ways.
pub fn few(random: &mut Random) -> Vec<Vec<u8>> {
    let (count, letters) = (random.within(1, 12), random.within(1, 3));
    let longest = random.within(1, 5);
    rising(random, count, letters, longest)
}

/// Listed words one after another, with exactly so many letters.
pub fn joined(random: &mut Random, list: &[Vec<u8>], letters: usize) -> Vec<u8> {
    loop {
        let mut word = Vec::new();
        while word.len() < letters {
            word.extend(random.pick(list));
        }
        if word.len() == letters {
            return word;
        }
    }
}

/// Listed words one after another, cut to so many letters; now and then one letter is another.
pub fn nearly_joined(random: &mut Random, list: &[Vec<u8>], most: usize) -> Vec<u8> {
    let words = (0..random.within(1, 8)).flat_map(|_| random.pick(list).clone());
    let mut word: Vec<u8> = words.take(most).collect();
    if random.one_in(6) {
        let at = random.below(word.len());
        word[at] = random.within(1, 63) as u8;
    }
    word
}
