//! Letter trees: the table whose synthesis cuts a word into listed words.
use crate::table::{Arc, Table};
use std::collections::BTreeSet;

/// The letter that marks the end of a listed word.
pub const MARK: u16 = 63;

/// A word in small letters, as letters 1 to 26.
pub fn letters(word: &str) -> Vec<u8> {
    word.bytes().map(|c| c - b'a' + 1).collect()
}

/// Letters 1 to 26 as small letters, and the mark as a bar.
pub fn shown(letters: &[u8]) -> String {
    let face = |letter: &u8| match letter {
        63 => '|',
        _ => char::from(b'a' - 1 + letter),
    };
    letters.iter().map(face).collect()
}

/// The beginnings of some words, in dictionary order: the tree's states. The empty one is there also where there are no words.
fn beginnings<'a>(words: impl IntoIterator<Item = &'a [u8]>) -> BTreeSet<&'a [u8]> {
    let all = words
        .into_iter()
        .flat_map(|word| (0..=word.len()).map(move |n| &word[..n]));
    all.chain([&[][..]]).collect()
}

/// One state per common beginning, numbered in dictionary order; the root is initial, word ends are terminal. An arc reads and
/// writes one letter, and the last arc of a word end reads nothing, writes the mark and goes back to the root.
pub fn table(words: &BTreeSet<Vec<u8>>) -> Table {
    let states: Vec<&[u8]> = beginnings(words.iter().map(Vec::as_slice))
        .into_iter()
        .collect();
    let mut table = Table {
        states: states.len() as u16,
        initials: vec![0],
        ..Table::default()
    };
    for (source, beginning) in states.iter().enumerate() {
        for (target, longer) in states.iter().enumerate() {
            if longer.len() == beginning.len() + 1 && longer.starts_with(beginning) {
                let letter = u16::from(longer[beginning.len()]);
                table
                    .arcs
                    .push(Arc::new(source as u16, letter, letter, target as u16));
            }
        }
        if words.contains(*beginning) {
            table.terminals.push(source as u16);
            table.arcs.push(Arc::new(source as u16, 0, MARK, 0));
        }
    }
    table
}

/// How many states the tree of some words has.
pub fn size<'a>(words: impl IntoIterator<Item = &'a [u8]>) -> usize {
    beginnings(words).len()
}
