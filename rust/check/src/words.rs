//! Word lists as they are lent: what is wrong with one, the table of one, and the ways to cut a word into listed words.
use crate::answer::Answer;
use crate::table::Table;
use crate::text;
use crate::tree;
use std::cmp::Reverse;

/// States of a tree.
const MOST: usize = 256;

/// Words as they are lent, each as a length byte and its letters. None is longer than a byte can tell.
pub fn packed(words: &[Vec<u8>]) -> Vec<u8> {
    let mut bytes = Vec::new();
    for word in words {
        bytes.push(u8::try_from(word.len()).expect("a length of one byte"));
        bytes.extend(word);
    }
    bytes
}

/// The words of lent bytes; one that is cut short, the last, is none.
fn unpacked(mut bytes: &[u8]) -> Vec<Option<&[u8]>> {
    let mut words = Vec::new();
    while let Some((length, rest)) = bytes.split_first() {
        let word = rest.split_at_checked((*length).into());
        words.push(word.map(|(letters, _)| letters));
        bytes = word.map_or(&[], |(_, after)| after);
    }
    words
}

fn holds(word: &[u8]) -> bool {
    (1..=64).contains(&word.len()) && word.iter().all(|letter| (1..=62).contains(letter))
}

/// The first word that is bad.
fn first_bad(words: &[Option<&[u8]>]) -> Option<usize> {
    words.iter().position(|word| !word.is_some_and(holds))
}

/// The first word that does not rise.
fn first_fall(words: &[Option<&[u8]>]) -> Option<usize> {
    (1..words.len()).find(|at| words[at - 1] >= words[*at])
}

/// The first word with which there are too many states. More words never have fewer.
fn first_over(words: &[Option<&[u8]>]) -> Option<usize> {
    let fit = |count: &usize| tree::size(words[..*count].iter().copied().flatten()) <= MOST;
    if fit(&words.len()) {
        return None;
    }
    let counts: Vec<usize> = (1..=words.len()).collect();
    Some(counts.partition_point(fit))
}

/// The lowest number of the earliest word that has one.
fn fault(words: &[Option<&[u8]>]) -> Option<u32> {
    let firsts = [
        (first_bad(words), 30),
        (first_fall(words), 31),
        (first_over(words), 32),
    ];
    let told = firsts
        .into_iter()
        .filter_map(|(at, number)| Some((at?, number)));
    told.min().map(|(_, number)| number)
}

/// The table of lent words, or the number that they earn.
pub fn parse(bytes: &[u8]) -> Result<Table, u32> {
    let words = unpacked(bytes);
    match fault(&words) {
        Some(number) => Err(number),
        None => {
            let words = words.into_iter().flatten().map(<[u8]>::to_vec);
            Ok(tree::table(&words.collect()))
        }
    }
}

/// Lent words to cells: 30, 31 and 32, then 24.
pub fn read(bytes: &[u8], destination: &mut [u16]) -> Answer {
    match parse(bytes) {
        Err(number) => Answer::refused(number, 0),
        Ok(table) => text::deliver(&table.cells(), destination),
    }
}

/// All ways to cut a word into listed words, the mark between two of them; where two ways part, the longer word is first.
pub fn cuts(list: &[Vec<u8>], word: &[u8]) -> Vec<Vec<u8>> {
    let mut fronts: Vec<&Vec<u8>> = list.iter().filter(|one| word.starts_with(one)).collect();
    fronts.sort_by_key(|front| Reverse(front.len()));
    let mut all = Vec::new();
    for front in fronts {
        let rest = &word[front.len()..];
        if rest.is_empty() {
            all.push(front.clone());
        }
        let more = cuts(list, rest).into_iter();
        all.extend(more.map(|cut| [&front[..], &[tree::MARK as u8], &cut].concat()));
    }
    all
}
