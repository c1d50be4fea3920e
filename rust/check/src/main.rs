//! The benchmark: the proved library against its twin in Rust, over two lists of 50 words of 64 letters, each word run as a session
//! runs it, over the tables of three word lists, and over two answer sheets. Times mean something on a quiet machine only.
mod benchmark;

use benchmark::{figures, lists, runs, sheets, words};
use readings_check::library::Library;
use readings_check::twin::{PLAIN, SOUND};
use std::env;

/// Interleaved repetitions, unless another number is given.
const REPETITIONS: usize = 41;

fn main() {
    let given = env::args().nth(1).map(|n| n.parse().expect("a number"));
    let repetitions = given.unwrap_or(REPETITIONS);
    println!("{repetitions} interleaved repetitions; a ratio is the median, with least and most");
    for list in [lists::hardly_ambiguous(), lists::very_ambiguous()] {
        let work = runs::warm_up(&Library, &SOUND, &list);
        assert_eq!(work, runs::warm_up(&Library, &PLAIN, &list));
        figures::head(&list, &work);
        let times = runs::measure(&Library, &SOUND, &list, &work, repetitions);
        figures::show("Rust", &work, &times);
        let times = runs::measure(&Library, &PLAIN, &list, &work, repetitions);
        figures::show("plain Rust", &work, &times);
    }
    for list in words::vocabularies() {
        let times = words::measure(&Library, &SOUND, &list, repetitions);
        figures::show_words(&list, &times);
    }
    for load in sheets::loads() {
        let times = sheets::measure(&Library, &SOUND, &load, repetitions);
        figures::show_sheet(&load, &times);
    }
}
