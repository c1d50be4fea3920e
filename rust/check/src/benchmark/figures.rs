//! Medians and spreads, printed.
use super::lists::List;
use super::runs::{Pair, Times, Work};
use super::sheets::Load;
use super::words::Vocabulary;
use std::time::Duration;

/// The least, the middle and the most of some numbers.
fn spread(mut numbers: Vec<f64>) -> (f64, f64, f64) {
    numbers.sort_by(f64::total_cmp);
    let last = numbers.len() - 1;
    (numbers[0], numbers[last / 2], numbers[last])
}

fn ratio(pairs: &[Pair]) -> String {
    let each = pairs
        .iter()
        .map(|p| p.ours.as_secs_f64() / p.rust.as_secs_f64());
    let (least, middle, most) = spread(each.collect());
    format!("{middle:.3} ({least:.3} to {most:.3})")
}

/// The median time of one side in nanoseconds, divided.
fn nanoseconds(pairs: &[Pair], side: fn(&Pair) -> Duration, parts: u64) -> f64 {
    let each = pairs.iter().map(|p| side(p).as_secs_f64() * 1e9);
    spread(each.collect()).1 / parts as f64
}

fn sides(other: &str, pairs: &[Pair], parts: u64) -> String {
    let ours = nanoseconds(pairs, |p| p.ours, parts);
    let rust = nanoseconds(pairs, |p| p.rust, parts);
    format!("ours {ours:.2} ns, {other} {rust:.2} ns")
}

/// What the list is and what its runs come to.
pub fn head(list: &List, work: &Work) {
    println!();
    println!(
        "{}: tree of {} words, {} states; {} words of 64 letters",
        list.name,
        list.listed,
        list.states,
        list.words.len()
    );
    println!(
        "  {} readings, {} runs to their end, {} calls, {} steps",
        work.readings, work.ended, work.calls, work.steps
    );
}

/// The times against one twin. A run is a start and its calls; its time is divided by its steps, and by its calls.
pub fn show(other: &str, work: &Work, times: &Times) {
    println!("  ours / {other}: {}", ratio(&times.runs));
    println!(
        "    a run, a step:  {}",
        sides(other, &times.runs, work.steps)
    );
    println!(
        "    a run, a call:  {}",
        sides(other, &times.runs, work.calls)
    );
    println!(
        "    a start:        {}, ratio {}",
        sides(other, &times.starts, 1),
        ratio(&times.starts)
    );
}

/// The times of a word list's table against the twin.
pub fn show_words(words: &Vocabulary, pairs: &[Pair]) {
    println!();
    println!(
        "{}: a list of {} bytes, a table of {} states and {} cells",
        words.name,
        words.bytes(),
        words.states(),
        words.cells()
    );
    println!("  ours / Rust: {}", ratio(pairs));
    println!("    a table:        {}", sides("Rust", pairs, 1));
}

/// The times of a sheet against the twin, and how many megabytes of it are written in a second.
pub fn show_sheet(load: &Load, pairs: &[Pair]) {
    let megabytes = |side| load.bytes() as f64 * 1e3 / nanoseconds(pairs, side, 1);
    println!();
    println!("{}: a sheet of {} bytes", load.name, load.bytes());
    println!("  ours / Rust: {}", ratio(pairs));
    println!("    a sheet:        {}", sides("Rust", pairs, 1));
    println!(
        "    in a second:    ours {:.0} MB, Rust {:.0} MB",
        megabytes(|p| p.ours),
        megabytes(|p| p.rust)
    );
}
