//! Answer sheets, written by both in turn.
use super::runs::{Pair, in_turn};
use readings_check::answer::Answer;
use readings_check::compare::page::Page;
use readings_check::engine::Sheets;
use std::hint::black_box;
use std::time::{Duration, Instant};

/// Bytes of sheets in one timing, at least: fewer are too short to time.
const BYTES: usize = 4_000_000;

/// Readings to be laid out.
pub struct Load {
    pub name: &'static str,
    page: Page,
    lent: Vec<u8>,
}

fn load(name: &'static str, readings: usize, letters: usize) -> Load {
    let page = Page::of_lengths(vec![letters; readings]);
    let lent = page.lent();
    Load { name, page, lent }
}

/// Many readings of a line each, and fewer of many lines.
pub fn loads() -> [Load; 2] {
    [
        load("1,000 readings of 64 letters", 1_000, 64),
        load("100 readings of 4,096 letters", 100, 4_096),
    ]
}

impl Load {
    /// Bytes of the sheet.
    pub fn bytes(&self) -> usize {
        self.page.size()
    }

    fn write(&self, sheets: &impl Sheets, text: &mut [u8]) -> Answer {
        sheets.sheet(black_box(self.page.sheet(&self.lent)), text)
    }
}

/// The time of one sheet, which is written so often.
fn time(sheets: &impl Sheets, load: &Load, rounds: u32, text: &mut [u8]) -> Duration {
    let begin = Instant::now();
    for _ in 0..rounds {
        black_box(load.write(sheets, text));
    }
    begin.elapsed() / rounds
}

/// Interleaved timings of sheets, after both have written the same.
pub fn measure(
    ours: &impl Sheets,
    rust: &impl Sheets,
    load: &Load,
    repetitions: usize,
) -> Vec<Pair> {
    let bytes = load.bytes();
    let (mut text, mut other) = (vec![0; bytes], vec![0; bytes]);
    assert_eq!(load.write(ours, &mut text), Answer::done(bytes));
    assert_eq!(load.write(rust, &mut other), Answer::done(bytes));
    assert!(text == other, "on {}", load.name);
    let rounds = BYTES.div_ceil(bytes) as u32;
    let pair = |turn| {
        in_turn(
            turn,
            || time(ours, load, rounds, &mut text),
            || time(rust, load, rounds, &mut other),
        )
    };
    (0..repetitions).map(pair).collect()
}
