//! Tables of word lists, made by both in turn.
use super::runs::{Pair, in_turn};
use readings::limits::{MOST_STATES, TREE_CELLS};
use readings_check::answer::Answer;
use readings_check::compare::listed;
use readings_check::draw::lists as draw;
use readings_check::engine::Trees;
use readings_check::german;
use readings_check::random::Random;
use readings_check::tree;
use readings_check::words;
use std::collections::BTreeSet;
use std::hint::black_box;
use std::time::{Duration, Instant};

/// Tables in one timing: fewer are too short to time.
const TABLES: u32 = 2_000;

/// A list whose table is made.
pub struct Vocabulary {
    pub name: &'static str,
    lent: Vec<u8>,
    table: Vec<u16>,
}

fn vocabulary(name: &'static str, list: &[Vec<u8>]) -> Vocabulary {
    let lent = words::packed(list);
    let table = words::parse(&lent).expect("a list that keeps the rules");
    Vocabulary {
        name,
        lent,
        table: table.cells(),
    }
}

fn states(list: &BTreeSet<Vec<u8>>) -> usize {
    tree::size(list.iter().map(Vec::as_slice))
}

/// Random words of 3 to 8 out of 26 letters, until their tree has as many states as there can be.
fn full() -> Vec<Vec<u8>> {
    let mut random = Random::new(0x256);
    let mut list = BTreeSet::new();
    while states(&list) < MOST_STATES {
        let mut longer = list.clone();
        longer.insert(draw::word(&mut random, 26, 3, 8));
        if states(&longer) <= MOST_STATES {
            list = longer;
        }
    }
    list.into_iter().collect()
}

/// Lists of 256 states, of longer words and of as many as there can be; and a small list.
pub fn vocabularies() -> [Vocabulary; 3] {
    [
        vocabulary("words of 3 to 8 letters", &full()),
        vocabulary("words of 1 and 2 letters", &listed::short(255)),
        vocabulary("eight German words", &german::letters(&german::EIGHT)),
    ]
}

impl Vocabulary {
    pub fn bytes(&self) -> usize {
        self.lent.len()
    }

    pub fn states(&self) -> u16 {
        self.table[0]
    }

    pub fn cells(&self) -> usize {
        self.table.len()
    }

    fn make(&self, trees: &impl Trees, table: &mut [u16]) -> Answer {
        trees.tree(black_box(&self.lent), table)
    }

    /// A table is made as it must be.
    fn check(&self, trees: &impl Trees, table: &mut [u16]) {
        assert_eq!(self.make(trees, table), Answer::done(self.cells()));
        assert!(table.starts_with(&self.table), "on {}", self.name);
    }
}

/// The time of one table, which is made so often.
fn time(trees: &impl Trees, words: &Vocabulary, table: &mut [u16]) -> Duration {
    let begin = Instant::now();
    for _ in 0..TABLES {
        black_box(words.make(trees, table));
    }
    begin.elapsed() / TABLES
}

/// Interleaved timings of tables, after both have made the same.
pub fn measure(
    ours: &impl Trees,
    rust: &impl Trees,
    words: &Vocabulary,
    repetitions: usize,
) -> Vec<Pair> {
    let (mut table, mut other) = ([0; TREE_CELLS], [0; TREE_CELLS]);
    words.check(ours, &mut table);
    words.check(rust, &mut other);
    let pair = |turn| {
        in_turn(
            turn,
            || time(ours, words, &mut table),
            || time(rust, words, &mut other),
        )
    };
    (0..repetitions).map(pair).collect()
}
