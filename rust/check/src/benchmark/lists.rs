//! The two lists: a letter tree of over 200 states each, and words joined from its own words by a fixed seed.
use readings_check::draw::lists as draw;
use readings_check::random::Random;
use readings_check::tree;
use std::collections::BTreeSet;

/// Words to be read, and their letters.
const WORDS: usize = 50;
const LETTERS: usize = 64;

pub struct List {
    pub name: &'static str,
    pub listed: usize,
    pub states: usize,
    pub table: Vec<u16>,
    pub words: Vec<Vec<u8>>,
}

/// Random words over some letters, until their tree has over 200 states.
fn listed(
    random: &mut Random,
    letters: usize,
    shortest: usize,
    longest: usize,
) -> BTreeSet<Vec<u8>> {
    let mut words = BTreeSet::new();
    while tree::size(words.iter().map(Vec::as_slice)) <= 200 {
        words.insert(draw::word(random, letters, shortest, longest));
    }
    words
}

fn list(name: &'static str, random: &mut Random, tree: BTreeSet<Vec<u8>>) -> List {
    let table = tree::table(&tree);
    let parts: Vec<Vec<u8>> = tree.into_iter().collect();
    List {
        name,
        listed: parts.len(),
        states: table.states.into(),
        table: table.cells(),
        words: (0..WORDS)
            .map(|_| draw::joined(random, &parts, LETTERS))
            .collect(),
    }
}

/// Words of 3 to 8 out of 4 letters: few can be cut in more than one way.
pub fn hardly_ambiguous() -> List {
    let mut random = Random::new(0x4A4D);
    let tree = listed(&mut random, 4, 3, 8);
    list("hardly ambiguous", &mut random, tree)
}

/// Words of 1 to 8 out of 2 letters: each can be cut in very many ways.
pub fn very_ambiguous() -> List {
    let mut random = Random::new(0x7E41);
    let tree = listed(&mut random, 2, 1, 8);
    list("very ambiguous", &mut random, tree)
}
