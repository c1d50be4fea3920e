//! The table of a word list: each word is looked at once and adds its states to the tree, then the cells are written.
use super::check::Arc;
use super::fault;
use super::spelled::{self, HEAD, Word};
use crate::answer::Answer;
use readings::limits::{ARC_CELLS, CLASSES_AT, CUT, INITIALS_AT, MOST_STATES, MOST_WORD};
use readings::limits::{TREE_CELLS, table_cells};

/// Room for one state and one letter more than there may be, for the faults that let them pass, and for a head beyond.
const STATES: usize = MOST_STATES + 1 + HEAD;
const LETTERS: usize = MOST_WORD + 1 + HEAD;

/// The tree of the words so far.
struct Tree {
    states: usize,
    /// Of each state the letter to it, the state it is reached from, and how many are reached from there before it.
    letter: [u8; STATES],
    parent: [u8; STATES],
    rank: [u8; STATES],
    /// How many states are reached from each one; one for those that are not there yet.
    children: [u8; STATES],
    words: usize,
    /// The words' last states, in order, and for each state whether it is one.
    ends: [u16; STATES],
    is_end: [u8; STATES],
    /// The states of the last word's beginnings.
    path: [u16; LETTERS + 1],
}

impl Tree {
    /// The root.
    #[inline(always)]
    fn new<const FAULT: u8>() -> Tree {
        let root_ends = FAULT == fault::ROOT_AN_END;
        let mut tree = Tree {
            states: 1,
            letter: [0; STATES],
            parent: [0; STATES],
            rank: [0; STATES],
            children: [1; STATES],
            words: usize::from(root_ends),
            ends: [0; STATES],
            is_end: [0; STATES],
            path: [0; LETTERS + 1],
        };
        tree.children[0] = 0;
        tree.is_end[0] = u8::from(root_ends);
        for (state, parent) in (1..).zip(&mut tree.parent[1..]) {
            *parent = (state - 1) as u8; // where a word adds more than one
        }
        tree
    }

    /// The number that a word earns, by the one before and how many letters they have in common.
    #[inline(always)]
    fn judge<const FAULT: u8>(
        &self,
        word: Word,
        before: Word,
        common: usize,
        all_hold: bool,
    ) -> Option<u32> {
        let most = match FAULT {
            fault::STATES_257 => MOST_STATES + 1,
            fault::STATES_255 => MOST_STATES - 1,
            _ => MOST_STATES,
        };
        let bad = !all_hold && !spelled::letters_hold::<FAULT>(word.letters);
        let falls = !spelled::rises::<FAULT>(word, before, common);
        let over = self.states + word.letters.len() - common > most;
        let numbers = match FAULT {
            fault::ORDER_FIRST => [(falls, 31), (bad, 30), (over, 32)],
            fault::STATES_FIRST => [(bad, 30), (over, 32), (falls, 31)],
            _ => [(bad, 30), (falls, 31), (over, 32)],
        };
        let told = numbers.into_iter().find(|(is_due, _)| *is_due);
        told.map(|(_, number)| number)
    }

    /// The states of a word after those that are common, and its end.
    #[inline(always)]
    fn add(&mut self, word: Word, common: usize) {
        let (from, first) = (self.path[common] as u8, self.states);
        let length = word.letters.len();
        self.parent[first] = from;
        self.rank[first] = self.children[from as usize];
        self.children[from as usize] += 1;
        if length <= HEAD {
            let letters = (word.head << (8 * common)).to_be_bytes();
            self.letter[first..first + HEAD].copy_from_slice(&letters);
            for (k, state) in self.path[common + 1..][..HEAD].iter_mut().enumerate() {
                *state = (first + k) as u16;
            }
        } else {
            for (k, letter) in word.letters[common..].iter().enumerate() {
                self.letter[first + k] = *letter;
                self.path[common + 1 + k] = (first + k) as u16;
            }
        }
        self.states += length - common;
        self.children[self.states - 1] = 0;
    }

    /// A word's end.
    #[inline(always)]
    fn end(&mut self, length: usize) {
        let state = self.path[length];
        self.ends[self.words] = state;
        self.is_end[state as usize] = 1;
        self.words += 1;
    }

    /// All words, until one earns a number.
    #[inline(always)]
    fn grow<const FAULT: u8>(&mut self, mut bytes: &[u8]) -> Option<u32> {
        let all_hold = spelled::letters_hold::<FAULT>(bytes); // if not, by a length of 63 or 64 perhaps, each word is looked at
        let (mut before, mut late) = (spelled::NONE, None);
        while !bytes.is_empty() {
            let Some((word, rest)) = spelled::first::<FAULT>(bytes) else {
                let is_cut = bytes.len() <= bytes[0].into();
                return (FAULT != fault::CUT_DROPPED || !is_cut).then_some(30);
            };
            let common = spelled::common(word, before);
            match self.judge::<FAULT>(word, before, common, all_hold) {
                Some(32) if FAULT == fault::STATES_LAST => late = Some(32),
                Some(number) => return Some(number),
                None => self.take::<FAULT>(word, before, common),
            }
            (before, bytes) = (word, rest);
        }
        late
    }

    /// A word that earns nothing.
    #[inline(always)]
    fn take<const FAULT: u8>(&mut self, word: Word, before: Word, common: usize) {
        if FAULT == fault::REPEATED && word.letters == before.letters {
            return;
        }
        if FAULT == fault::SHORTER_MISSED && common > 0 && common == before.letters.len() {
            self.words -= 1;
            self.is_end[self.path[common] as usize] = 0;
        }
        if word.letters.len() > common {
            self.add(word, common);
        }
        self.end(word.letters.len());
    }

    /// How many arcs it has.
    fn arcs(&self) -> usize {
        self.states - 1 + self.words
    }

    /// Where the arcs of each state begin.
    #[inline(always)]
    fn begins(&self) -> [u16; STATES] {
        let (mut begins, mut sum) = ([0; STATES], 0);
        let arcs = self.children.iter().zip(&self.is_end);
        for (begin, (children, is_end)) in begins[..self.states].iter_mut().zip(arcs) {
            *begin = sum;
            sum += u16::from(*children) + u16::from(*is_end);
        }
        begins
    }

    /// Its cells.
    #[inline(always)]
    fn write<const FAULT: u8>(&self, cells: &mut [u16]) {
        let counts = [self.states, 1, self.words, self.arcs()].map(|n| n as u16);
        let (head, rest) = cells.split_at_mut(INITIALS_AT);
        head.fill(0); // no classes
        head[..CLASSES_AT].copy_from_slice(&counts);
        rest[0] = 0;
        let (terminals, rest) = rest[1..].split_at_mut(self.words);
        let ends = &self.ends[..self.words];
        terminals.copy_from_slice(ends);
        let arcs = rest.as_chunks_mut::<ARC_CELLS>().0;
        let begins = self.begins();
        for state in 1..self.states {
            let parent = usize::from(self.parent[state]);
            let cut_first = FAULT == fault::CUT_FIRST && self.is_end[parent] == 1;
            let rank = usize::from(self.rank[state]) + usize::from(cut_first);
            let letter = self.letter[state];
            arcs[begins[parent] as usize + rank] = arc(parent, letter, letter, state);
        }
        for &end in ends {
            let end = usize::from(end);
            let rank = match FAULT {
                fault::CUT_FIRST => 0,
                _ => usize::from(self.children[end]),
            };
            let read = if FAULT == fault::CUT_READ { CUT } else { 0 };
            arcs[begins[end] as usize + rank] = arc(end, read, CUT, 0);
        }
    }
}

/// An arc without a penalty, its other cells made as one number.
#[inline(always)]
fn arc(source: usize, upper: u8, lower: u8, target: usize) -> Arc {
    let letters = u64::from(upper) << 16 | u64::from(lower) << 32;
    let lanes = source as u64 | letters | (target as u64) << 48;
    // SAFETY: both types are eight bytes of any value.
    let [source, upper, lower, target]: [u16; 4] = unsafe { std::mem::transmute(lanes.to_le()) };
    [source, upper, lower, target, 0]
}

/// A table for lent words: 30, 31 and 32, then 24.
#[inline(always)]
pub fn read<const FAULT: u8>(words: &[u8], table: &mut [u16]) -> Answer {
    let mut tree = Tree::new::<FAULT>();
    let mut number = tree.grow::<FAULT>(words);
    if FAULT == fault::BAD_FIRST && spelled::any_bad(words)
        || FAULT == fault::NONE_REFUSED && words.is_empty()
    {
        number = Some(30);
    }
    let size = table_cells(1, tree.words, tree.arcs());
    let is_short = table.len() < size;
    if let Some(number) = number {
        if FAULT == fault::LIST_SHORT_FIRST && is_short {
            return Answer::refused(24, 0);
        }
        if FAULT == fault::REFUSED_TOUCHED
            && let Some(cell) = table.first_mut()
        {
            *cell = 0;
        }
        return Answer::refused(number, 0);
    }
    if is_short {
        if FAULT == fault::SHORT_FILLED {
            let mut cells = [0; TREE_CELLS];
            tree.write::<FAULT>(&mut cells);
            table.copy_from_slice(&cells[..table.len()]);
        }
        return Answer::refused(24, 0);
    }
    let (cells, beyond) = table.split_at_mut(size);
    tree.write::<FAULT>(cells);
    if FAULT == fault::CELL_AFTER
        && let Some(cell) = beyond.first_mut()
    {
        *cell = 0;
    }
    Answer::done(size)
}
