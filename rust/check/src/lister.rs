//! The list of readings, straight from the meaning of a path: every path is gone through by recursion, in order.
use crate::query;
use crate::table::{Arc, Table};

/// A reading, the number of the traversal's entry that holds its path, counted from 1: the step that finds it, and the sum of the
/// penalties on that path.
#[derive(Clone, Debug, PartialEq, Eq)]
pub struct Reading {
    pub step: u64,
    pub letters: Vec<u8>,
    pub sum: u32,
}

/// The readings in order, and how many entries were gone through: all of them, the tree's size, where `whole` is set.
#[derive(Clone, Debug, Default, PartialEq, Eq)]
pub struct Listing {
    pub readings: Vec<Reading>,
    pub size: u64,
    pub whole: bool,
}

/// More entries than were asked for.
struct Cut;

struct Lister<'a> {
    table: &'a Table,
    reads_upper: bool,
    reads_lower: bool,
    ceiling: u32,
    limit: u64,
    output: Vec<u8>,
    listing: Listing,
}

impl Lister<'_> {
    fn entry(&mut self) -> Result<(), Cut> {
        if self.listing.size == self.limit {
            return Err(Cut);
        }
        self.listing.size += 1;
        Ok(())
    }

    /// The entry of a path that ends in `state` with so much of the ceiling and of each word left, and what follows it.
    fn path(&mut self, state: u16, spare: u32, upper: &[u8], lower: &[u8]) -> Result<(), Cut> {
        self.entry()?;
        let read =
            (!self.reads_upper || upper.is_empty()) && (!self.reads_lower || lower.is_empty());
        if read && self.table.is_terminal(state) {
            self.listing.readings.push(Reading {
                step: self.listing.size,
                letters: self.output.clone(),
                sum: self.ceiling - spare,
            });
        }
        for arc in self.table.arcs_of(state) {
            self.longer(arc, spare, upper, lower)?;
        }
        self.entry()
    }

    /// The entry of an arc at the end of a path, and what follows if it fits: if one of the plain arcs does that it stands for. No two do,
    /// since a class arc reads a letter.
    fn longer(&mut self, arc: &Arc, spare: u32, upper: &[u8], lower: &[u8]) -> Result<(), Cut> {
        let Some(spare) = spare.checked_sub(arc.penalty.into()) else {
            return self.entry();
        };
        for arc in self.table.plain_arcs(*arc) {
            let upper_left = left(self.reads_upper, upper, arc.upper as u8);
            let lower_left = left(self.reads_lower, lower, arc.lower as u8);
            if let (Some(upper), Some(lower)) = (upper_left, lower_left) {
                return self.follow(&arc, spare, upper, lower);
            }
        }
        self.entry()
    }

    /// The path that goes on with a plain arc, and what is left of the ceiling and of each word then.
    fn follow(&mut self, arc: &Arc, spare: u32, upper: &[u8], lower: &[u8]) -> Result<(), Cut> {
        let written = self.output.len();
        if !self.reads_upper && arc.upper != 0 {
            self.output.push(arc.upper as u8);
        }
        if !self.reads_lower && arc.lower != 0 {
            self.output.push(arc.lower as u8);
        }
        let result = self.path(arc.target, spare, upper, lower);
        self.output.truncate(written);
        result
    }
}

/// What is left of a word after a letter of an arc; none where it is not the next one.
fn left(read: bool, word: &[u8], letter: u8) -> Option<&[u8]> {
    if read && letter != 0 {
        word.strip_prefix(&[letter])
    } else {
        Some(word)
    }
}

/// The list of a table, a task and its words under the highest ceiling, through at most `limit` entries.
pub fn list(table: &Table, task: u32, upper: &[u8], lower: &[u8], limit: u64) -> Listing {
    list_under(table, task, query::MOST_CEILING, upper, lower, limit)
}

/// The same under a ceiling.
pub fn list_under(
    table: &Table,
    task: u32,
    ceiling: u32,
    upper: &[u8],
    lower: &[u8],
    limit: u64,
) -> Listing {
    let (reads_upper, reads_lower) = query::sides(task).expect("a task");
    let mut lister = Lister {
        table,
        reads_upper,
        reads_lower,
        ceiling,
        limit,
        output: Vec::new(),
        listing: Listing::default(),
    };
    let mut initials = table.initials.iter();
    let whole = initials.all(|state| lister.path(*state, ceiling, upper, lower).is_ok());
    lister.listing.whole = whole;
    lister.listing
}

/// So many frames are never too few: (letters to read + 1) x states.
pub fn enough_frames(table: &Table, upper: &[u8], lower: &[u8]) -> usize {
    (upper.len() + lower.len() + 1) * table.states as usize
}
