//! How often each answer was seen, each place of idle cycles, each rival of the shown one, and how many cuts words have, so that a test can
//! show that it tried them all.
use super::loops::{self, Loops};
use super::rival::{self, Rival};
use super::start::Start;
use crate::answer::{Answer, REFUSED};
use std::collections::BTreeMap;
use std::fmt::Debug;

#[derive(Clone, Debug, Default)]
pub struct Tally {
    seen: BTreeMap<(u32, u32), u64>,
    loops: BTreeMap<Loops, u64>,
    rivals: BTreeMap<Rival, u64>,
    cuts: BTreeMap<Cuts, u64>,
}

/// In how many ways a word is cut.
#[derive(Clone, Copy, Debug, PartialEq, Eq, PartialOrd, Ord)]
pub enum Cuts {
    None,
    One,
    Few,
    /// Ten or more.
    Many,
}

/// Each of these was counted at least so often.
fn demand_each<T: Ord + Debug>(least: u64, counts: &BTreeMap<T, u64>, wanted: &[T]) {
    for one in wanted {
        let seen = counts.get(one).copied().unwrap_or(0);
        assert!(seen >= least, "{one:?} is rare: {counts:?}");
    }
}

impl Tally {
    pub fn add(&mut self, answer: Answer) {
        *self.seen.entry((answer.kind, answer.number)).or_default() += 1;
    }

    /// A start, by its answer and its idle cycles.
    pub fn add_start(&mut self, start: &Start, answer: Answer) {
        self.add(answer);
        if let Some(loops) = loops::of(start) {
            *self.loops.entry(loops).or_default() += 1;
        }
        if answer.number == 12 {
            for rival in rival::all(start) {
                *self.rivals.entry(rival).or_default() += 1;
            }
        }
    }

    /// A word, by the number of its cuts.
    pub fn add_cuts(&mut self, count: usize) {
        let cuts = match count {
            0 => Cuts::None,
            1 => Cuts::One,
            2..10 => Cuts::Few,
            _ => Cuts::Many,
        };
        *self.cuts.entry(cuts).or_default() += 1;
    }

    /// How often a kind of answer was seen.
    pub fn kind(&self, kind: u32) -> u64 {
        let same = self.seen.iter().filter(|(key, _)| key.0 == kind);
        same.map(|(_, count)| count).sum()
    }

    /// How often a refusal was seen.
    pub fn refusal(&self, number: u32) -> u64 {
        self.seen.get(&(REFUSED, number)).copied().unwrap_or(0)
    }

    /// All calls.
    pub fn calls(&self) -> u64 {
        self.seen.values().sum()
    }

    /// Each of these kinds and refusals was seen at least so often.
    pub fn demand(&self, least: u64, kinds: &[u32], refusals: &[u32]) {
        for kind in kinds {
            assert!(self.kind(*kind) >= least, "kind {kind} is rare: {self:?}");
        }
        for number in refusals {
            let seen = self.refusal(*number);
            assert!(seen >= least, "refusal {number} is rare: {self:?}");
        }
    }

    /// Starts with idle cycles in each of these places were seen at least so often.
    pub fn demand_loops(&self, least: u64, places: &[Loops]) {
        demand_each(least, &self.loops, places);
    }

    /// Words with each of these were seen at least so often.
    pub fn demand_cuts(&self, least: u64, cuts: &[Cuts]) {
        demand_each(least, &self.cuts, cuts);
    }

    /// Starts whose table has each of these beside the shown cycle were seen at least so often.
    pub fn demand_rivals(&self, least: u64, rivals: &[Rival]) {
        demand_each(least, &self.rivals, rivals);
    }
}
