//! Inverse tables, on the library: synthesis on the one is analysis on the other, step by step, and recognition of a pair accepts as many
//! paths as each of them has readings equal to the other word.
use readings::limits::MOST_WORD;
use readings_check::answer::{Answer, DONE, ENDED, FOUND, PAUSED, Run, Started};
use readings_check::compare::pieces::Way;
use readings_check::compare::tally::Tally;
use readings_check::compare::{cuts, fixed, inverse, search};
use readings_check::draw::{self, penalties};
use readings_check::engine::{Engine, Next, Start};
use readings_check::idle;
use readings_check::library::Library;
use readings_check::lister;
use readings_check::model::Model;
use readings_check::query::{self, ANALYSIS, MOST_CEILING, RECOGNITION, SYNTHESIS};
use readings_check::random::Random;
use readings_check::table::{Arc, Table};
use readings_check::text::{self, K};
use readings_check::twin::{SOUND, Twin, fault};
use std::cell::Cell;
use std::collections::BTreeMap;
use std::mem::swap;

fn agreed(result: Result<Tally, String>) -> Tally {
    result.unwrap_or_else(|difference| panic!("{difference}"))
}

/// Whether some arcs have a class, some a penalty, and some unlike letters.
fn has_all(table: &Table) -> bool {
    let has = |what: fn(&Arc) -> bool| table.arcs.iter().any(what);
    has(|arc| !arc.is_plain()) && has(|arc| arc.penalty > 0) && has(|arc| arc.upper != arc.lower)
}

/// The library, and how many starts of each task passed on tables that have all.
#[derive(Default)]
struct Counted {
    passed: [Cell<usize>; 3],
}

impl Engine for Counted {
    fn start(&self, start: Start, run: &mut Run) -> Started {
        let started = Library.start(start, run);
        if started.answer.kind == DONE && Table::loaded(start.table).is_some_and(|t| has_all(&t)) {
            let passed = &self.passed[start.task as usize - 1];
            passed.set(passed.get() + 1);
        }
        started
    }

    fn next(&self, call: Next) -> Answer {
        Library.next(call)
    }
}

impl Counted {
    fn demand(self, least: usize) {
        let passed = self.passed.map(Cell::into_inner);
        assert!(
            passed.iter().all(|count| *count >= least),
            "only {passed:?}"
        );
    }
}

#[test]
fn starts_answer_the_same() {
    let library = Counted::default();
    let tally = agreed(fixed::inverse_starts(&library));
    tally.demand(300, &[DONE], &[10, 11, 12, 20, 39]);
    library.demand(300);
    let tally = agreed(fixed::inverse_knots(&Library));
    tally.demand(300, &[DONE], &[12]);
}

#[test]
fn calls_answer_the_same() {
    let library = Counted::default();
    let tally = agreed(fixed::inverse_searches(&library));
    tally.demand(300, &[DONE, FOUND, PAUSED, ENDED], &[12, 21, 22, 23]);
    library.demand(300);
}

#[test]
fn damaged_places_answer_the_same() {
    let tally = agreed(fixed::inverse_places(&Library));
    tally.demand(100, &[FOUND, PAUSED, ENDED], &[10, 11, 20, 21, 22, 23, 39]);
}

#[test]
fn the_twin_answers_the_same() {
    agreed(fixed::inverse_starts(&SOUND));
    agreed(fixed::inverse_searches(&SOUND));
}

#[test]
fn inverse_tables_are_accepted_with_their_tables() {
    let tally = agreed(fixed::inverse_tables(&Library));
    tally.demand(1_000, &[DONE], &[20]);
}

/// Also of tables with a changed cell, by which most break rules.
#[test]
fn the_inverse_of_the_inverse_is_the_table() {
    let (mut unlike, mut kept, mut broken) = (0, 0, 0);
    for case in 0..2_000 {
        let random = &mut Random::of_case(0x1F7E4A, case);
        let table = draw::table(random, SYNTHESIS, false);
        let mut cells = table.cells();
        assert_eq!(table.inverse().inverse(), table);
        assert_eq!(table.inverse().cells(), inverse::cells(&cells));
        unlike += usize::from(table.inverse() != table);
        let at = random.below(cells.len());
        cells[at] = random.below(300) as u16;
        let (changed, other) = (Table::loaded(&cells), inverse::cells(&cells));
        assert_eq!(inverse::cells(&other), cells);
        kept += usize::from(changed.is_some());
        broken += usize::from(changed.is_none());
        assert_eq!(Table::loaded(&other), changed.map(|table| table.inverse()));
    }
    let seen = [unlike, kept, broken];
    assert!(seen.iter().all(|count| *count >= 100), "{seen:?}");
}

/// Words for all three tasks on one table, under one ceiling.
#[derive(Clone, Debug)]
struct Pair {
    table: Table,
    ceiling: u32,
    upper: Vec<u8>,
    lower: Vec<u8>,
}

/// How many readings are a word.
type Equal = fn(&[Vec<u8>], &[u8]) -> usize;

fn equal(readings: &[Vec<u8>], word: &[u8]) -> usize {
    readings.iter().filter(|reading| *reading == word).count()
}

impl Pair {
    fn inverse(&self) -> Pair {
        Pair {
            table: self.table.inverse(),
            ceiling: self.ceiling,
            upper: self.lower.clone(),
            lower: self.upper.clone(),
        }
    }

    /// The readings of the words that a task reads.
    fn readings(&self, engine: &impl Engine, task: u32) -> Vec<Vec<u8>> {
        let (reads_upper, reads_lower) = query::sides(task).expect("a task");
        let start = Start {
            table: &self.table.cells(),
            task,
            ceiling: self.ceiling,
            upper: if reads_upper { &self.upper } else { &[] },
            lower: if reads_lower { &self.lower } else { &[] },
        };
        let readings = cuts::readings(engine, start);
        readings.unwrap_or_else(|difference| panic!("{difference}, in {self:?}"))
    }

    /// How many readings recognition has, how many of synthesis are the lower word, and how many of analysis the upper one.
    fn counts(&self, engine: &impl Engine, equal: Equal) -> [usize; 3] {
        [
            self.readings(engine, RECOGNITION).len(),
            equal(&self.readings(engine, SYNTHESIS), &self.lower),
            equal(&self.readings(engine, ANALYSIS), &self.upper),
        ]
    }

    /// The number that all three are.
    fn count(&self, engine: &impl Engine) -> usize {
        let counts = self.counts(engine, equal);
        assert_eq!(counts, [counts[0]; 3], "{self:?}");
        counts[0]
    }
}

/// Entries of a traversal that are listed at most.
const LISTED: u64 = 4_000;

/// A word, one of its readings, which is listed so many times, and the sum on its path.
struct Match {
    upper: Vec<u8>,
    lower: Vec<u8>,
    times: usize,
    sum: u32,
}

impl Match {
    /// A random one, where the word has a reading and its list is not long.
    fn drawn(random: &mut Random, table: &Table) -> Option<Match> {
        let upper = draw::asked(random, table, SYNTHESIS).upper;
        let listing = lister::list(table, SYNTHESIS, &upper, &[], LISTED);
        if !listing.whole || listing.readings.is_empty() {
            return None;
        }
        let reading = random.pick(&listing.readings).clone();
        let same = listing
            .readings
            .iter()
            .filter(|r| r.letters == reading.letters);
        Some(Match {
            upper,
            times: same.count(),
            lower: reading.letters,
            sum: reading.sum,
        })
    }

    /// What is rarer is worth more: letters on one side only, being listed several times, letters at all.
    fn worth(&self) -> (bool, bool, bool) {
        let (upper, lower) = (!self.upper.is_empty(), !self.lower.is_empty());
        (upper != lower, self.times > 1, upper || lower)
    }
}

/// A random pair on a table that all tasks accept, whose lists are not long: on either side a word, and on the other mostly one of its
/// readings, or nearly; under a ceiling about that one's sum.
fn drawn(case: u64) -> Option<Pair> {
    let random = &mut Random::of_case(0x1F7E4B, case);
    let table = draw::table(random, SYNTHESIS, true);
    if idle::shown(&table, ANALYSIS).is_some() {
        return None;
    }
    let matches = (0..random.within(1, 12)).filter_map(|_| Match::drawn(random, &table));
    let Match {
        upper,
        mut lower,
        sum,
        ..
    } = matches.max_by_key(Match::worth)?;
    if upper.is_empty() && lower.is_empty() && !random.one_in(8) {
        return None;
    }
    match random.below(12) {
        0 => lower = draw::asked(random, &table, ANALYSIS).lower,
        1 | 2 if !lower.is_empty() => {
            let at = random.below(lower.len()); // another letter of a class, perhaps
            lower[at] = random.within(1, 4) as u8;
        }
        _ => {}
    }
    if lower.len() > MOST_WORD || !lister::list(&table, ANALYSIS, &[], &lower, LISTED).whole {
        return None;
    }
    let pair = Pair {
        table,
        ceiling: penalties::ceiling(random, sum),
        upper,
        lower,
    };
    Some(if random.one_in(2) {
        pair.inverse()
    } else {
        pair
    })
}

/// What a pair is, by how many paths it has, and how many without its ceiling.
fn kinds(pair: &Pair, count: usize, all: usize) -> [(&'static str, bool); 9] {
    let (upper, lower) = (pair.upper.is_empty(), pair.lower.is_empty());
    let classes = pair.table.arcs.iter().any(|arc| !arc.is_plain());
    let found = count > 0;
    [
        ("none", count == 0),
        ("one", count == 1),
        ("several", count > 1),
        ("found with classes", found && classes),
        ("found for an empty upper word", found && upper && !lower),
        ("found for an empty lower word", found && !upper && lower),
        ("found for empty words", found && upper && lower),
        ("some cut off", found && count < all),
        ("all cut off", !found && count < all),
    ]
}

/// Recognition accepts as many paths as each other task has readings equal to the word that it does not read; and every task has the
/// readings of the exchanged task on the inverse, in the same order.
fn counts(engine: &impl Engine) {
    let mut seen = BTreeMap::new();
    for pair in (0..10_000).filter_map(drawn) {
        let all = Pair {
            ceiling: MOST_CEILING,
            ..pair.clone()
        };
        for (kind, is) in kinds(&pair, pair.count(engine), all.count(engine)) {
            *seen.entry(kind).or_insert(0) += usize::from(is);
        }
        for task in 1..=3 {
            let other = pair.inverse().readings(engine, query::inverse(task));
            assert_eq!(other, pair.readings(engine, task), "{pair:?}");
        }
    }
    assert!(seen.values().all(|count| *count >= 100), "{seen:?}");
}

#[test]
fn the_library_counts_paths() {
    counts(&Library);
}

#[test]
fn the_twin_counts_paths() {
    counts(&SOUND);
}

/// The sources and the targets are exchanged too.
fn backwards(table: &Table) -> Table {
    let mut table = table.inverse();
    for arc in &mut table.arcs {
        swap(&mut arc.source, &mut arc.target);
    }
    table.arcs.sort_by_key(|arc| arc.source);
    table
}

/// The arcs of each state are in reversed order.
fn reversed(table: &Table) -> Table {
    let mut table = table.inverse();
    table.arcs.reverse();
    table.arcs.sort_by_key(|arc| arc.source);
    table
}

/// The penalties are dropped.
fn unpenalized(table: &Table) -> Table {
    let mut table = table.inverse();
    table.arcs.iter_mut().for_each(|arc| arc.penalty = 0);
    table
}

/// Only some arcs have their letters exchanged.
fn in_part(table: &Table, is_exchanged: fn(&Arc) -> bool) -> Table {
    let mut table = table.clone();
    let arcs = table.arcs.iter_mut().filter(|arc| is_exchanged(arc));
    arcs.for_each(|arc| *arc = arc.inverse());
    table
}

fn is_one_sided(arc: &Arc) -> bool {
    (arc.upper == 0) != (arc.lower == 0)
}

fn one_sided(table: &Table) -> Table {
    in_part(table, is_one_sided)
}

fn two_sided(table: &Table) -> Table {
    in_part(table, |arc| !is_one_sided(arc))
}

/// In how many of the first searches a table that is not the inverse, but keeps the rules, is noticed.
fn noticed(wrong: fn(&Table) -> Table) -> usize {
    let other = |cells: &[u16]| {
        let table = Table::loaded(cells).map(|table| wrong(&table));
        let cells = table.as_ref().expect("a table").cells();
        assert_eq!(Table::loaded(&cells), table);
        cells
    };
    let cases = (0..800).filter(|case| {
        let random = &mut Random::of_case(inverse::SEARCHES, *case);
        let tally = &mut Tally::default();
        inverse::compare(&Library, other, |both| search::any(both, random, tally)).is_err()
    });
    cases.count()
}

#[test]
fn wrong_inverses_are_noticed() {
    let wrongs: [fn(&Table) -> Table; 6] = [
        backwards,
        reversed,
        unpenalized,
        one_sided,
        two_sided,
        Table::clone,
    ];
    let noticed = wrongs.map(noticed);
    assert!(noticed.iter().all(|count| *count >= 100), "{noticed:?}");
    assert_eq!(self::noticed(Table::inverse), 0);
}

/// Empty readings are not counted.
fn equal_lettered(readings: &[Vec<u8>], word: &[u8]) -> usize {
    if word.is_empty() {
        0
    } else {
        equal(readings, word)
    }
}

/// Equal readings are counted once.
fn equal_once(readings: &[Vec<u8>], word: &[u8]) -> usize {
    equal(readings, word).min(1)
}

/// For how many of the first pairs the numbers differ.
fn differ(engine: &impl Engine, equal: Equal) -> usize {
    let pairs = (0..5_000).filter_map(drawn);
    let counts = pairs.map(|pair| pair.counts(engine, equal));
    counts.filter(|counts| *counts != [counts[0]; 3]).count()
}

#[test]
fn wrong_counts_are_noticed() {
    let noticed = [equal_lettered, equal_once].map(|equal| differ(&Library, equal));
    assert!(noticed.iter().all(|count| *count >= 100), "{noticed:?}");
}

/// A fault of synthesis alone at a start, and one of recognition alone in calls.
#[test]
fn faults_of_a_task_are_noticed() {
    let starts = fixed::inverse_starts(&Twin::<{ fault::RECOGNITION_CYCLES }>).map(drop);
    assert!(starts.is_err_and(|said| said.contains("other start is")));
    let noticed = differ(&Twin::<{ fault::UNLIKE_IN_CLASS }>, equal);
    assert!(noticed >= 20, "only {noticed}");
}

/// Analysis of 01 03 02 on table K, and synthesis of it on the inverse, where arcs 3 and 4 read 03 and write nothing: each finds 01 02 by
/// arcs 0, 3 and 1.
fn table_k(engine: &impl Engine) {
    let k = text::parse(K.as_bytes()).expect("table K");
    let arcs = [
        [0, 1, 1, 1],
        [0, 2, 2, 2],
        [1, 2, 2, 2],
        [1, 3, 0, 0],
        [2, 3, 0, 0],
    ];
    assert_eq!(
        k.inverse().arcs,
        arcs.map(|[a, upper, lower, b]| Arc::new(a, upper, lower, b))
    );
    let (word, inverse): (&[u8], _) = (&[1, 3, 2], k.inverse().cells());
    let mut analysis = Way::new(engine, k.cells(), [&[], word], Run::of(ANALYSIS));
    let mut synthesis = Way::new(engine, inverse, [word, &[]], Run::of(SYNTHESIS));
    for way in [&mut analysis, &mut synthesis] {
        assert_eq!(way.call(2, 100, 2), Answer::refused(22, 3));
        assert_eq!(way.call(1, 100, 2), Answer::refused(21, 0));
        assert_eq!(way.call(4, 100, 1), Answer::refused(23, 2));
        assert_eq!(way.call(4, 100, 2), Answer::found(1, 2));
        assert_eq!(way.readings, [[1, 2]]);
        assert_eq!((way.run.started, way.run.depth), (1, 4));
    }
    let frames = [
        [0, 1, 0, 0, 0],
        [1, 4, 1, 1, 0],
        [0, 2, 1, 2, 0],
        [2, 4, 2, 3, 0],
    ];
    assert_eq!(analysis.frames, frames.as_flattened());
    let frames = [
        [0, 1, 0, 0, 0],
        [1, 4, 1, 1, 0],
        [0, 2, 2, 1, 0],
        [2, 4, 3, 2, 0],
    ];
    assert_eq!(synthesis.frames, frames.as_flattened());
    for way in [&mut analysis, &mut synthesis] {
        assert_eq!(way.call(4, 100, 0), Answer::ended(6));
    }
    for (lower, count) in [(&[1, 2][..], 1), (&[1, 3, 2], 1), (&[1, 3], 0)] {
        has_paths(engine, &k, 0, [&[1, 2], lower], count);
    }
}

/// A pair has so many paths under a ceiling, and the other way round on the inverse.
fn has_paths(engine: &impl Engine, table: &Table, ceiling: u32, words: [&[u8]; 2], count: usize) {
    let pair = Pair {
        table: table.clone(),
        ceiling,
        upper: words[0].to_vec(),
        lower: words[1].to_vec(),
    };
    assert_eq!(pair.count(engine), count, "{pair:?}");
    assert_eq!(pair.inverse().count(engine), count, "{pair:?}");
}

/// Reads two letters of 01 and 03, each of which is written or, if it is 01, left out with penalty 2 or 5.
fn shortened() -> Table {
    let mut table = Table {
        states: 3,
        initials: vec![0],
        terminals: vec![2],
        arcs: vec![
            Arc::new(0, 1, 0, 1).with_penalty(2),
            Arc::of_class(0, 0, 1),
            Arc::new(1, 1, 0, 2).with_penalty(5),
            Arc::of_class(1, 0, 2),
        ],
        ..Table::default()
    };
    table.classes[0] = vec![1, 3];
    table
}

/// Under each ceiling how many paths read the first word and write the second.
#[rustfmt::skip]
const PAIRS: [(u32, &[u8], &[u8], usize); 13] = [
    (1, &[1, 1], &[1], 0), (2, &[1, 1], &[1], 1), (4, &[1, 1], &[1], 1), // the first letter is left out
    (5, &[1, 1], &[1], 2), (MOST_CEILING, &[1, 1], &[1], 2),             // or the second
    (6, &[1, 1], &[], 0), (7, &[1, 1], &[], 1),                          // both are
    (0, &[1, 1], &[1, 1], 1), (0, &[1, 3], &[1, 3], 1), (7, &[1, 3], &[3], 1),
    (7, &[1, 3], &[1], 0), (7, &[1, 1], &[3], 0), (7, &[], &[], 0),
];

fn pairs(engine: &impl Engine) {
    for (ceiling, upper, lower, count) in PAIRS {
        has_paths(engine, &shortened(), ceiling, [upper, lower], count);
    }
}

#[test]
fn the_library_has_the_cases() {
    table_k(&Library);
    pairs(&Library);
}

#[test]
fn the_others_have_the_cases() {
    table_k(&Model);
    pairs(&Model);
    table_k(&SOUND);
    pairs(&SOUND);
}
