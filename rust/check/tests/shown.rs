//! Which cycle refusal 12 shows: for each table and task one answer, whatever the order of the arcs.
use readings_check::answer::Started;
use readings_check::cycles;
use readings_check::draw;
use readings_check::engine::Engine;
use readings_check::idle;
use readings_check::library::Library;
use readings_check::model::Model;
use readings_check::random::Random;
use readings_check::table::{Arc, Table};
use readings_check::twin::SOUND;

/// A start with empty words shows this cycle; with none it passes.
fn shows(engine: &impl Engine, table: &Table, task: u32, cycle: Option<&[u16]>) {
    let expected = Started::showing(cycle);
    let told = engine.start_empty(table, task);
    assert!(
        told == expected,
        "task {task}, {table:?}: shown is {:?}, expected {cycle:?}",
        &told.cycle[..told.answer.length as usize]
    );
}

/// A table with one initial state, and arcs that read and write nothing; those of one source are in the order given.
fn idle_table(states: u16, initial: u16, arcs: impl IntoIterator<Item = (u16, u16)>) -> Table {
    let mut arcs = Vec::from_iter(arcs.into_iter().map(|(a, b)| Arc::new(a, 0, 0, b)));
    arcs.sort_by_key(|arc| arc.source);
    Table {
        states,
        initials: vec![initial],
        terminals: vec![],
        arcs,
        ..Table::default()
    }
}

/// Every table of four states, one of them initial, with no other arcs than such that read and write nothing.
fn of_four_states() -> impl Iterator<Item = Table> {
    (0u32..4 << 16).map(|number| {
        let pairs = (0..16).filter(|k| number >> k & 1 == 1);
        idle_table(4, (number >> 16) as u16, pairs.map(|k| (k / 4, k % 4)))
    })
}

/// Random tables of few states with many idle arcs, each with a task.
fn knots() -> impl Iterator<Item = (Table, u32)> {
    (0..10_000).map(|case| {
        let mut random = Random::of_case(0xC7C1E, case);
        let task = random.within(1, 3) as u32;
        (draw::knotted(&mut random, task), task)
    })
}

/// The cycle shown is the least of all that there are.
fn least_of_all(engine: &impl Engine) {
    for table in of_four_states() {
        shows(engine, &table, 2, cycles::shown(&table, 2).as_deref());
    }
    for (table, task) in knots() {
        shows(engine, &table, task, cycles::shown(&table, task).as_deref());
    }
}

#[test]
fn the_model_shows_the_least_of_all() {
    least_of_all(&Model);
}

#[test]
fn the_twin_shows_the_least_of_all() {
    least_of_all(&SOUND);
}

#[test]
fn the_library_shows_the_least_of_all() {
    least_of_all(&Library);
}

/// Arcs, and the cycle that is shown in whatever order those from state 0 are. A walk along first arcs would come to another in each order.
type Fork = ([(u16, u16); 4], &'static [u16]);

const FORKS: [Fork; 4] = [
    ([(0, 1), (0, 2), (1, 0), (2, 0)], &[0, 1]), // two that are as long
    ([(0, 1), (0, 2), (1, 2), (2, 0)], &[0, 2]), // a longer one
    ([(0, 1), (0, 2), (1, 0), (2, 2)], &[0, 1]), // a shorter one from a higher state
    ([(0, 1), (0, 2), (1, 1), (2, 2)], &[1]),    // state 0 is on none
];

fn forks(engine: &impl Engine) {
    for (arcs, cycle) in FORKS {
        let backwards = arcs.into_iter().rev();
        for table in [idle_table(3, 0, arcs), idle_table(3, 0, backwards)] {
            for task in 1..=3 {
                shows(engine, &table, task, Some(cycle));
            }
        }
    }
}

/// Any order of the arcs of each source, and of the initial states, shows the same cycle.
fn orders(engine: &impl Engine) {
    let (mut shown, mut random) = (0, Random::new(0x02DE2));
    for (mut table, task) in knots() {
        let told = engine.start_empty(&table, task);
        shown += u32::from(told.answer.number == 12);
        for _ in 0..3 {
            random.shuffle(&mut table.initials);
            draw::reorder(&mut random, &mut table.arcs);
            assert_eq!(engine.start_empty(&table, task), told, "on {table:?}");
        }
    }
    assert!(shown > 5_000, "only {shown} cycles");
}

#[test]
fn the_twin_shows_one_cycle_in_any_order() {
    forks(&SOUND);
    orders(&SOUND);
}

#[test]
fn the_library_shows_one_cycle_in_any_order() {
    forks(&Library);
    orders(&Library);
}

/// Pairs of states one above the other, each state with arcs to the next pair, the highest first, and from the last pair back to state 0:
/// in each pair the lower one is taken.
fn ladder(engine: &impl Engine) {
    let pair = |k: u16| [2 * k, 2 * k - 1];
    let mut arcs: Vec<(u16, u16)> = pair(1).map(|state| (0, state)).to_vec();
    for k in 1..127 {
        let rungs = pair(k).into_iter();
        arcs.extend(rungs.flat_map(|from| pair(k + 1).map(|to| (from, to))));
    }
    arcs.extend(pair(127).map(|state| (state, 0)));
    let cycle: Vec<u16> = [0].into_iter().chain((1..255).step_by(2)).collect();
    shows(engine, &idle_table(255, 0, arcs), 2, Some(&cycle));
}

/// The only cycle from state 0 is one of all 256 states; those from the other states are shorter.
fn ring(engine: &impl Engine) {
    let states: Vec<u16> = (0..256).collect();
    let round = states.iter().map(|state| (*state, (state + 1) % 256));
    let at_others = round.clone().chain((1..256).map(|state| (state, state)));
    shows(engine, &idle_table(256, 0, at_others), 2, Some(&states));
    let without_0 = round.chain([(255, 1)]);
    shows(engine, &idle_table(256, 0, without_0), 2, Some(&states));
}

/// From each state idle arcs lead up, and from the last one round: the lower ones are on no cycle.
fn steps(engine: &impl Engine) {
    let up = (0..255).flat_map(|from| (from + 1..256).take(4).map(move |to| (from, to)));
    for (back, cycle) in [(255, &[255][..]), (254, &[254, 255])] {
        let table = idle_table(256, 0, up.clone().chain([(255, back)]));
        shows(engine, &table, 2, Some(cycle));
    }
}

/// Of 128 cycles of two states each one is reached.
fn pairs(engine: &impl Engine) {
    let arcs = (0..256).map(|state| (state, 255 - state));
    shows(engine, &idle_table(256, 178, arcs), 2, Some(&[77, 178]));
}

/// Many states in any order, idle arcs from each to some of those that come next, and so cycles through very many states, with very
/// many as long.
fn long_ways(random: &mut Random) -> Table {
    let states = random.within(20, 256);
    let mut order: Vec<u16> = (0..states as u16).collect();
    random.shuffle(&mut order);
    let farthest = random.within(1, 8);
    let mut arcs = Vec::new();
    for _ in 0..random.within(states, 4 * states) {
        let from = random.below(states);
        let to = (from + random.within(1, farthest)) % states;
        arcs.push((order[from], order[to]));
    }
    arcs.sort();
    arcs.dedup();
    random.shuffle(&mut arcs);
    idle_table(states as u16, order[0], arcs)
}

fn large(engine: &impl Engine) {
    ladder(engine);
    ring(engine);
    steps(engine);
    pairs(engine);
    let mut lengths = Vec::new();
    for case in 0..1_000 {
        let table = long_ways(&mut Random::of_case(0x1026, case));
        let shown = idle::shown(&table, 2);
        shows(engine, &table, 2, shown.as_deref());
        lengths.extend(shown.map(|states| states.len()));
    }
    let long = lengths.iter().filter(|length| **length >= 30).count();
    assert!(long >= 100, "only {long} of {} are long", lengths.len());
}

#[test]
fn the_twin_shows_long_cycles() {
    large(&SOUND);
}

#[test]
fn the_library_shows_long_cycles() {
    large(&Library);
}
