//! Idle loops that no arcs lead to from an initial state do not matter; one arc into them, whatever its letters, gives 12.
use readings_check::answer::{Run, Started};
use readings_check::compare::start::{self, Start};
use readings_check::engine::Engine;
use readings_check::library::Library;
use readings_check::query::MOST_CEILING;
use readings_check::session::session;
use readings_check::table::{Arc, Table};
use readings_check::text::{self, K};
use readings_check::twin::SOUND;

/// A table with one more arc.
fn with(mut table: Table, arc: Arc) -> Table {
    table.arcs.push(arc);
    table.arcs.sort_by_key(|arc| arc.source);
    table
}

/// In every task, with empty words, a start shows this cycle; where there is none it passes.
fn tells(engine: &impl Engine, table: &Table, expected: Option<&[u16]>) {
    for task in 1..=3 {
        let start = Start {
            table: table.cells(),
            task,
            ceiling: MOST_CEILING,
            upper: vec![],
            lower: vec![],
        };
        let compared = start::compare(engine, &start);
        compared.unwrap_or_else(|difference| panic!("{difference}"));
        let started = engine.start(start.lend(), &mut Run::default());
        assert_eq!(started, Started::showing(expected), "in task {task}");
    }
}

/// Table K, and idle loops over states 3 and 4 and at state 5.
fn k_and_loops() -> Table {
    let mut table = text::parse(K.as_bytes()).expect("table K");
    table.states = 6;
    let loops = [(3, 4), (4, 3), (5, 5)];
    let arcs = loops.map(|(source, target)| Arc::new(source, 0, 0, target));
    table.arcs.extend(arcs);
    table
}

/// A query of each task, and what a session on table K prints.
const QUERIES: [(&str, &str); 3] = [
    ("100102010203010302\n", "2000010000\n2F0001\n"),
    (
        "100202010200\n",
        "20000100020102\n2000020003010302\n2F0002\n",
    ),
    ("10030003010302\n", "20000100020102\n2F0001\n"),
];

fn beside_k(engine: &impl Engine) {
    let mut apart = vec![k_and_loops()];
    apart.push(with(k_and_loops(), Arc::new(4, 1, 1, 0))); // out of a loop, not into it
    for table in apart {
        tells(engine, &table, None);
        for (query, lines) in QUERIES {
            let input = [&text::print(&table), query.as_bytes()].concat();
            let printed = String::from_utf8(session(engine, &input)).expect("text");
            assert_eq!(printed, lines);
        }
    }
    // The other loop is not reached, and is not told.
    for (source, target, states) in [(0, 3, &[3, 4][..]), (1, 4, &[3, 4]), (2, 5, &[5])] {
        let table = with(k_and_loops(), Arc::new(source, 7, 8, target));
        tells(engine, &table, Some(states));
    }
}

/// State 0 is initial, and the other 255 are one idle cycle.
fn largest(engine: &impl Engine) {
    let next = |state| if state == 255 { 1 } else { state + 1 };
    let table = Table {
        states: 256,
        initials: vec![0],
        terminals: vec![0],
        arcs: (1..256).map(|s| Arc::new(s, 0, 0, next(s))).collect(),
        ..Table::default()
    };
    let others: Vec<u16> = (1..256).collect();
    tells(engine, &table, None);
    tells(engine, &with(table, Arc::new(0, 7, 8, 255)), Some(&others));
}

/// From state 255, which is initial, arcs lead down to state 0 and its idle loop, against the order of the arcs; or one is missing.
fn farthest(engine: &impl Engine) {
    let chain = |missing: Option<u16>| Table {
        states: 256,
        initials: vec![255],
        terminals: vec![0],
        arcs: (1..256)
            .filter(|s| Some(*s) != missing)
            .map(|s| Arc::new(s, 7, 8, s - 1))
            .collect(),
        ..Table::default()
    };
    let round = Arc::new(0, 0, 0, 0);
    tells(engine, &chain(None), None);
    tells(engine, &with(chain(None), round), Some(&[0]));
    for missing in [1, 128, 255] {
        tells(engine, &with(chain(Some(missing)), round), None);
    }
}

fn all(engine: &impl Engine) {
    beside_k(engine);
    largest(engine);
    farthest(engine);
}

#[test]
fn the_library_starts_beside_corners() {
    all(&Library);
}

#[test]
fn the_twin_starts_beside_corners() {
    all(&SOUND);
}
