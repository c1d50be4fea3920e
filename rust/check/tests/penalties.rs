//! Penalties and ceilings, case by case, on the library, the model and the twin: sums that meet a ceiling, refusal 39 among the others,
//! runs that are handed back under another ceiling, lines of kind 07, loaded tables, and lists under several ceilings.
mod common;

use readings::limits::FRAME_CELLS;
use readings_check::answer::{Answer, ENDED, FOUND, Run, Started};
use readings_check::compare::call::{self, Call};
use readings_check::compare::cuts;
use readings_check::compare::pieces::Way;
use readings_check::draw::{self, Asked, penalties};
use readings_check::engine::{Engine, Next, Start, Texts};
use readings_check::german;
use readings_check::library::Library;
use readings_check::lister::{self, Listing};
use readings_check::model::Model;
use readings_check::query::{ANALYSIS, RECOGNITION, SYNTHESIS};
use readings_check::random::Random;
use readings_check::session::session;
use readings_check::table::{Arc, Table};
use readings_check::text::{self, K};
use readings_check::tree::letters;
use readings_check::twin::{PLAIN, SOUND};

const MOST: u32 = 100_000;

/// Reads two letters 01. The first is written as 1, 2 or 3 with penalty 5, 0 or 255, the second as 4 with penalty 7.
fn ways() -> Table {
    Table {
        states: 2,
        initials: vec![0],
        terminals: vec![1],
        arcs: vec![
            Arc::new(0, 1, 1, 1).with_penalty(5),
            Arc::new(0, 1, 2, 1),
            Arc::new(0, 1, 3, 1).with_penalty(255),
            Arc::new(1, 1, 4, 1).with_penalty(7),
        ],
        ..Table::default()
    }
}

/// Under each ceiling the readings of 01 01 in synthesis, and the steps to the end.
#[rustfmt::skip]
const LISTS: [(u32, &[[u8; 2]], u64); 13] = [
    (0, &[], 7), (4, &[], 7),                                   // the first arc does not fit
    (5, &[], 9), (6, &[], 9),                                   // it does, and none after it
    (7, &[[2, 4]], 11), (8, &[[2, 4]], 11), (11, &[[2, 4]], 11), // the second way meets the ceiling with its last arc
    (12, &[[1, 4], [2, 4]], 13), (254, &[[1, 4], [2, 4]], 13),
    (255, &[[1, 4], [2, 4]], 15), (261, &[[1, 4], [2, 4]], 15), // the third way fails at its last arc
    (262, &[[1, 4], [2, 4], [3, 4]], 17), (MOST, &[[1, 4], [2, 4], [3, 4]], 17),
];

fn start<'a>(table: &'a [u16], task: u32, ceiling: u32, words: [&'a [u8]; 2]) -> Start<'a> {
    Start {
        table,
        task,
        ceiling,
        upper: words[0],
        lower: words[1],
    }
}

/// The readings of a search.
fn readings(
    engine: &impl Engine,
    table: &Table,
    task: u32,
    ceiling: u32,
    words: [&[u8]; 2],
) -> Vec<Vec<u8>> {
    let found = cuts::readings(engine, start(&table.cells(), task, ceiling, words));
    found.unwrap_or_else(|difference| panic!("{difference}"))
}

/// The steps to the end of the search for 01 01.
fn steps(engine: &impl Engine, ceiling: u32) -> u64 {
    let (cells, mut run) = (ways().cells(), Run::under(SYNTHESIS, ceiling));
    let (mut stack, mut steps) = ([9; FRAME_CELLS * 6], 0);
    loop {
        let answer = engine.next(Next {
            table: &cells,
            upper: &[1, 1],
            lower: &[],
            run: &mut run,
            stack: &mut stack,
            allowance: 2,
            output: &mut [0; 2],
        });
        steps += u64::from(answer.steps);
        match answer.kind {
            ENDED => return steps,
            _ => assert!(!answer.is_refused(), "{answer:?}"),
        }
    }
}

fn at_the_ceiling(engine: &impl Engine) {
    for (ceiling, expected, size) in LISTS {
        let found = readings(engine, &ways(), SYNTHESIS, ceiling, [&[1, 1], &[]]);
        assert_eq!(found, expected, "under {ceiling}");
        assert_eq!(steps(engine, ceiling), size, "under {ceiling}");
    }
    for (lower, sum) in [([1, 4], 12), ([2, 4], 7), ([3, 4], 262)] {
        for (ceiling, is_found) in [(0, false), (sum - 1, false), (sum, true), (sum + 1, true)] {
            let found = readings(engine, &ways(), ANALYSIS, ceiling, [&[], &lower]);
            assert_eq!(found, vec![vec![1, 1]; is_found.into()], "under {ceiling}");
            let found = readings(engine, &ways(), RECOGNITION, ceiling, [&[1, 1], &lower]);
            assert_eq!(found, vec![vec![]; is_found.into()], "under {ceiling}");
        }
    }
}

/// Every letter of a path without penalties is read under ceiling 0.
fn without_penalties(engine: &impl Engine) {
    let k = text::parse(K.as_bytes()).expect("table K");
    for ceiling in [0, 1, 255, MOST] {
        let found = readings(engine, &k, SYNTHESIS, ceiling, [&[1, 2], &[]]);
        assert_eq!(found, [vec![1, 2], vec![1, 3, 2]]);
        let found = readings(engine, &k, ANALYSIS, ceiling, [&[], &[1, 3, 2]]);
        assert_eq!(found, [[1, 2]]);
    }
}

/// A start's answer with nothing but its ceiling left to refuse, and that it leaves a run alone where it is refused.
fn started(engine: &impl Engine, asked: Start) -> Started {
    let stale = Run {
        started: 3,
        depth: 4,
        ..Run::under(9, 77)
    };
    let mut run = stale;
    let started = engine.start(asked, &mut run);
    let left = match started.answer.is_refused() {
        true => stale,
        false => Run::under(asked.task, asked.ceiling),
    };
    assert_eq!(run, left);
    started
}

/// 39 at a start: after 20, 11 and 10, and before 12.
fn limits_of_starts(engine: &impl Engine) {
    let good = ways().cells();
    let number = |table: &[u16], task, ceiling, words| {
        let started = started(engine, start(table, task, ceiling, words));
        assert!(started.answer.number == 12 || started.cycle == [0; 256]);
        started.answer.number
    };
    let mut round = ways();
    round.arcs[0] = Arc::new(0, 0, 0, 0).with_penalty(5);
    for (over, due) in [
        (0, 0),
        (99_999, 0),
        (100_000, 0),
        (100_001, 39),
        (131_072, 39),
        (1 << 31, 39),
        (u32::MAX, 39),
    ] {
        let cut = &good[..good.len() - 1];
        assert_eq!(number(&good, SYNTHESIS, over, [&[1], &[]]), due);
        assert_eq!(number(cut, SYNTHESIS, over, [&[1], &[]]), 20);
        assert_eq!(number(&good, 4, over, [&[], &[]]), 11);
        assert_eq!(number(&good, SYNTHESIS, over, [&[], &[1]]), 11);
        assert_eq!(number(&good, SYNTHESIS, over, [&[64], &[]]), 10);
        assert_eq!(number(&good, SYNTHESIS, over, [&[1; 65], &[]]), 10);
        let cycle = number(&round.cells(), SYNTHESIS, over, [&[1], &[]]);
        assert_eq!(cycle, if due == 0 { 12 } else { 39 });
        assert_eq!(number(&round.cells(), SYNTHESIS, over, [&[64], &[]]), 10);
    }
}

/// A call on a place in the search for 01 01 under the highest ceiling: the first reading was found, and the sums are 0, 5 and 12.
fn place() -> Call {
    let mut call = Call {
        table: ways().cells(),
        upper: vec![1, 1],
        lower: vec![],
        run: Run::of(SYNTHESIS),
        stack: vec![9; FRAME_CELLS * 5],
        allowance: 100,
        output: vec![0; 4],
    };
    assert_eq!(Model.next(call.lend()), Answer::found(3, 2));
    let frames = [0, 1, 0, 0, 0, 1, 4, 1, 1, 5, 1, 3, 2, 2, 12, 9, 9, 9, 9, 9];
    assert_eq!(call.stack[..20], frames);
    call
}

/// What a call answers; a refused one without steps leaves all as it was.
fn told(engine: &impl Engine, mut call: Call) -> (Answer, Call) {
    let answer =
        call::compare(engine, &mut call).unwrap_or_else(|difference| panic!("{difference}"));
    (answer, call)
}

/// 39 at a call: after 20, 11 and 10, and before 21, 22 and 23.
fn limits_of_calls(engine: &impl Engine) {
    let number = |change: &dyn Fn(&mut Call), ceiling| {
        let mut call = place();
        change(&mut call);
        call.run.ceiling = ceiling;
        let before = call.clone();
        let (answer, after) = told(engine, call);
        if answer.number == 39 {
            assert_eq!(answer, Answer::refused(39, 0));
            assert_eq!((after.run, after.stack), (before.run, before.stack));
            assert_eq!(after.output, before.output);
        }
        answer.number
    };
    for (ceiling, over) in [(MOST, false), (MOST + 1, true), (u32::MAX, true)] {
        let due = |number| if over { 39 } else { number };
        assert_eq!(number(&|_| {}, ceiling), due(0));
        assert_eq!(number(&|call| call.table[0] = 0, ceiling), 20);
        assert_eq!(number(&|call| call.run.task = 4, ceiling), 11);
        assert_eq!(number(&|call| call.lower.push(1), ceiling), 11);
        assert_eq!(number(&|call| call.upper.push(64), ceiling), 10);
        assert_eq!(number(&|call| call.run.depth = 6, ceiling), due(21));
        assert_eq!(number(&|call| call.run.started = 2, ceiling), due(21));
        assert_eq!(number(&|call| call.stack[4] = 1, ceiling), due(21));
        assert_eq!(number(&|call| call.stack.truncate(14), ceiling), due(21));
        let restart = |call: &mut Call| {
            call.run = Run::of(SYNTHESIS);
            call.stack.truncate(4);
        };
        assert_eq!(number(&restart, ceiling), due(22));
        assert_eq!(number(&|call| call.output.clear(), ceiling), due(23));
        assert_eq!(number(&|call| call.allowance = 0, ceiling), due(0));
    }
}

/// Readings and the end, from a place under another ceiling.
fn rest(engine: &impl Engine, ceiling: u32) -> Vec<Vec<u8>> {
    let mut call = place();
    call.run.ceiling = ceiling;
    let mut readings = Vec::new();
    loop {
        let (answer, after) = told(engine, call);
        assert_eq!(after.run.ceiling, ceiling);
        match answer.kind {
            FOUND => readings.push(after.output[..answer.length as usize].to_vec()),
            ENDED => return readings,
            _ => panic!("{answer:?}"),
        }
        call = after;
    }
}

/// A ceiling below a used sum is refused and changes nothing; with any other the search goes on.
fn another_ceiling(engine: &impl Engine) {
    for low in [0, 4, 5, 11] {
        let mut call = place();
        call.run.ceiling = low;
        let (answer, after) = told(engine, call.clone());
        assert_eq!(answer, Answer::refused(21, 0), "under {low}");
        assert_eq!((after.run, after.stack), (call.run, call.stack));
        assert_eq!(after.output, call.output);
    }
    for enough in [12, 13, 254, 255, 261] {
        assert_eq!(rest(engine, enough), [[2, 4]], "under {enough}");
    }
    for high in [262, 263, 99_999, MOST] {
        assert_eq!(rest(engine, high), [[2, 4], [3, 4]], "under {high}");
    }
    let mut call = place(); // begun under 12, where the third way is none
    call.run.ceiling = 12;
    let (answer, mut after) = told(engine, call);
    assert_eq!(answer, Answer::found(5, 2));
    after.run.ceiling = MOST;
    let (answer, after) = told(engine, after);
    assert_eq!(
        (answer, &after.output[..2]),
        (Answer::found(5, 2), &[3, 4][..])
    );
}

/// A used frame's sum is that of the one below and the penalty of the arc between them, and 0 at the bottom.
fn wrong_sums(engine: &impl Engine) {
    for (cell, sum) in [(4, 0), (9, 5), (14, 12)] {
        for wrong in [0, 1, 4, 6, 7, 11, 13, 255, MOST, 1 << 31, u32::MAX] {
            let mut call = place();
            call.stack[cell] = wrong;
            let due = if wrong == sum { 0 } else { 21 };
            assert_eq!(told(engine, call).0.number, due, "{wrong} at {cell}");
        }
    }
    let mut shifted = place(); // each as far above the one below as it must be
    for cell in [4, 9, 14] {
        shifted.stack[cell] += 1;
    }
    assert_eq!(told(engine, shifted).0, Answer::refused(21, 0));
    let mut unused = place();
    unused.stack[19] = u32::MAX;
    assert_eq!(told(engine, unused).0.number, 0);
}

/// An idle cycle is refused and shown whatever its penalties and the ceiling are.
fn idle_cycles(engine: &impl Engine) {
    let arcs = |penalty| {
        let arcs = [(0, 1), (0, 2), (1, 0), (2, 2)];
        arcs.map(|(a, b)| Arc::new(a, 0, 0, b).with_penalty(penalty))
    };
    for (task, penalty) in [(1, 0), (1, 1), (2, 7), (3, 255)] {
        let table = Table {
            states: 3,
            initials: vec![0],
            terminals: vec![],
            arcs: arcs(penalty).to_vec(),
            ..Table::default()
        };
        for ceiling in [0, 1, 6, 254, MOST] {
            let cells = table.cells();
            let shown = started(engine, start(&cells, task, ceiling, [&[], &[]]));
            assert_eq!(shown, Started::with_cycle(&[0, 1]), "under {ceiling}");
        }
    }
    let mut led = ways(); // the loop is reached by an arc that fits under no ceiling below 255
    led.states = 3;
    led.arcs[2].target = 2;
    led.arcs.push(Arc::new(2, 0, 0, 2).with_penalty(1));
    let shown = started(engine, start(&led.cells(), SYNTHESIS, 0, [&[], &[]]));
    assert_eq!(shown, Started::with_cycle(&[2]));
}

/// Class 0 is letters 1 and 5; an arc of it has a penalty.
fn with_classes(engine: &impl Engine) {
    let mut table = Table {
        states: 1,
        initials: vec![0],
        terminals: vec![0],
        arcs: vec![
            Arc::of_class(0, 0, 0).with_penalty(10),
            Arc::new(0, 5, 6, 0).with_penalty(1),
        ],
        ..Table::default()
    };
    table.classes[0] = vec![1, 5];
    let synthesis = |ceiling| readings(engine, &table, SYNTHESIS, ceiling, [&[5, 5], &[]]);
    assert!(synthesis(1).is_empty());
    assert_eq!(synthesis(2), [[6, 6]]);
    assert_eq!(synthesis(10), [[6, 6]]);
    assert_eq!(synthesis(11), [[5, 6], [6, 5], [6, 6]]);
    assert_eq!(synthesis(19), [[5, 6], [6, 5], [6, 6]]);
    assert_eq!(synthesis(20), [[5, 5], [5, 6], [6, 5], [6, 6]]);
    let same = |ceiling| readings(engine, &table, RECOGNITION, ceiling, [&[1, 5], &[1, 6]]);
    assert!(same(10).is_empty());
    assert_eq!(same(11).len(), 1);
    let analysis = |ceiling| readings(engine, &table, ANALYSIS, ceiling, [&[], &[1, 1]]);
    assert!(analysis(19).is_empty());
    assert_eq!(analysis(20), [[1, 1]]);
}

/// Calls of few steps on short stacks and outputs, each of which is handed on.
fn in_pieces(engine: &impl Engine) {
    for (ceiling, expected, _) in LISTS {
        for allowance in [1, 2, 3, 100] {
            let run = Run::under(SYNTHESIS, ceiling);
            let mut way = Way::new(engine, ways().cells(), [&[1, 1], &[]], run);
            way.finish(allowance);
            assert_eq!(way.readings, expected, "under {ceiling} by {allowance}");
            let [short, full, unwritten] = way.refused;
            assert!(full > 0 && (short > 0 || allowance == 100));
            assert_eq!(unwritten, expected.len());
        }
    }
}

fn all_searches(engine: &impl Engine) {
    at_the_ceiling(engine);
    without_penalties(engine);
    limits_of_starts(engine);
    limits_of_calls(engine);
    another_ceiling(engine);
    wrong_sums(engine);
    idle_cycles(engine);
    with_classes(engine);
    in_pieces(engine);
}

#[test]
fn the_library_keeps_ceilings() {
    all_searches(&Library);
}

#[test]
fn the_model_keeps_ceilings() {
    all_searches(&Model);
}

#[test]
fn the_twin_keeps_ceilings() {
    all_searches(&SOUND);
    all_searches(&PLAIN);
}

#[test]
fn the_lister_keeps_ceilings() {
    for (ceiling, expected, size) in LISTS {
        let list = lister::list_under(&ways(), SYNTHESIS, ceiling, &[1, 1], &[], 100);
        let found = list.readings.iter().map(|reading| &reading.letters[..]);
        assert!(found.eq(expected), "under {ceiling}");
        assert_eq!((list.size, list.whole), (size, true), "under {ceiling}");
    }
    let list = lister::list(&ways(), SYNTHESIS, &[1, 1], &[], 100).readings;
    assert!(list.iter().map(|reading| reading.sum).eq([12, 7, 262]));
}

/// A text of two states, both terminal, the first initial, with these lines of arcs.
fn text_of(arcs: &[&str]) -> String {
    let lines: String = arcs.iter().map(|line| format!("{line}\n")).collect();
    let (count, before) = (arcs.len(), 4 + arcs.len());
    format!("01000200010002{count:04X}\n020000\n030000\n030001\n{lines}05{before:04X}\n")
}

/// What reading a text with these arcs answers, and the cells behind those of the states.
fn loaded(texts: &impl Texts, arcs: &[&str]) -> (Answer, Vec<u16>) {
    let mut cells = [9; 200];
    let answer = texts.read(text_of(arcs).as_bytes(), &mut cells);
    (answer, cells[135..200].to_vec())
}

fn refuses(texts: &impl Texts, arcs: &[&str], number: u32) {
    let (answer, cells) = loaded(texts, arcs);
    assert_eq!(answer, Answer::refused(number, 0), "{arcs:?}");
    assert_eq!(cells, [9; 65], "{arcs:?}");
}

/// Lines of both kinds, and in each what comes before and after 2.
fn lines(texts: &impl Texts) {
    let (answer, cells) = loaded(
        texts,
        &["0700000102000101", "04000103040000", "07000103050000FF"],
    );
    assert_eq!(answer, Answer::done(150));
    let arcs = [[0, 1, 2, 1, 1], [1, 3, 4, 0, 0], [1, 3, 5, 0, 255]];
    assert_eq!(cells[..15], *arcs.as_flattened());
    for misplaced in [
        "0700000102000100",   // penalty 0
        "07000001020001",     // no penalty
        "070000010200010101", // a byte too many
        "0400000102000101",   // the other kind's length
        "0400000102000100",
        "07",
        "0701",
        "0800000102000101",
        "0700000148000900", // and a letter over 71, and no such state
    ] {
        refuses(texts, &[misplaced], 2);
        refuses(texts, &["04000002020000", misplaced], 2);
        refuses(texts, &[misplaced, "0700FF01020000FF"], 2);
    }
    refuses(texts, &["070000010200010"], 1);
    refuses(texts, &["07000001020001g1"], 1);
    refuses(texts, &["0700000102000201"], 4);
    refuses(texts, &["07000048020001FF"], 5);
    refuses(texts, &["0700004040000101"], 34);
    refuses(texts, &["0700010102000101", "0700000102000101"], 7);
    let elsewhere = |old: &str, new: &str| {
        let text = text_of(&["0700000102000101"]).replace(old, new);
        texts.read(text.as_bytes(), &mut [0; 200])
    };
    let misplaced = Answer::refused(2, 0);
    assert_eq!(elsewhere("020000\n0", "0700000102000101\n0"), misplaced);
    assert_eq!(elsewhere("030001", "0700000102000101"), misplaced);
    assert_eq!(elsewhere("050005", "0700000102000102"), misplaced);
    assert_eq!(elsewhere("050005", "050004"), Answer::refused(9, 0));
}

/// Arcs that differ by their penalties alone are equal, in lines of either kind.
fn equal_arcs(texts: &impl Texts, engine: &impl Engine) {
    let (plain, one, most) = ("04000001020001", "0700000102000101", "07000001020001FF");
    for pair in [
        [plain, plain],
        [plain, one],
        [one, plain],
        [one, one],
        [one, most],
        [most, one],
    ] {
        refuses(texts, &pair, 8);
        refuses(texts, &[pair[0], "04000001030001", pair[1]], 8);
    }
    for (first, second) in [(0, 0), (0, 1), (1, 0), (1, 1), (1, 255), (255, 0)] {
        let mut table = ways();
        let arc = Arc::new(1, 1, 5, 0);
        table.arcs.push(arc.with_penalty(first));
        assert_eq!(numbers(texts, engine, &table.cells()), [0; 3]);
        table.arcs.push(arc.with_penalty(second));
        assert_eq!(numbers(texts, engine, &table.cells()), [20; 3]);
        table.arcs[4].lower = 6;
        assert_eq!(numbers(texts, engine, &table.cells()), [0; 3]);
    }
}

/// What writing, starting and calling answer on some cells: each a number, 0 where nothing is refused.
fn numbers(texts: &dyn Texts, engine: &impl Engine, cells: &[u16]) -> [u32; 3] {
    let mut run = Run::under(SYNTHESIS, 0);
    let called = engine.next(Next {
        table: cells,
        upper: &[],
        lower: &[],
        run: &mut run,
        stack: &mut [0; 50],
        allowance: 9,
        output: &mut [0; 9],
    });
    let started = engine.start(start(cells, SYNTHESIS, 0, [&[], &[]]), &mut run);
    let written = texts.write(cells, &mut [0; 300]);
    [written, started.answer, called].map(|answer| answer.number)
}

/// A penalty over 255 in any arc gives 20, and so does a last arc without its penalty.
fn loaded_penalties(texts: &impl Texts, engine: &impl Engine) {
    for arcs in 1..=9 {
        let arc = |k| Arc::new(0, 1, 1 + k, 1).with_penalty(k);
        let table = Table {
            arcs: (0..arcs).map(arc).collect(),
            ..ways()
        };
        let cells = table.cells();
        assert_eq!(numbers(texts, engine, &cells[..cells.len() - 1]), [20; 3]);
        for at in 0..arcs {
            let with = |penalty| {
                let mut table = table.clone();
                table.arcs[usize::from(at)].penalty = penalty;
                numbers(texts, engine, &table.cells())
            };
            for good in [0, 1, 254, 255] {
                assert_eq!(with(good), [0; 3], "{good} at {at} of {arcs}");
            }
            for over in [256, 257, 511, 512, 1 << 15, (1 << 15) + 1, 65_535] {
                assert_eq!(with(over), [20; 3], "{over} at {at} of {arcs}");
            }
        }
    }
}

/// Cells and text, each from the other.
fn round_trip(texts: &impl Texts) {
    let lines = "010002000100010004\n020000\n030001\n0700000101000105\n04000001020001\n\
                 07000001030001FF\n0700010104000107\n050007\n";
    let cells = ways().cells();
    let mut text = [0; 300];
    let written = texts.write(&cells, &mut text);
    assert_eq!(written, Answer::done(lines.len()));
    assert_eq!(String::from_utf8_lossy(&text[..lines.len()]), lines);
    assert_eq!(texts.write(&cells, &mut [0; 104]), Answer::refused(24, 0));
    let mut back = vec![0; cells.len()];
    assert_eq!(texts.read(lines.as_bytes(), &mut back), Answer::done(154));
    assert_eq!(back, cells);
}

#[test]
fn the_library_reads_penalties() {
    lines(&Library);
    equal_arcs(&Library, &Library);
    loaded_penalties(&Library, &Library);
    round_trip(&Library);
}

#[test]
fn the_model_reads_penalties() {
    lines(&Model);
    equal_arcs(&Model, &Model);
    loaded_penalties(&Model, &Model);
    round_trip(&Model);
}

#[test]
fn the_twin_reads_penalties() {
    equal_arcs(&Model, &SOUND);
    equal_arcs(&Model, &PLAIN);
    loaded_penalties(&Model, &SOUND);
    loaded_penalties(&Model, &PLAIN);
}

/// A random table, a task, words, and its list under the highest ceiling, which is whole.
fn drawn(case: u64) -> Option<(Table, u32, Asked, Listing)> {
    let random = &mut Random::of_case(0x9E4A17, case);
    let task = random.within(1, 3) as u32;
    let table = draw::table(random, task, true);
    let asked = draw::asked(random, &table, task);
    let listing = lister::list(&table, task, &asked.upper, &asked.lower, 5_000);
    listing.whole.then_some((table, task, asked, listing))
}

/// Under a ceiling come the readings whose sums it allows, in their order; so a higher one's list holds those of a lower one's.
fn lists_under_ceilings(engine: &impl Engine) {
    let mut shorter = [0; 3];
    for (table, task, asked, listing) in (0..1_500).filter_map(drawn) {
        let words = [&asked.upper[..], &asked.lower[..]];
        let highest = listing.readings.iter().map(|reading| reading.sum).max();
        let mut ceilings = vec![0, asked.ceiling, MOST];
        ceilings.extend(
            highest
                .into_iter()
                .flat_map(|sum| [sum.saturating_sub(1), sum]),
        );
        for ceiling in ceilings {
            let due = listing.readings.iter().filter(|r| r.sum <= ceiling);
            let due: Vec<&Vec<u8>> = due.map(|reading| &reading.letters).collect();
            let found = readings(engine, &table, task, ceiling, words);
            assert!(
                found.iter().eq(due.iter().copied()),
                "{ceiling}, {words:?}, {table:?}"
            );
            shorter[task as usize - 1] += usize::from(found.len() < listing.readings.len());
        }
    }
    assert!(shorter.iter().all(|count| *count > 100), "only {shorter:?}");
}

/// Where no arc has a penalty, every ceiling has the same readings after the same steps.
fn lists_without_penalties(engine: &impl Engine) {
    for (mut table, task, asked, _) in (0..500).filter_map(drawn) {
        table.arcs.iter_mut().for_each(|arc| arc.penalty = 0);
        let words = [&asked.upper[..], &asked.lower[..]];
        let listed =
            |ceiling| lister::list_under(&table, task, ceiling, &asked.upper, &asked.lower, 5_000);
        if !listed(MOST).whole {
            continue;
        }
        let all = readings(engine, &table, task, MOST, words);
        for ceiling in [0, 1, asked.ceiling] {
            assert_eq!(readings(engine, &table, task, ceiling, words), all);
            assert_eq!(listed(ceiling), listed(MOST));
        }
    }
}

#[test]
fn the_library_lists_under_ceilings() {
    lists_under_ceilings(&Library);
    lists_without_penalties(&Library);
}

#[test]
fn the_twin_lists_under_ceilings() {
    lists_under_ceilings(&SOUND);
    lists_without_penalties(&SOUND);
}

/// A letter tree has no penalties: under ceiling 0 every cut is found.
#[test]
fn a_letter_tree_has_no_penalties() {
    let list = german::letters(&german::MANY);
    let tree = Table::loaded(&cuts::table(&Library, &list).unwrap()).expect("a table");
    assert!(tree.arcs.iter().all(|arc| arc.penalty == 0));
    for (word, count) in german::COMPOUNDS {
        let word = letters(word);
        for ceiling in [0, MOST] {
            let found = readings(&Library, &tree, SYNTHESIS, ceiling, [&word, &[]]);
            assert_eq!(found.len(), count);
        }
    }
}

/// Idle cycles of random tables are shown the same without penalties and under every ceiling.
#[test]
fn cycles_do_not_depend_on_penalties() {
    let mut shown = 0;
    for case in 0..1_000 {
        let random = &mut Random::of_case(0x1D7E, case);
        let task = random.within(1, 3) as u32;
        let table = draw::knotted(random, task);
        let mut bare = table.clone();
        bare.arcs.iter_mut().for_each(|arc| arc.penalty = 0);
        let cells = table.cells();
        for ceiling in [0, random.below(300) as u32, MOST] {
            let with = started(&Library, start(&cells, task, ceiling, [&[], &[]]));
            assert_eq!(with, Library.start_empty(&bare, task), "under {ceiling}");
        }
        shown += usize::from(Library.start_empty(&table, task).answer.number == 12);
    }
    assert!(shown > 300, "only {shown}");
}

/// The draws have penalties of all shares, and ceilings at and about sums.
#[test]
fn what_is_drawn() {
    let (mut none, mut small, mut high) = (0, 0, 0);
    let mut ceilings = [0; 3];
    for case in 0..1_000 {
        let random = &mut Random::of_case(0xD2A3, case);
        let table = draw::table(random, 2, true);
        match table.arcs.iter().map(|arc| arc.penalty).max() {
            None | Some(0) => none += 1,
            Some(1..=9) => small += 1,
            Some(_) => high += 1,
        }
        match penalties::ceiling(random, 500) {
            0 => ceilings[0] += 1,
            499..=501 => ceilings[1] += 1,
            MOST => ceilings[2] += 1,
            _ => {}
        }
    }
    assert!(
        none > 200 && small > 200 && high > 60,
        "{none}, {small}, {high}"
    );
    assert!(ceilings.iter().all(|count| *count > 60), "{ceilings:?}");
}

/// What the session program prints, and the session over the model.
fn prints(input: &str, expected: &str) {
    let said = session(&Model, input.as_bytes());
    assert_eq!(String::from_utf8_lossy(&said), expected, "{input}");
    let printed = common::program(input.as_bytes());
    assert_eq!(String::from_utf8_lossy(&printed), expected, "{input}");
}

/// Arcs of penalty 251 through 200 states, then one that reads 01 and leads to the first. A word of one letter has a path of 399 arcs,
/// and the last one's penalty decides on its sum.
fn long_way(last: u16) -> String {
    let mut arcs: Vec<Arc> = (0..199).map(|s| Arc::new(s, 0, 0, s + 1)).collect();
    arcs.push(Arc::new(199, 1, 1, 0));
    let mut arcs: Vec<Arc> = arcs.into_iter().map(|arc| arc.with_penalty(251)).collect();
    arcs[199].penalty = last;
    let table = Table {
        states: 200,
        initials: vec![0],
        terminals: vec![199],
        arcs,
        ..Table::default()
    };
    String::from_utf8(text::print(&table)).expect("text") + "1002010100\n"
}

#[test]
fn a_session_has_the_highest_ceiling() {
    let text = String::from_utf8(text::print(&ways())).expect("text");
    let all = "20000100020104\n20000200020204\n20000300020304\n2F0003\n";
    prints(&format!("{text}100202010100\n"), all);
    prints(&format!("{text}10030002020400\n"), "2E02\n");
    prints(&format!("{text}100300020204\n"), "20000100020101\n2F0001\n");
    prints(&format!("{text}1001020101020304\n"), "2000010000\n2F0001\n");
    for (old, new, line) in [
        ("0101000105", "0101000100", "2E02\n"),
        ("0700000101000105", "07000001010001", "2E02\n"),
        ("04000001020001", "0400000102000101", "2E02\n"),
        ("04000001020001", "0700000101000101", "2E08\n"),
    ] {
        let text = text.replace(old, new);
        prints(&format!("{text}100202010100\n"), line);
    }
    prints(&long_way(101), "200001000101\n2F0001\n"); // 398 x 251 + 101 = 99,999
    prints(&long_way(102), "200001000101\n2F0001\n");
    prints(&long_way(103), "2F0000\n");
}
