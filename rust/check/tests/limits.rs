//! The largest tables, the deepest searches, stacks at the limit of 33,024 frames, the largest tables of word lists, and the largest sheet.
use readings::limits::{FRAME_CELLS, MOST_FRAMES as MOST, TABLE_CELLS, TEXT_BYTES};
use readings::limits::{MOST_READING, MOST_READINGS, SHEET_BYTES, TREE_CELLS};
use readings_check::answer::{Answer, FOUND, Run};
use readings_check::compare::call::{self, Call};
use readings_check::compare::page::Page;
use readings_check::compare::{listed, sheets, texts, words};
use readings_check::library::Library;
use readings_check::lister;
use readings_check::table::{Arc, Table};
use readings_check::text;
use readings_check::twin::SOUND;
use readings_check::words::packed;
use std::thread;

/// Steps to the first reading of the deepest search: a push for each frame, and the arc of the upper letter tried in vain 64 times.
const FIRST: usize = MOST + 64;

/// Eight classes of 16 letters, every state initial and terminal, and four arcs from each, two of them of a class, all
/// with a penalty.
fn largest() -> Table {
    let states: Vec<u16> = (0..256).collect();
    let mut arcs = Vec::new();
    for source in 0..256 {
        for k in 0..2 {
            let plain = Arc::new(source, 60 + k, 63 - k, (source + k) % 256);
            let of_class = Arc::of_class(source, (source + k) % 8, 255 - source);
            arcs.extend([plain.with_penalty(1), of_class.with_penalty(255)]);
        }
    }
    Table {
        states: 256,
        classes: std::array::from_fn(|k| (1..=16).map(|x| x + 6 * k as u16).collect()),
        initials: states.iter().rev().copied().collect(),
        terminals: states,
        arcs,
    }
}

#[test]
fn the_largest_table() {
    let (cells, source) = (largest().cells(), text::print(&largest()));
    assert_eq!((cells.len(), source.len()), (TABLE_CELLS, TEXT_BYTES));
    for length in [5_763, 5_764, 5_765] {
        let answer = texts::read(&Library, &source, length).unwrap();
        assert_eq!(answer.is_refused(), length < 5_764);
    }
    for length in [21_313, 21_314, 21_315] {
        let answer = texts::write(&Library, &cells, length).unwrap();
        assert_eq!(answer.is_refused(), length < 21_314);
    }
}

#[test]
fn an_arc_too_many() {
    let mut table = largest();
    table.arcs.push(Arc::new(255, 1, 1, 0));
    let answer = texts::write(&Library, &table.cells(), 30_000).unwrap();
    assert_eq!(answer, Answer::refused(20, 0));
    let answer = texts::read(&Library, &text::print(&table), 6_000).unwrap();
    assert_eq!(answer, Answer::refused(3, 0));
}

/// A chain of idle arcs through 256 states, at whose end a letter of either word is read.
fn chain() -> Table {
    let mut arcs: Vec<Arc> = (0..255).map(|s| Arc::new(s, 0, 0, s + 1)).collect();
    arcs.push(Arc::new(255, 1, 0, 0));
    arcs.push(Arc::new(255, 0, 1, 0));
    Table {
        states: 256,
        initials: vec![0],
        terminals: vec![255],
        arcs,
        ..Table::default()
    }
}

fn deep_call(frames: usize) -> Call {
    Call {
        table: chain().cells(),
        upper: vec![1; 64],
        lower: vec![1; 64],
        run: Run::of(1),
        stack: vec![9; FRAME_CELLS * frames + 3],
        allowance: u32::MAX,
        output: vec![],
    }
}

#[test]
fn the_deepest_search_needs_every_frame() {
    let mut call = deep_call(MOST);
    for _ in 0..3 {
        let answer = call::compare(&Library, &mut call).unwrap();
        assert_eq!(answer.kind, FOUND);
    }
    let answer = call::compare(&Library, &mut deep_call(MOST - 1)).unwrap();
    assert_eq!(answer, Answer::refused(22, FIRST as u32 - 1));
}

#[test]
fn the_lister_goes_as_deep() {
    let list = || lister::list(&chain(), 1, &[1; 64], &[1; 64], 40_000);
    let listing = thread::Builder::new()
        .stack_size(1 << 28)
        .spawn(list)
        .expect("a thread")
        .join()
        .expect("a listing");
    assert_eq!(listing.readings[0].step, FIRST as u64);
    let mut call = deep_call(MOST);
    let mut steps = 0;
    for reading in &listing.readings {
        let answer = call::compare(&SOUND, &mut call).unwrap();
        steps += u64::from(answer.steps);
        assert_eq!((answer.kind, steps), (FOUND, reading.step));
    }
}

/// A place that no start makes: a state with an idle arc to itself, so many frames deep.
fn looping(depth: usize, frames: usize) -> Call {
    let table = Table {
        states: 1,
        initials: vec![0],
        terminals: vec![],
        arcs: vec![Arc::new(0, 0, 1, 0)],
        ..Table::default()
    };
    Call {
        table: table.cells(),
        upper: vec![1],
        lower: vec![],
        run: Run {
            started: u32::from(depth > 0),
            depth: depth as u32,
            ..Run::of(2)
        },
        stack: (0..frames as u32).flat_map(|k| [0, 1, 0, k, 0]).collect(),
        allowance: 100,
        output: vec![0; 8],
    }
}

#[test]
fn no_more_frames_are_used() {
    let mut call = looping(0, MOST + 10);
    call.allowance = u32::MAX;
    let answer = call::compare(&Library, &mut call).unwrap();
    assert_eq!(answer, Answer::refused(22, MOST as u32));
    let answer = call::compare(&Library, &mut call).unwrap();
    assert_eq!(answer, Answer::refused(22, 0));
    let answer = call::compare(&Library, &mut looping(MOST, MOST + 10)).unwrap();
    assert_eq!(answer, Answer::paused(100));
    let answer = call::compare(&Library, &mut looping(MOST + 1, MOST + 10)).unwrap();
    assert_eq!(answer, Answer::refused(21, 0));
    let answer = call::compare(&Library, &mut looping(MOST, MOST - 1)).unwrap();
    assert_eq!(answer, Answer::refused(21, 0));
}

/// Both lists have 255 words: short ones, and as long ones as there can be.
#[test]
fn the_largest_tables_of_word_lists() {
    for (list, bytes) in [(listed::short(255), 760), (listed::longest(), 14_556)] {
        let lent = packed(&list);
        assert_eq!((lent.len(), TREE_CELLS), (bytes, 2_938));
        for cells in [TREE_CELLS - 1, TREE_CELLS, TREE_CELLS + 1] {
            let answer = words::compare(&Library, &lent, cells).unwrap();
            assert_eq!(answer.is_refused(), cells < TREE_CELLS);
        }
    }
}

#[test]
fn a_word_too_many() {
    for list in [listed::short(255), listed::longest()] {
        for (word, number) in [(vec![62; 64], 32), (vec![62; 65], 30), (vec![1; 63], 31)] {
            let lent = packed(&[&list[..], &[word]].concat());
            let answer = words::compare(&Library, &lent, TREE_CELLS).unwrap();
            assert_eq!(answer, Answer::refused(number, 0));
        }
    }
}

#[test]
fn the_largest_sheet() {
    let page = Page::of_lengths([MOST_READING; MOST_READINGS]);
    assert_eq!((page.size(), SHEET_BYTES), (72_489_146, 72_489_146));
    for bytes in [SHEET_BYTES - 1, SHEET_BYTES, SHEET_BYTES + 1] {
        let answer = sheets::compare(&Library, &page, bytes).unwrap();
        assert_eq!(answer.is_refused(), bytes < SHEET_BYTES);
    }
}
