//! The session program against a session written from document 01.
mod common;

use common::program;
use readings_check::draw;
use readings_check::engine::Engine;
use readings_check::lister;
use readings_check::model::Model;
use readings_check::random::Random;
use readings_check::session::{LONGEST, session};
use readings_check::table::{Arc, Table};
use readings_check::text::{self, K};
use readings_check::twin::SOUND;

/// The program prints what the session over an engine says, and this.
fn agrees(engine: &impl Engine, input: &[u8], expected: Option<&str>) {
    let said = String::from_utf8(session(engine, input)).expect("text");
    let printed = String::from_utf8_lossy(&program(input)).into_owned();
    let shown = String::from_utf8_lossy(&input[..input.len().min(2_000)]);
    assert_eq!(printed, said, "on {shown}");
    if let Some(expected) = expected {
        assert_eq!(said, expected, "on {shown}");
    }
}

fn prints(input: impl AsRef<[u8]>, expected: &str) {
    agrees(&Model, input.as_ref(), Some(expected));
}

/// Table K with some text after it.
fn k_with(rest: &str) -> String {
    format!("{K}{rest}")
}

/// A table's text with a query.
fn input(table: &Table, task: u8, upper: &[u8], lower: &[u8]) -> Vec<u8> {
    let mut bytes = vec![0x10, task, upper.len() as u8];
    bytes.extend(upper);
    bytes.push(lower.len() as u8);
    bytes.extend(lower);
    let mut input = text::print(table);
    input.extend(text::line(&bytes));
    input
}

#[test]
fn table_k() {
    let lines = "20000100020102\n2000020003010302\n2F0002\n";
    prints(k_with("100202010200\n"), lines);
    prints(k_with("10020000\n"), "2F0000\n");
    prints(k_with("10030003010302\n"), "20000100020102\n2F0001\n");
    prints(k_with("1001020102030103\n"), "2E02\n");
    prints(k_with("100102010203010302\n"), "2000010000\n2F0001\n");
}

#[test]
fn queries_turned_down() {
    for (rest, line) in [
        ("", "2E02\n"),
        ("100202010200", "2E01\n"),
        ("\n", "2E01\n"),
        ("10020201020\n", "2E01\n"),
        ("10020201020g\n", "2E01\n"),
        ("1002020a0200\n", "2E01\n"),
        ("110202010200\n", "2E02\n"),
        ("10\n", "2E02\n"),
        ("1002\n", "2E02\n"),
        ("100202\n", "2E02\n"),
        ("1002020102\n", "2E02\n"),
        ("10020201020000\n", "2E02\n"),
        ("10020301020000\n", "2E0A\n"),
        ("1002FF010200\n", "2E02\n"),
        ("100202010200\n100202010200\n", "2E02\n"),
        ("100202010200\nx", "2E02\n"),
        ("100202010200\n\n", "2E02\n"),
        ("10020201020\nx", "2E01\n"),
        ("050009\n100202010200\n", "2E02\n"),
        ("10000000\n", "2E0B\n"),
        ("10040000\n", "2E0B\n"),
        ("10FF0000\n", "2E0B\n"),
        ("1002000101\n", "2E0B\n"),
        ("1003010100\n", "2E0B\n"),
        ("1002014000\n", "2E0A\n"),
        ("1002010000\n", "2E0A\n"),
    ] {
        prints(k_with(rest), line);
    }
}

#[test]
fn words_too_long() {
    let k = text::parse(K.as_bytes()).expect("table K");
    for length in [64, 65, 255] {
        let line = if length > 64 { "2E0A\n" } else { "2F0000\n" };
        prints(input(&k, 2, &vec![63; length], &[]), line);
        prints(input(&k, 3, &[], &vec![63; length]), line);
        prints(input(&k, 1, &[63; 64], &vec![63; length]), line);
    }
}

#[test]
fn tables_turned_down() {
    for (text, line) in [
        ("", "2E02\n"),
        ("\n", "2E01\n"),
        ("05", "2E01\n"),
        ("050000\n", "2E02\n"),
        ("05x\n100202010200\n", "2E01\n"),
        ("x\n05\n", "2E01\n"),
        ("010000000100000000\n", "2E03\n"),
        ("010001000100000000\n020001\n050002\n", "2E04\n"),
        ("010001000100000000\n020000\n050003\n", "2E09\n"),
        ("010001000100000000\n050001\n020000\n", "2E02\n"),
        ("010001000100000000\n020000\n050002\n", "2E02\n"),
        ("010001000100000000\n020000\n050003\nx", "2E09\n"),
        ("010001000100000000\n020000\n050002\n10020000\n", "2F0000\n"),
    ] {
        prints(text, line);
    }
}

/// Reads 14, a letter of class 0 and 10, and writes 10, that letter and 14.
const VOWEL: &str = "010004000100010003\n06000105090F15\n020000\n030003\n\
                     04000014100001\n04000140400002\n04000210140003\n050007\n";

#[test]
fn a_class() {
    for (query, lines) in [
        ("10020314091000\n", "2000010003100914\n2F0001\n"),
        ("10020314151000\n", "2000010003101514\n2F0001\n"),
        ("10020314021000\n", "2F0000\n"),
        ("10030003100914\n", "2000010003140910\n2F0001\n"),
        ("10010314091003100914\n", "2000010000\n2F0001\n"),
        ("10010314091003100114\n", "2F0000\n"),
        ("10020314401000\n", "2E0A\n"),
    ] {
        prints(format!("{VOWEL}{query}"), lines);
    }
}

#[test]
fn classes_turned_down() {
    let class = "06000105090F15\n";
    for (old, new, line) in [
        (class, "", "2E22\n"),
        (class, "0600\n", "2E02\n"),
        (class, "060000\n", "2E22\n"),
        (class, "060801\n", "2E22\n"),
        (class, "06000105\n06000105\n", "2E22\n"),
        (class, "06000105\n06010105\n", "2E09\n"),
        ("020000\n", "020000\n060105\n", "2E02\n"),
        ("4040", "4140", "2E22\n"),
        ("4040", "4100", "2E22\n"),
        ("4040", "4840", "2E05\n"),
        ("050007", "050006", "2E09\n"),
    ] {
        let text = VOWEL.replace(old, new);
        prints(format!("{text}10020314091000\n"), line);
    }
}

#[test]
fn idle_cycles_are_refused() {
    let mut table = text::parse(K.as_bytes()).expect("table K");
    table.arcs.push(Arc::new(2, 0, 0, 1)); // 1 to 0 writes 03 and reads nothing above; no cycle yet
    prints(input(&table, 2, &[], &[]), "2F0000\n");
    table.arcs.push(Arc::new(2, 0, 5, 2));
    prints(input(&table, 2, &[], &[]), "2E0C\n");
    prints(input(&table, 1, &[], &[]), "2F0000\n");
}

#[test]
fn inputs_of_full_length() {
    let whole = k_with("100202010200\n").into_bytes();
    for fill in [b'0', b'\n', b'x'] {
        for length in [LONGEST - 1, LONGEST, LONGEST + 1, LONGEST + 2, 200_000] {
            let mut input = whole.clone();
            input.resize(length, fill);
            let line = if length > LONGEST { "2E03\n" } else { "2E02\n" };
            prints(&input, line);
        }
        prints(vec![fill; LONGEST], "2E01\n");
        prints(vec![fill; LONGEST + 1], "2E03\n");
    }
}

/// A table on which the word 01 has so many readings.
fn fan(readings: u16) -> Table {
    let arcs = (0..readings).map(|k| Arc::new(0, 1, 1 + k / 16, 1 + k % 16));
    Table {
        states: 17,
        initials: vec![0],
        terminals: (1..17).collect(),
        arcs: arcs.collect(),
        ..Table::default()
    }
}

#[test]
fn a_thousand_readings() {
    for (readings, line) in [(999, "2F03E7"), (1_000, "2D03E8"), (1_001, "2D03E8")] {
        let input = input(&fan(readings), 2, &[1], &[]);
        agrees(&SOUND, &input, None);
        let printed = String::from_utf8(program(&input)).expect("text");
        let count = printed.lines().count();
        assert_eq!(printed.lines().last(), Some(line));
        assert_eq!(count, 1 + usize::from(readings.min(1_000)));
    }
}

/// A table of 256 states, every one on the way.
#[test]
fn a_table_of_256_states() {
    let mut arcs = Vec::new();
    for state in 0..255 {
        arcs.push(Arc::new(state, state % 4 / 3, 1 + state % 63, state + 1));
    }
    let table = Table {
        states: 256,
        initials: (0..256).rev().collect(),
        terminals: (0..256).collect(),
        arcs,
        ..Table::default()
    };
    for length in [0, 1, 63, 64] {
        agrees(&Model, &input(&table, 2, &vec![1; length], &[]), None);
    }
}

/// A chain of idle arcs through all states, whose last arc reads 01 and leads to the first state. A word of n letters 01 has one
/// reading, found on (n + 1) x states frames, with a letter for each of its arcs.
fn chain(states: u16) -> Table {
    let arc = |s| Arc::new(s, (s + 1) / states, 1 + s % 63, (s + 1) % states);
    Table {
        states,
        initials: vec![0],
        terminals: vec![states - 1],
        arcs: (0..states).map(arc).collect(),
        ..Table::default()
    }
}

/// What is printed where that reading is found on so many frames.
fn found_on(frames: u16, states: u16) -> String {
    let letters = (0..frames - 1).map(|k| format!("{:02X}", 1 + k % states % 63));
    let letters: String = letters.collect();
    format!("200001{:04X}{letters}\n2F0001\n", frames - 1)
}

/// A session has 4,096 frames, neither more nor less. A reading found on all of them has 4,095 letters and is the longest, so an output
/// of 4,094 letters would give 23; one of 4,095 nobody can tell from one of 4,096.
#[test]
fn frames_and_letters() {
    for (frames, states, lines) in [
        (4_095, 195, found_on(4_095, 195)),
        (4_096, 256, found_on(4_096, 256)),
        (4_097, 241, "2E16\n".to_string()),
    ] {
        let word = vec![1; usize::from(frames / states - 1)];
        let input = input(&chain(states), 2, &word, &[]);
        agrees(&SOUND, &input, Some(&lines));
    }
}

/// A reading from the first initial state, then such a chain from the second.
#[test]
fn a_refusal_after_a_reading() {
    let mut arcs: Vec<Arc> = (0..254).map(|s| Arc::new(s, 0, 1, s + 1)).collect();
    arcs.extend([Arc::new(254, 1, 1, 0), Arc::new(255, 1, 0, 255)]);
    let table = Table {
        states: 256,
        initials: vec![255, 0],
        terminals: vec![255],
        arcs,
        ..Table::default()
    };
    prints(input(&table, 2, &[1; 16], &[]), "2000010000\n2E16\n");
}

/// A table whose search for 23 letters 01 has exactly so many steps and no reading: chains of any length lead to a state with two
/// arcs to itself, and states of two or three steps fill up.
fn long_search(steps: u64) -> Table {
    // State 23 - j leads through j arcs to state 23, which then branches over the letters left.
    let size = |j: u64| 1 + 2 * j + 3 * ((1 << (24 - j)) - 1);
    let mut arcs: Vec<Arc> = (0..23).map(|s| Arc::new(s, 1, 0, s + 1)).collect();
    arcs.extend([Arc::new(23, 1, 1, 23), Arc::new(23, 1, 2, 23)]);
    let (mut initials, mut left) = (Vec::new(), steps);
    for j in 0..=22 {
        if size(j) + 3 <= left {
            initials.push(23 - j as u16);
            left -= size(j);
        }
    }
    let mut state = 24;
    if left % 2 == 1 {
        arcs.push(Arc::new(state, 2, 0, state)); // a start, an arc that does not fit, a drop
        initials.push(state);
        (state, left) = (state + 1, left - 3);
    }
    for _ in 0..left / 2 {
        initials.push(state); // a start and a drop
        state += 1;
    }
    Table {
        states: state,
        initials,
        terminals: vec![],
        arcs,
        ..Table::default()
    }
}

#[test]
fn a_search_is_cut_after_65536_calls() {
    for (steps, line) in [(65_536_000, "2F0000\n"), (65_536_001, "2D0000\n")] {
        let input = input(&long_search(steps), 2, &[1; 23], &[]);
        agrees(&SOUND, &input, Some(line));
    }
}

/// The same with one reading, which a last initial state leads to by 24 steps.
fn with_reading(mut table: Table) -> Table {
    let first = table.states;
    let chain = (first..first + 23).map(|s| Arc::new(s, 1, 0, s + 1));
    table.arcs.extend(chain);
    table.initials.push(first);
    table.terminals.push(first + 23);
    table.states += 24;
    table
}

#[test]
fn a_reading_in_the_last_call() {
    for (before, lines) in [(24, "2000010000\n2D0001\n"), (23, "2D0000\n")] {
        let table = with_reading(long_search(65_536_000 - before));
        agrees(&SOUND, &input(&table, 2, &[1; 23], &[]), Some(lines));
    }
}

#[test]
fn random_inputs() {
    for case in 0..400 {
        let mut random = Random::of_case(0x5E5510, case);
        let task = random.within(1, 3) as u32;
        let falling = !random.one_in(5);
        let table = draw::table(&mut random, task, falling);
        let (upper, lower) = draw::words(&mut random, &table, task);
        let mut input = input(&table, task as u8, &upper, &lower);
        if falling && lister::list(&table, task, &upper, &lower, 20_000).whole {
            agrees(&Model, &input, None);
        }
        if random.one_in(3) {
            let at = random.below(input.len());
            input[at] = *random.pick(b"0123456789ABCDEFG\n");
        }
        if random.one_in(20) {
            input.truncate(random.below(input.len()));
        }
        agrees(&SOUND, &input, None);
    }
}

#[test]
fn arbitrary_bytes() {
    for case in 0..100 {
        let mut random = Random::of_case(0xA2B7, case);
        let any = random.one_in(2);
        let input: Vec<u8> = (0..random.below(3_000))
            .map(|_| match any {
                true => random.below(256) as u8,
                false => *random.pick(b"0123456789ABCDEF\n"),
            })
            .collect();
        agrees(&Model, &input, None);
    }
}
