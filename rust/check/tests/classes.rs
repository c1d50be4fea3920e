//! Letter classes, case by case, on the library, the model and the twin: texts and loaded tables with and without faults, what an arc of a
//! class reads and writes, and the same table without classes.
use readings::limits::{INITIALS_AT, MOST_ARCS};
use readings_check::answer::{Answer, Run, Started};
use readings_check::compare::cuts;
use readings_check::compare::pieces::Way;
use readings_check::draw::{self, Asked};
use readings_check::engine::{Engine, Next, Start, Texts};
use readings_check::library::Library;
use readings_check::lister;
use readings_check::model::Model;
use readings_check::query::{ANALYSIS, MOST_CEILING, RECOGNITION, SYNTHESIS};
use readings_check::random::Random;
use readings_check::table::{Arc, Table};
use readings_check::text;
use readings_check::twin::{PLAIN, SOUND};

/// A text of so many states, the first one initial and terminal, with these lines of classes and arcs.
fn text_of(states: u16, classes: &[&str], arcs: &[&str]) -> String {
    let joined = |lines: &[&str]| -> String { lines.iter().map(|l| format!("{l}\n")).collect() };
    let (before, count) = (3 + classes.len() + arcs.len(), arcs.len());
    let (classes, arcs) = (joined(classes), joined(arcs));
    format!("01{states:04X}00010001{count:04X}\n{classes}020000\n030000\n{arcs}05{before:04X}\n")
}

/// A text is read to so many cells.
fn loads(texts: &impl Texts, text: &str, cells: usize) {
    let answer = texts.read(text.as_bytes(), &mut [0; 300]);
    assert_eq!(answer, Answer::done(cells), "on {text}");
}

/// A text is refused with this number.
fn refuses(texts: &impl Texts, text: &str, number: u32) {
    let answer = texts.read(text.as_bytes(), &mut [0; 300]);
    assert_eq!(answer, Answer::refused(number, 0), "on {text}");
}

/// Lines of class 0 with so many letters.
const ONE: &str = "060001";
const SIXTEEN: &str = "06000102030405060708090A0B0C0D0E0F10";
const SEVENTEEN: &str = "06000102030405060708090A0B0C0D0E0F1011";

/// Class lines out of their limits: the class; letters 0; letters over 63; letters that do not rise.
#[rustfmt::skip]
const BAD: [&str; 12] = [
    "060801", "064001", "06FF01",
    "060000", "06000001", "06000100",
    "060040", "06003F40", "0600FF",
    "06000101", "06000201", "0600010302",
];

/// The arc letters 63, 64, 71 and 72, each on both sides.
fn letters_of_arcs(texts: &impl Texts) {
    let with = |classes: &[&str], letter: u8| {
        let arc = format!("040000{letter:02X}{letter:02X}0000");
        text_of(1, classes, &[&arc])
    };
    loads(texts, &with(&[], 63), 139);
    loads(texts, &with(&["060001"], 63), 139);
    refuses(texts, &with(&[], 64), 34);
    refuses(texts, &with(&["060101"], 64), 34);
    loads(texts, &with(&["060001"], 64), 139);
    refuses(texts, &with(&[], 71), 34);
    refuses(texts, &with(&["060601"], 71), 34);
    loads(texts, &with(&["060701"], 71), 139);
    for letter in [72, 73, 127, 128, 136, 255] {
        refuses(texts, &with(&[], letter), 5);
        refuses(texts, &with(&["060001", "060701"], letter), 5);
    }
}

/// Lengths, classes and letters of class lines, with no arc.
fn class_lines(texts: &impl Texts) {
    let with = |classes: &[&str]| text_of(1, classes, &[]);
    for good in ["060001", "06003F", "0600013F", "060701", SIXTEEN] {
        loads(texts, &with(&[good]), 134);
    }
    for long_or_short in ["06", "0600", "0607", "0608", "06FF", SEVENTEEN] {
        refuses(texts, &with(&[long_or_short]), 2);
    }
    refuses(texts, &with(&[&SEVENTEEN.replace("0600", "0608")]), 2);
    for bad in BAD {
        refuses(texts, &with(&[bad]), 34);
    }
    for malformed in ["06000", "06000g", "06 001", "06000a"] {
        refuses(texts, &with(&[malformed]), 1);
    }
}

/// Several class lines, and class lines in other places.
fn places(texts: &impl Texts) {
    let all = [
        "060001", "060101", "060201", "060301", "060401", "060501", "060601", "060701",
    ];
    loads(texts, &text_of(1, &all, &[]), 134);
    loads(texts, &text_of(1, &["060001", "060701"], &[]), 134);
    for pair in [
        ["060101", "060001"],
        ["060001", "060001"],
        ["060701", "060601"],
    ] {
        refuses(texts, &text_of(1, &pair, &[]), 34);
    }
    for ninth in ["060001", "060701", "060801"] {
        let nine: Vec<&str> = all.into_iter().chain([ninth]).collect();
        refuses(texts, &text_of(1, &nine, &[]), 34);
    }
    let text = text_of(1, &[], &["04000001010000"]);
    for line in ["020000", "030000", "04000001010000", "050004"] {
        let after = format!("{line}\n{ONE}");
        refuses(texts, &text.replace(line, &after), 2);
    }
    refuses(texts, &format!("{ONE}\n{text}"), 2);
    let between = format!("010002000200000000\n020000\n{ONE}\n020001\n050004\n");
    refuses(texts, &between, 2);
    let before = format!("010002000200000000\n{ONE}\n020000\n020001\n050004\n");
    loads(texts, &before, 134);
}

/// The end line counts class lines, and the first bad line decides.
fn counts_and_lines(texts: &impl Texts) {
    let text = text_of(1, &[ONE, "060101"], &[]);
    loads(texts, &text, 134);
    for count in ["050003", "050004", "050006"] {
        refuses(texts, &text.replace("050005", count), 9);
    }
    let bad = text_of(1, &["060000"], &["04000048480009"]);
    refuses(texts, &bad, 34);
    refuses(texts, &bad.replace("060000", "060001"), 4);
    refuses(texts, &bad.replace("060000", "0600"), 2);
    refuses(texts, &format!("010000{}", &bad[6..]), 3);
    refuses(texts, &bad.replace("060000\n020000", "020001\n060000"), 4);
}

/// An arc with a class on one side, or with two classes.
fn unlike_sides(texts: &impl Texts) {
    for letters in [
        "4000", "0040", "4001", "0140", "403F", "3F40", "4041", "4140", "4740", "4047",
    ] {
        let arc = format!("040000{letters}0000");
        let text = text_of(1, &["060001", "060101", "060701"], &[&arc]);
        refuses(texts, &text, 34);
    }
}

/// Two faults in an arc's line. No line that repeats an arc has 4, 5 or 34, for the earlier one would have it too.
fn order_in_a_line(texts: &impl Texts) {
    let after_1 = |arc| text_of(2, &[ONE], &["04000101010000", arc]);
    refuses(texts, &after_1("04000148480002"), 4); // and 5
    refuses(texts, &after_1("04000141410002"), 4); // and 34
    refuses(texts, &after_1("04000001010002"), 4); // and 7
    refuses(texts, &after_1("04000140480000"), 5); // and 34, from both sides
    refuses(texts, &after_1("04000148400000"), 5);
    refuses(texts, &after_1("04000048480000"), 5); // and 7
    refuses(texts, &after_1("04000041410000"), 34); // and 7, by an undefined class
    refuses(texts, &after_1("04000040010000"), 34); // and 7, by unlike sides
    refuses(texts, &after_1("04000040400000"), 7);
    refuses(texts, &after_1("04000101010000"), 8);
    let repeated = ["04000040400000", "04000101010000", "04000040400000"];
    refuses(texts, &text_of(2, &[ONE], &repeated), 7); // and 8
    refuses(texts, &text_of(2, &[ONE], &["04000040400000"; 2]), 8);
    refuses(texts, &after_1("04000048410002"), 4); // and 5 and 34
}

fn all_texts(texts: &impl Texts) {
    letters_of_arcs(texts);
    class_lines(texts);
    places(texts);
    counts_and_lines(texts);
    unlike_sides(texts);
    order_in_a_line(texts);
}

#[test]
fn the_library_reads_class_lines() {
    all_texts(&Library);
}

#[test]
fn the_model_reads_class_lines() {
    all_texts(&Model);
}

/// One state; class 0 has letters 1, 5 and 9, class 7 has 16 letters; each has an arc, and so has letter 5.
fn vowels() -> Table {
    let mut table = Table {
        states: 1,
        initials: vec![0],
        terminals: vec![0],
        arcs: vec![
            Arc::of_class(0, 0, 0),
            Arc::new(0, 5, 6, 0),
            Arc::of_class(0, 7, 0),
        ],
        ..Table::default()
    };
    table.classes[0] = vec![1, 5, 9];
    table.classes[7] = (48..64).collect();
    table
}

/// What writing, starting and calling answer on some cells: each a number, 0 where nothing is refused.
fn numbers(texts: &dyn Texts, engine: &impl Engine, cells: &[u16]) -> [u32; 3] {
    let start = Start {
        table: cells,
        task: SYNTHESIS,
        ceiling: MOST_CEILING,
        upper: &[],
        lower: &[],
    };
    let mut run = Run::of(SYNTHESIS);
    let started = engine.start(start, &mut run);
    let called = engine.next(Next {
        table: cells,
        upper: &[],
        lower: &[],
        run: &mut run,
        stack: &mut [0; 50],
        allowance: 9,
        output: &mut [0; 9],
    });
    let written = texts.write(cells, &mut [0; 300]);
    [written, started.answer, called].map(|answer| answer.number)
}

/// Changes of cells, each a place and what stands there then. Class 0 stands at 4, class 7 at 116, the first arc at 134.
type Changes = &'static [(usize, u16)];

#[rustfmt::skip]
const FAULTY: [Changes; 21] = [
    &[(4, 0)], &[(5, 0)],                  // a 0 before a letter
    &[(4, 5)], &[(4, 6)], &[(5, 9)],       // letters that do not rise
    &[(6, 64)], &[(6, 257)], &[(6, 65535)], // letters over 63
    &[(8, 10)], &[(19, 63)], &[(21, 1)],   // a letter after a 0, the last time in a class that is not defined
    &[(116, 64)], &[(131, 62)], &[(131, 64)], // the first and the last of 16 letters
    &[(135, 65), (136, 65)],               // an arc of a class that is not defined
    &[(135, 71)], &[(136, 71)], &[(135, 1)], &[(136, 0)], &[(140, 64)], // unlike sides
    &[(135, 72), (136, 72)],               // over 71
];

#[rustfmt::skip]
const GOOD: [Changes; 6] = [
    &[(4, 2)], &[(6, 0)], &[(7, 63)], &[(20, 1)], &[(116, 1)], &[(131, 0)],
];

fn loaded(texts: &impl Texts, engine: &impl Engine) {
    let changed = |changes: Changes| {
        let mut cells = vowels().cells();
        changes.iter().for_each(|(at, cell)| cells[*at] = *cell);
        cells
    };
    for changes in FAULTY {
        let told = numbers(texts, engine, &changed(changes));
        assert_eq!(told, [20; 3], "with {changes:?}");
    }
    for changes in GOOD {
        let told = numbers(texts, engine, &changed(changes));
        assert_eq!(told, [0; 3], "with {changes:?}");
    }
    let mut cells = vowels().cells();
    for short in [cells.len() - 1, INITIALS_AT, INITIALS_AT - 1, 20, 5, 4] {
        assert_eq!(numbers(texts, engine, &cells[..short]), [20; 3]);
    }
    cells[4..7].fill(0); // class 0 has an arc
    assert_eq!(numbers(texts, engine, &cells), [20; 3]);
    cells[135..137].fill(71);
    assert_eq!(numbers(texts, engine, &cells), [20; 3]); // the third arc again
    cells[145] = 7;
    assert_eq!(numbers(texts, engine, &cells), [20; 3]); // unlike sides
    cells[146] = 7;
    assert_eq!(numbers(texts, engine, &cells), [0; 3]);
}

#[test]
fn the_library_checks_loaded_classes() {
    loaded(&Library, &Library);
}

#[test]
fn the_twin_checks_loaded_classes() {
    loaded(&Model, &SOUND);
    loaded(&Model, &PLAIN);
}

#[test]
fn the_model_checks_loaded_classes() {
    loaded(&Model, &Model);
}

/// The cells of a table with classes, and its text.
fn cells_and_text(texts: &impl Texts) {
    let lines = "010001000100010003\n0600010509\n0607303132333435363738393A3B3C3D3E3F\n020000\n030000\n\
                 04000040400000\n04000005060000\n04000047470000\n050008\n";
    let cells = vowels().cells();
    assert_eq!(cells[..8], [1, 1, 1, 3, 1, 5, 9, 0]);
    assert_eq!(cells[8..116], [0; 108]);
    assert!(cells[116..132].iter().copied().eq(48..64));
    let arcs = [[0, 64, 64, 0, 0], [0, 5, 6, 0, 0], [0, 71, 71, 0, 0]];
    assert_eq!(cells[132..], [&[0, 0], arcs.as_flattened()].concat());
    let (mut text, mut back) = ([0; 300], [0; 149]);
    let written = texts.write(&cells, &mut text).length as usize;
    assert_eq!(String::from_utf8_lossy(&text[..written]), lines);
    assert_eq!(texts.read(&text[..written], &mut back), Answer::done(149));
    assert_eq!(back[..], cells);
}

#[test]
fn the_library_writes_class_lines() {
    cells_and_text(&Library);
}

#[test]
fn the_model_writes_class_lines() {
    cells_and_text(&Model);
}

/// The readings of a search over a table.
fn readings(engine: &impl Engine, table: &Table, task: u32, words: [&[u8]; 2]) -> Vec<Vec<u8>> {
    readings_under(engine, table, task, MOST_CEILING, words)
}

/// The same under a ceiling.
fn readings_under(
    engine: &impl Engine,
    table: &Table,
    task: u32,
    ceiling: u32,
    words: [&[u8]; 2],
) -> Vec<Vec<u8>> {
    let start = Start {
        table: &table.cells(),
        task,
        ceiling,
        upper: words[0],
        lower: words[1],
    };
    let readings = cuts::readings(engine, start);
    readings.unwrap_or_else(|difference| panic!("{difference}"))
}

/// Both words have the same letter of the class.
fn recognition(engine: &impl Engine) {
    for (upper, lower, count) in [
        (&[1][..], &[1][..], 1),
        (&[9], &[9], 1),
        (&[1], &[9], 0), // two letters of the class
        (&[9], &[1], 0),
        (&[1, 9], &[1, 9], 1),
        (&[1, 9], &[9, 1], 0),
        (&[5], &[5], 1),
        (&[5], &[6], 1),       // by the plain arc
        (&[5, 1], &[6, 1], 1), // and then by the class
        (&[1], &[], 0),
        (&[], &[1], 0),
        (&[2], &[2], 0), // no letter of the class
        (&[63], &[63], 1),
        (&[63], &[62], 0),
        (&[], &[], 1),
    ] {
        let found = readings(engine, &vowels(), RECOGNITION, [upper, lower]);
        assert_eq!(found, vec![vec![]; count], "{upper:?} and {lower:?}");
    }
}

/// The letter that is read is written, in the order of the arcs.
fn writing(engine: &impl Engine) {
    let synthesis = |word: &[u8]| readings(engine, &vowels(), SYNTHESIS, [word, &[]]);
    let analysis = |word: &[u8]| readings(engine, &vowels(), ANALYSIS, [&[], word]);
    assert_eq!(synthesis(&[1, 9, 48, 63]), [[1, 9, 48, 63]]);
    assert_eq!(analysis(&[1, 9, 48, 63]), [[1, 9, 48, 63]]);
    assert_eq!(synthesis(&[5]), [[5], [6]]);
    assert_eq!(
        synthesis(&[5, 1, 5]),
        [[5, 1, 5], [5, 1, 6], [6, 1, 5], [6, 1, 6]]
    );
    assert_eq!(analysis(&[5]), [[5]]);
    assert_eq!(analysis(&[6, 1, 5]), [[5, 1, 5]]);
    assert_eq!(synthesis(&[]), [[]]);
    for word in [&[2][..], &[1, 2], &[2, 1], &[10], &[47]] {
        assert!(synthesis(word).is_empty() && analysis(word).is_empty());
    }
    let every: Vec<u8> = (48..64).collect();
    assert_eq!(synthesis(&every), [&every[..]]);
}

/// Two classes that have a letter in common: a reading for each arc that fits.
fn common_letters(engine: &impl Engine) {
    let mut table = vowels();
    table.classes[3] = vec![9, 10];
    table.arcs.push(Arc::of_class(0, 3, 0));
    let found = |task, upper: &[u8], lower: &[u8]| readings(engine, &table, task, [upper, lower]);
    assert_eq!(found(SYNTHESIS, &[9], &[]), [[9], [9]]);
    assert_eq!(found(ANALYSIS, &[], &[10, 9]), [[10, 9], [10, 9]]);
    assert_eq!(found(RECOGNITION, &[9, 9], &[9, 9]).len(), 4);
    assert!(found(RECOGNITION, &[9], &[10]).is_empty());
}

/// Words have no classes.
fn words(engine: &impl Engine) {
    let cells = vowels().cells();
    for task in 1..=3 {
        for letter in [64, 71, 72, 255] {
            let word: &[u8] = &[letter];
            let (upper, lower) = if task == 3 {
                (&[][..], word)
            } else {
                (word, &[][..])
            };
            let start = Start {
                table: &cells,
                task,
                ceiling: MOST_CEILING,
                upper,
                lower,
            };
            let started = engine.start(start, &mut Run::default());
            assert_eq!(started, Started::bare(Answer::refused(10, 0)));
        }
    }
}

/// A ring of arcs of a class is no idle cycle; one arc that reads nothing makes none of it either, two do where they lead round.
fn rings(engine: &impl Engine) {
    let mut table = Table {
        states: 3,
        initials: vec![0],
        terminals: vec![],
        arcs: (0..3).map(|s| Arc::of_class(s, 0, (s + 1) % 3)).collect(),
        ..Table::default()
    };
    table.classes[0] = vec![7];
    let shows = |table: &Table, cycle: Option<&[u16]>| {
        for task in 1..=3 {
            assert_eq!(engine.start_empty(table, task), Started::showing(cycle));
        }
    };
    shows(&table, None);
    shows(&vowels(), None);
    table.arcs.insert(2, Arc::new(1, 0, 0, 2));
    shows(&table, None);
    table.arcs.push(Arc::new(2, 0, 0, 1));
    shows(&table, Some(&[1, 2]));
}

fn all_searches(engine: &impl Engine) {
    recognition(engine);
    writing(engine);
    common_letters(engine);
    words(engine);
    rings(engine);
}

#[test]
fn the_library_follows_classes() {
    all_searches(&Library);
}

#[test]
fn the_model_follows_classes() {
    all_searches(&Model);
}

#[test]
fn the_twin_follows_classes() {
    all_searches(&SOUND);
    all_searches(&PLAIN);
}

/// Reads 2 and 3 by a class, or 2 as 7; between two letters 8 is written.
fn joints() -> Table {
    let mut table = Table {
        states: 2,
        initials: vec![0],
        terminals: vec![1],
        arcs: vec![
            Arc::of_class(0, 4, 1),
            Arc::new(0, 2, 7, 1),
            Arc::new(1, 0, 8, 0),
        ],
        ..Table::default()
    };
    table.classes[4] = vec![2, 3];
    table
}

fn handed_back(engine: &impl Engine, task: u32, words: [&[u8]; 2], expected: &[&[u8]]) {
    for allowance in [1, 2, 3, 5, 100] {
        let mut way = Way::new(engine, joints().cells(), words, Run::of(task));
        way.finish(allowance);
        assert_eq!(way.readings, expected, "{words:?} by {allowance}");
        let [short, full, unwritten] = way.refused;
        let written = expected.iter().filter(|letters| !letters.is_empty());
        assert!(full > 0 && (short > 0 || allowance == 100));
        assert_eq!(unwritten, written.count());
    }
}

/// The letters that were read are written in every call, whatever memory it is lent.
fn in_pieces(engine: &impl Engine) {
    let upper = [2, 3, 2];
    let expected: [&[u8]; 4] = [
        &[2, 8, 3, 8, 2],
        &[2, 8, 3, 8, 7],
        &[7, 8, 3, 8, 2],
        &[7, 8, 3, 8, 7],
    ];
    handed_back(engine, SYNTHESIS, [&upper, &[]], &expected);
    for lower in expected {
        handed_back(engine, ANALYSIS, [&[], lower], &[&upper]);
        handed_back(engine, RECOGNITION, [&upper, lower], &[&[]]);
    }
    handed_back(engine, RECOGNITION, [&upper, &[2, 8, 3, 8, 3]], &[]);
}

#[test]
fn the_library_writes_classes_in_pieces() {
    in_pieces(&Library);
}

#[test]
fn the_model_writes_classes_in_pieces() {
    in_pieces(&Model);
}

#[test]
fn the_twin_writes_classes_in_pieces() {
    in_pieces(&SOUND);
}

/// Frames that are a place only if a letter is in a class, and in both words the same.
fn damaged_frames(engine: &impl Engine) {
    let number = |task, upper: &[u8], lower: &[u8]| {
        let mut run = Run {
            started: 1,
            depth: 2,
            ..Run::of(task)
        };
        let answer = engine.next(Next {
            table: &vowels().cells(),
            upper,
            lower,
            run: &mut run,
            stack: &mut [0, 1, 0, 0, 0, 0, 0, 1, 1, 0],
            allowance: 0,
            output: &mut [],
        });
        answer.number
    };
    assert_eq!(number(SYNTHESIS, &[9], &[]), 0);
    assert_eq!(number(SYNTHESIS, &[2], &[]), 21);
    assert_eq!(number(SYNTHESIS, &[], &[]), 21);
    assert_eq!(number(ANALYSIS, &[], &[9]), 0);
    assert_eq!(number(ANALYSIS, &[], &[2]), 21);
    assert_eq!(number(RECOGNITION, &[9], &[9]), 0);
    assert_eq!(number(RECOGNITION, &[9], &[1]), 21);
    assert_eq!(number(RECOGNITION, &[9], &[]), 21);
    assert_eq!(number(RECOGNITION, &[2], &[2]), 21);
}

#[test]
fn the_library_looks_for_classes_in_frames() {
    damaged_frames(&Library);
}

#[test]
fn the_others_look_for_classes_in_frames() {
    damaged_frames(&Model);
    damaged_frames(&SOUND);
}

/// A random table with classes, whose plain arcs are all different.
fn drawn(random: &mut Random, task: u32, falling: bool) -> Table {
    let mut table = draw::table(random, task, falling);
    let mut met = Vec::new();
    let arcs = std::mem::take(&mut table.arcs);
    for arc in arcs {
        let plain = table.plain_arcs(arc).into_iter();
        let plain: Vec<Arc> = plain.map(Arc::bare).collect();
        if plain.iter().all(|arc| !met.contains(arc)) && met.len() + plain.len() <= MOST_ARCS {
            met.extend(plain);
            table.arcs.push(arc);
        }
    }
    table
}

/// The same without classes: each arc of one gives way to its plain arcs.
fn expanded(table: &Table) -> Table {
    let arcs = table.arcs.iter().flat_map(|arc| table.plain_arcs(*arc));
    Table {
        arcs: arcs.collect(),
        classes: Default::default(),
        ..table.clone()
    }
}

/// A class arc has the readings of its plain arcs, in their order and under any ceiling, and starts tell the same.
fn as_plain_arcs(engine: &impl Engine) {
    let (mut with_classes, mut found) = (0, [0; 3]);
    for case in 0..3_000 {
        let random = &mut Random::of_case(0xC1A55, case);
        let task = random.within(1, 3) as u32;
        let table = drawn(random, task, false);
        assert_eq!(
            engine.start_empty(&table, task),
            engine.start_empty(&expanded(&table), task)
        );
        let table = drawn(random, task, true);
        let Asked {
            upper,
            lower,
            ceiling,
        } = draw::asked(random, &table, task);
        if !lister::list(&expanded(&table), task, &upper, &lower, 20_000).whole {
            continue;
        }
        let words = [&upper[..], &lower[..]];
        let of_classes = readings_under(engine, &table, task, ceiling, words);
        let of_letters = readings_under(engine, &expanded(&table), task, ceiling, words);
        assert_eq!(of_classes, of_letters, "{words:?} over {table:?}");
        if table.arcs.iter().any(|arc| !arc.is_plain()) {
            with_classes += 1;
            found[task as usize - 1] += of_classes.len();
        }
    }
    assert!(with_classes > 1_000, "only {with_classes} tables");
    assert!(found.iter().all(|count| *count > 300), "only {found:?}");
}

#[test]
fn the_library_reads_classes_as_plain_arcs() {
    as_plain_arcs(&Library);
}

#[test]
fn the_model_reads_classes_as_plain_arcs() {
    as_plain_arcs(&Model);
}

#[test]
fn the_twin_reads_classes_as_plain_arcs() {
    as_plain_arcs(&SOUND);
}

/// The lister tells the same of both, but for steps.
#[test]
fn the_lister_reads_classes_as_plain_arcs() {
    for case in 0..3_000 {
        let random = &mut Random::of_case(0x1157, case);
        let task = random.within(1, 3) as u32;
        let table = drawn(random, task, true);
        let (upper, lower) = draw::words(random, &table, task);
        let listed = |table: &Table| lister::list(table, task, &upper, &lower, 20_000);
        let (of_classes, of_letters) = (listed(&table), listed(&expanded(&table)));
        if of_letters.whole {
            let letters = |listing: lister::Listing| -> Vec<Vec<u8>> {
                listing.readings.into_iter().map(|r| r.letters).collect()
            };
            assert_eq!(letters(of_classes), letters(of_letters), "over {table:?}");
        }
    }
}

/// Random tables and their texts and cells, on the model alone: each is read back.
#[test]
fn the_model_reads_back_what_it_writes() {
    let mut with_classes = 0;
    for case in 0..2_000 {
        let random = &mut Random::of_case(0x7AB1E, case);
        let table = draw::table(random, 2, false);
        with_classes += usize::from(table.cells()[4..132] != [0; 128]);
        assert_eq!(text::parse(&text::print(&table)).as_ref(), Ok(&table));
        assert_eq!(Table::loaded(&table.cells()), Some(table));
    }
    assert!(
        (700..1_300).contains(&with_classes),
        "{with_classes} of 2,000"
    );
}
