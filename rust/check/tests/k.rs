//! Document 01's cases on table K, on the lister, the model, the twin and the proved library.
use readings::limits::FRAME_CELLS;
use readings_check::answer::{Answer, Run, Started};
use readings_check::engine::{Engine, Next, Start, Texts};
use readings_check::library::Library;
use readings_check::lister;
use readings_check::model::Model;
use readings_check::query::MOST_CEILING;
use readings_check::table::{Arc, Table};
use readings_check::text::{self, K};
use readings_check::twin::SOUND;

fn k() -> Table {
    text::parse(K.as_bytes()).expect("table K")
}

/// A search on a table, with its buffers.
struct Way<'a, E> {
    engine: &'a E,
    table: Vec<u16>,
    upper: Vec<u8>,
    lower: Vec<u8>,
    run: Run,
    stack: Vec<u32>,
}

fn begin<'a, E: Engine>(
    engine: &'a E,
    table: &Table,
    task: u32,
    upper: &[u8],
    lower: &[u8],
) -> Way<'a, E> {
    let (cells, mut run) = (table.cells(), Run::default());
    let table = &cells;
    let start = Start {
        table,
        task,
        ceiling: MOST_CEILING,
        upper,
        lower,
    };
    let started = engine.start(start, &mut run);
    assert_eq!(started, Started::bare(Answer::done(0)));
    Way {
        engine,
        table: cells,
        upper: upper.to_vec(),
        lower: lower.to_vec(),
        run,
        stack: vec![0; FRAME_CELLS * 64],
    }
}

impl<E: Engine> Way<'_, E> {
    /// A call on so many frames, and what it wrote.
    fn call(&mut self, frames: usize, allowance: u32, letters: usize) -> (Answer, Vec<u8>) {
        let mut output = vec![0; letters];
        let answer = self.engine.next(Next {
            table: &self.table,
            upper: &self.upper,
            lower: &self.lower,
            run: &mut self.run,
            stack: &mut self.stack[..FRAME_CELLS * frames],
            allowance,
            output: &mut output,
        });
        output.truncate(answer.length as usize);
        (answer, output)
    }

    fn found(&mut self, steps: u32, letters: &[u8]) {
        let expected = (Answer::found(steps, letters.len()), letters.to_vec());
        assert_eq!(self.call(64, 1_000, 64), expected);
    }

    fn ended(&mut self, steps: u32) {
        assert_eq!(self.call(64, 1_000, 64).0, Answer::ended(steps));
    }
}

fn searches(engine: &impl Engine) {
    let mut synthesis = begin(engine, &k(), 2, &[1, 2], &[]);
    synthesis.found(3, &[1, 2]);
    synthesis.found(8, &[1, 3, 2]);
    synthesis.ended(9);
    synthesis.ended(0);
    begin(engine, &k(), 2, &[], &[]).ended(4);
    let mut analysis = begin(engine, &k(), 3, &[], &[1, 3, 2]);
    analysis.found(6, &[1, 2]);
    analysis.ended(6);
    begin(engine, &k(), 1, &[1, 2], &[1, 3, 2]).found(6, &[]);
}

fn short_buffers(engine: &impl Engine) {
    let mut frames = begin(engine, &k(), 2, &[1, 2], &[]);
    let reading = (Answer::found(3, 2), vec![1, 2]);
    assert_eq!(frames.call(3, 1_000, 64), reading);
    assert_eq!(frames.call(3, 1_000, 64).0, Answer::refused(22, 0));
    let reading = (Answer::found(8, 3), vec![1, 3, 2]);
    assert_eq!(frames.call(9, 1_000, 64), reading);
    let mut letters = begin(engine, &k(), 2, &[1, 2], &[]);
    letters.found(3, &[1, 2]);
    assert_eq!(letters.call(64, 1_000, 2).0, Answer::refused(23, 7));
    assert_eq!(letters.call(64, 0, 2).0, Answer::paused(0));
    letters.found(1, &[1, 3, 2]);
    let mut none = begin(engine, &k(), 2, &[1, 2], &[]);
    assert_eq!(none.call(64, 0, 64).0, Answer::paused(0));
}

fn started(engine: &impl Engine, table: &Table, task: u32, word: &[u8]) -> Started {
    let (upper, lower) = if task == 3 {
        (&[][..], word)
    } else {
        (word, &[][..])
    };
    let start = Start {
        table: &table.cells(),
        task,
        ceiling: MOST_CEILING,
        upper,
        lower,
    };
    engine.start(start, &mut Run::default())
}

/// The number with which a start is refused, 0 where it passes.
fn start_number(engine: &impl Engine, table: &Table, task: u32, word: &[u8]) -> u32 {
    started(engine, table, task, word).answer.number
}

fn idle_cycles(engine: &impl Engine) {
    let alone = |arc: Arc| Table {
        states: 1,
        initials: vec![0],
        terminals: vec![],
        arcs: vec![arc],
        ..Table::default()
    };
    let in_k = |arc: Arc| {
        let mut table = k();
        table.arcs.insert(0, arc);
        table
    };
    let (blank, upper_only) = (Arc::new(0, 0, 0, 0), Arc::new(0, 1, 0, 0));
    let (refused, passed) = (Started::with_cycle(&[0]), Started::bare(Answer::done(0)));
    for task in 1..=3 {
        let expected = if task == 3 { refused } else { passed };
        for make in [&alone as &dyn Fn(Arc) -> Table, &in_k] {
            assert_eq!(started(engine, &make(blank), task, &[]), refused);
            assert_eq!(started(engine, &make(upper_only), task, &[]), expected);
        }
    }
}

fn words(engine: &impl Engine) {
    for task in 1..=3 {
        assert_eq!(start_number(engine, &k(), task, &[63; 64]), 0);
        assert_eq!(start_number(engine, &k(), task, &[1; 65]), 10);
        assert_eq!(start_number(engine, &k(), task, &[1, 64]), 10);
        assert_eq!(start_number(engine, &k(), task, &[0, 1]), 10);
    }
}

/// No number but 1, 2 and 3 is a task, also none that would be one if it were cut down to a byte or two.
fn tasks(engine: &impl Engine) {
    let cells = k().cells();
    for task in [0, 4, 255, 256, 257, 258, 259, 65_538, 1 << 31, u32::MAX] {
        let mut run = Run::of(9);
        let start = Start {
            table: &cells,
            task,
            ceiling: MOST_CEILING,
            upper: &[],
            lower: &[],
        };
        let started = engine.start(start, &mut run);
        assert_eq!(started, Started::bare(Answer::refused(11, 0)));
        assert_eq!(run, Run::of(9));
    }
}

fn all(engine: &impl Engine) {
    searches(engine);
    short_buffers(engine);
    idle_cycles(engine);
    words(engine);
    tasks(engine);
}

#[test]
fn the_library_has_the_cases() {
    all(&Library);
}

#[test]
fn the_model_has_the_cases() {
    all(&Model);
}

#[test]
fn the_twin_has_the_cases() {
    all(&SOUND);
}

#[test]
fn the_lister_has_the_cases() {
    let steps = |task, upper: &[u8], lower: &[u8]| {
        let list = lister::list(&k(), task, upper, lower, 1_000);
        let readings = list.readings.into_iter().map(|r| (r.step, r.letters));
        (list.size, readings.collect::<Vec<_>>())
    };
    let two = vec![(3, vec![1, 2]), (11, vec![1, 3, 2])];
    assert_eq!(steps(2, &[1, 2], &[]), (20, two));
    assert_eq!(steps(2, &[], &[]), (4, vec![]));
    assert_eq!(steps(3, &[], &[1, 3, 2]), (12, vec![(6, vec![1, 2])]));
    assert_eq!(steps(1, &[1, 2], &[1, 3, 2]).1, [(6, vec![])]);
}

/// A text with as many states as the header's first two digits say, and one arc with an upper letter.
fn text_of(states: u16, letter: u8) -> Vec<u8> {
    let text = format!("01{states:04X}000100000001\n020000\n040000{letter:02X}010000\n050003\n");
    text.into_bytes()
}

#[test]
fn limits_of_texts() {
    for texts in [&Library as &dyn Texts, &Model] {
        let mut table = [0; 200];
        let read = Answer::done(138);
        assert_eq!(texts.read(&text_of(256, 63), &mut table), read);
        assert_eq!(
            texts.read(&text_of(257, 63), &mut table),
            Answer::refused(3, 0)
        );
        assert_eq!(
            texts.read(&text_of(256, 72), &mut table),
            Answer::refused(5, 0)
        );
        let mut text = [0; 256];
        assert_eq!(texts.write(&k().cells(), &mut text), Answer::done(K.len()));
        assert_eq!(&text[..K.len()], K.as_bytes());
    }
}
