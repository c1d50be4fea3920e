//! A word run as a session runs it, both engines in turn.
use super::lists::List;
use readings::limits::{FRAME_CELLS, MOST_CEILING};
use readings_check::answer::{Answer, ENDED, FOUND, Run};
use readings_check::engine::{Engine, Next, Start};
use std::hint::black_box;
use std::time::{Duration, Instant};

const FRAMES: usize = 4_096;
const LETTERS: usize = 4_096;
const ALLOWANCE: u32 = 1_000;
const MOST_READINGS: u32 = 1_000;
const SYNTHESIS: u32 = 2;

/// Calls and starts in one timing, at least: fewer are too short to time.
const CALLS: u64 = 20_000;
const STARTS: u32 = 1_000;

/// What a run is lent.
struct Buffers {
    stack: Vec<u32>,
    output: Vec<u8>,
}

/// What the runs over a list come to.
#[derive(Clone, Copy, Debug, Default, PartialEq, Eq)]
pub struct Work {
    pub calls: u64,
    pub steps: u64,
    pub readings: u64,
    /// Words whose runs came to their end.
    pub ended: u64,
}

/// One repetition: the library's time and the twin's.
#[derive(Clone, Copy, Debug)]
pub struct Pair {
    pub ours: Duration,
    pub rust: Duration,
}

pub struct Times {
    pub runs: Vec<Pair>,
    pub starts: Vec<Pair>,
}

impl Buffers {
    fn new() -> Buffers {
        Buffers {
            stack: vec![0; FRAME_CELLS * FRAMES],
            output: vec![0; LETTERS],
        }
    }

    fn clear(&mut self) {
        self.stack.fill(0);
        self.output.fill(0);
    }
}

fn start(engine: &impl Engine, table: &[u16], word: &[u8]) -> (Answer, Run) {
    let mut run = Run::default();
    let start = Start {
        table,
        task: SYNTHESIS,
        ceiling: MOST_CEILING,
        upper: word,
        lower: &[],
    };
    let started = engine.start(start, &mut run);
    (started.answer, run)
}

/// A run of a word until its end or 1,000 readings; every answer goes to `see`.
fn run_word(
    engine: &impl Engine,
    table: &[u16],
    word: &[u8],
    buffers: &mut Buffers,
    mut see: impl FnMut(Answer, &Buffers),
) {
    let (_, mut run) = start(engine, table, word);
    let mut readings = 0;
    loop {
        let answer = engine.next(Next {
            table,
            upper: word,
            lower: &[],
            run: &mut run,
            stack: &mut buffers.stack,
            allowance: ALLOWANCE,
            output: &mut buffers.output,
        });
        see(answer, buffers);
        readings += u32::from(answer.kind == FOUND);
        if answer.kind == ENDED || answer.is_refused() || readings == MOST_READINGS {
            return;
        }
    }
}

/// All answers of a word's run, each with the letters told, and the stack at the end.
fn transcript(
    engine: &impl Engine,
    table: &[u16],
    word: &[u8],
) -> (Vec<(Answer, Vec<u8>)>, Vec<u32>) {
    let mut buffers = Buffers::new();
    let mut answers = Vec::new();
    run_word(engine, table, word, &mut buffers, |answer, lent| {
        answers.push((answer, lent.output[..answer.length as usize].to_vec()));
    });
    (answers, buffers.stack)
}

/// Runs every word with both, compares every answer, and tells the work that both do.
pub fn warm_up(ours: &impl Engine, rust: &impl Engine, list: &List) -> Work {
    let mut work = Work::default();
    for word in &list.words {
        assert_eq!(
            start(ours, &list.table, word),
            start(rust, &list.table, word)
        );
        let (answers, stack) = transcript(ours, &list.table, word);
        let (others, other_stack) = transcript(rust, &list.table, word);
        assert!(answers == others && stack == other_stack, "on {word:?}");
        for (answer, _) in &answers {
            assert!(!answer.is_refused(), "{answer:?} on {word:?}");
            work.calls += 1;
            work.steps += u64::from(answer.steps);
            work.readings += u64::from(answer.kind == FOUND);
            work.ended += u64::from(answer.kind == ENDED);
        }
    }
    work
}

/// The time of all runs of a list, which is gone through so often; buffers are cleared before each run, apart from the time.
fn time_runs(engine: &impl Engine, list: &List, rounds: u32, buffers: &mut Buffers) -> Duration {
    let mut time = Duration::ZERO;
    for word in (0..rounds).flat_map(|_| &list.words) {
        buffers.clear();
        let begin = Instant::now();
        run_word(
            engine,
            black_box(&list.table),
            word,
            buffers,
            |answer, _| {
                black_box(answer);
            },
        );
        time += begin.elapsed();
    }
    time / rounds
}

/// The time of one start.
fn time_starts(engine: &impl Engine, list: &List) -> Duration {
    let begin = Instant::now();
    for _ in 0..STARTS {
        black_box(start(engine, black_box(&list.table), &list.words[0]));
    }
    begin.elapsed() / STARTS
}

/// A pair of timings, the one that comes first taking turns.
pub fn in_turn(
    turn: usize,
    mut ours: impl FnMut() -> Duration,
    mut rust: impl FnMut() -> Duration,
) -> Pair {
    if turn.is_multiple_of(2) {
        let ours = ours();
        Pair { ours, rust: rust() }
    } else {
        let rust = rust();
        Pair { ours: ours(), rust }
    }
}

/// Interleaved timings of runs and of starts.
pub fn measure(
    ours: &impl Engine,
    rust: &impl Engine,
    list: &List,
    work: &Work,
    repetitions: usize,
) -> Times {
    let rounds = CALLS.div_ceil(work.calls) as u32;
    let (mut buffers, mut others) = (Buffers::new(), Buffers::new());
    let mut times = Times {
        runs: Vec::new(),
        starts: Vec::new(),
    };
    for turn in 0..repetitions {
        times.runs.push(in_turn(
            turn,
            || time_runs(ours, list, rounds, &mut buffers),
            || time_runs(rust, list, rounds, &mut others),
        ));
        times.starts.push(in_turn(
            turn,
            || time_starts(ours, list),
            || time_starts(rust, list),
        ));
    }
    times
}
