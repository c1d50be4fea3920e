//! A search in pieces: calls of few steps, each on new memory, that are refused in between.
use crate::answer::{Answer, ENDED, FOUND, Run};
use crate::engine::{Engine, Next};
use readings::limits::FRAME_CELLS;

/// A search that is handed back after each call: the run, and the used frames on their own.
pub struct Way<'a, E> {
    engine: &'a E,
    cells: Vec<u16>,
    words: [&'a [u8]; 2],
    pub run: Run,
    pub frames: Vec<u32>,
    pub readings: Vec<Vec<u8>>,
    /// How often each of 21, 22 and 23 was told.
    pub refused: [usize; 3],
}

impl<'a, E: Engine> Way<'a, E> {
    pub fn new(engine: &'a E, cells: Vec<u16>, words: [&'a [u8]; 2], run: Run) -> Way<'a, E> {
        Way {
            engine,
            cells,
            words,
            run,
            frames: Vec::new(),
            readings: Vec::new(),
            refused: [0; 3],
        }
    }

    /// A call on new memory, with so many frames and letters. Less than the used frames are refused, and leave the run.
    pub fn call(&mut self, frames: usize, allowance: u32, letters: usize) -> Answer {
        let used = self.frames.len().min(FRAME_CELLS * frames);
        let mut stack = vec![7; FRAME_CELLS * frames];
        stack[..used].copy_from_slice(&self.frames[..used]);
        let (mut run, mut output) = (self.run, vec![7; letters]);
        let answer = self.engine.next(Next {
            table: &self.cells,
            upper: self.words[0],
            lower: self.words[1],
            run: &mut run,
            stack: &mut stack,
            allowance,
            output: &mut output,
        });
        if (21..=23).contains(&answer.number) {
            self.refused[answer.number as usize - 21] += 1;
        }
        if answer.is_refused() && answer.steps == 0 {
            assert_eq!(run, self.run);
            return answer;
        }
        self.run = run;
        self.frames = stack[..FRAME_CELLS * run.depth as usize].to_vec();
        if answer.kind == FOUND {
            self.readings
                .push(output[..answer.length as usize].to_vec());
        }
        answer
    }

    /// Calls of few steps until the end, each after one on a stack without its last frame and one on a stack without a free frame. They
    /// have no output, and a reading with letters is told by one call more.
    pub fn finish(&mut self, allowance: u32) {
        loop {
            let depth = self.run.depth as usize;
            if depth > 0 {
                assert_eq!(self.call(depth - 1, allowance, 64), Answer::refused(21, 0));
            }
            self.call(depth, 1, 64);
            let answer = self.call(64, allowance, 0);
            match answer.number {
                0 if answer.kind == ENDED => return,
                0 => {}
                23 => assert_eq!(self.call(64, 1, 64).kind, FOUND),
                _ => panic!("{answer:?} with enough frames"),
            }
        }
    }
}
