//! What every call answers, in the numbers of the C interface, and the record of a run.
use readings::lending::{Reply, StartReply};

pub use readings::lending::Run;
pub use readings::limits::CYCLE_STATES as CYCLE;

/// The kinds of an answer.
pub const DONE: u32 = 0;
pub const FOUND: u32 = 1;
pub const PAUSED: u32 = 2;
pub const ENDED: u32 = 3;
pub const REFUSED: u32 = 4;

/// A field without meaning for its kind is 0.
#[derive(Clone, Copy, Debug, Default, PartialEq, Eq)]
pub struct Answer {
    pub kind: u32,
    /// The refusal's number.
    pub number: u32,
    /// The steps made in this call.
    pub steps: u32,
    /// Cells of a table, bytes of a text or a sheet, states of a cycle or letters of a reading.
    pub length: u32,
}

/// What a start answers. With refusal 12 the states of the cycle shown, as many as the answer's length tells, then zeros; else all zeros.
#[derive(Clone, Copy, Debug, PartialEq, Eq)]
pub struct Started {
    pub answer: Answer,
    pub cycle: [u16; CYCLE],
}

impl From<Reply> for Answer {
    fn from(reply: Reply) -> Answer {
        let Reply {
            kind,
            number,
            steps,
            length,
        } = reply;
        Answer {
            kind,
            number,
            steps,
            length,
        }
    }
}

impl From<StartReply> for Started {
    fn from(reply: StartReply) -> Started {
        Started {
            answer: reply.answer.into(),
            cycle: reply.cycle,
        }
    }
}

impl Started {
    /// An answer without a cycle.
    pub fn bare(answer: Answer) -> Started {
        Started {
            answer,
            cycle: [0; CYCLE],
        }
    }

    /// Refusal 12 with the states of a cycle.
    pub fn with_cycle(states: &[u16]) -> Started {
        let mut cycle = [0; CYCLE];
        cycle[..states.len()].copy_from_slice(states);
        let answer = Answer {
            length: states.len() as u32,
            ..Answer::refused(12, 0)
        };
        Started { answer, cycle }
    }

    /// Refusal 12 where a cycle is to be shown, else a start that passes.
    pub fn showing(cycle: Option<&[u16]>) -> Started {
        let passed = Started::bare(Answer::done(0));
        cycle.map_or(passed, Started::with_cycle)
    }
}

impl Answer {
    pub fn done(length: usize) -> Answer {
        Answer {
            kind: DONE,
            length: length as u32,
            ..Answer::default()
        }
    }

    pub fn found(steps: u32, length: usize) -> Answer {
        Answer {
            kind: FOUND,
            steps,
            length: length as u32,
            ..Answer::default()
        }
    }

    pub fn paused(steps: u32) -> Answer {
        Answer {
            kind: PAUSED,
            steps,
            ..Answer::default()
        }
    }

    pub fn ended(steps: u32) -> Answer {
        Answer {
            kind: ENDED,
            steps,
            ..Answer::default()
        }
    }

    pub fn refused(number: u32, steps: u32) -> Answer {
        Answer {
            kind: REFUSED,
            number,
            steps,
            ..Answer::default()
        }
    }

    pub fn is_refused(&self) -> bool {
        self.kind == REFUSED
    }
}
