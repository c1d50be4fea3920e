//! What a search is to do, and what a call for a reading answers.
use crate::Refusal;

/// What a search is to do. The word on a side that the task does not read is empty.
#[derive(Clone, Copy, Debug, PartialEq, Eq, Hash)]
pub enum Task {
    /// Reads the upper and the lower word; a reading is empty, and one is found for each path.
    Recognition = 1,
    /// Reads the upper word; a reading is a lower word.
    Synthesis = 2,
    /// Reads the lower word; a reading is an upper word.
    Analysis = 3,
}

/// What a call for a reading answers, with the steps made in it.
#[derive(Clone, Copy, Debug, PartialEq, Eq)]
pub enum Answer {
    /// A reading stands at the front of the output.
    Found {
        /// Steps made in this call.
        steps: u32,
        /// Letters of the reading.
        length: usize,
    },
    /// The allowance is used; the next call goes on.
    Paused {
        /// Steps made in this call: the allowance.
        steps: u32,
    },
    /// There are no more readings.
    Ended {
        /// Steps made in this call.
        steps: u32,
    },
    /// The call, or its next step, was refused and changed nothing.
    Refused {
        /// Steps made in this call before the refused one; they stand.
        steps: u32,
        /// Why it was refused.
        refusal: Refusal,
    },
}
