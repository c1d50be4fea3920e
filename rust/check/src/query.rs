//! Tasks, words and ceilings: which sides a task reads, the task with them exchanged, and refusals 11, 10 and 39.

pub const RECOGNITION: u32 = 1;
pub const SYNTHESIS: u32 = 2;
pub const ANALYSIS: u32 = 3;

/// The highest ceiling of a run.
pub const MOST_CEILING: u32 = 100_000;

/// Whether the upper and the lower side are read.
pub fn sides(task: u32) -> Option<(bool, bool)> {
    match task {
        RECOGNITION => Some((true, true)),
        SYNTHESIS => Some((true, false)),
        ANALYSIS => Some((false, true)),
        _ => None,
    }
}

/// The task with the sides exchanged; a number of no task stays.
pub fn inverse(task: u32) -> u32 {
    match task {
        SYNTHESIS => ANALYSIS,
        ANALYSIS => SYNTHESIS,
        other => other,
    }
}

fn word_is_bad(word: &[u8]) -> bool {
    word.len() > 64 || word.iter().any(|letter| *letter == 0 || *letter > 63)
}

/// 11, 10, then 39.
pub fn fault(task: u32, ceiling: u32, upper: &[u8], lower: &[u8]) -> Option<u32> {
    let Some((reads_upper, reads_lower)) = sides(task) else {
        return Some(11);
    };
    if (!reads_upper && !upper.is_empty()) || (!reads_lower && !lower.is_empty()) {
        return Some(11);
    }
    if word_is_bad(upper) || word_is_bad(lower) {
        return Some(10);
    }
    (ceiling > MOST_CEILING).then_some(39)
}
