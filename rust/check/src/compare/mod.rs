//! The comparison of an engine with the model and the lister, case by case. It takes any engine: the proved library, the twin, and
//! twins with a fault. Likewise for texts, for word lists and for sheets.
pub mod call;
mod classes;
pub mod cuts;
pub mod damage;
mod filled;
pub mod fixed;
mod flaws;
pub mod inverse;
pub mod listed;
pub mod loops;
pub mod page;
mod penalties;
pub mod pieces;
pub mod rival;
pub mod search;
pub mod sheets;
pub mod start;
pub mod tally;
pub mod texts;
pub mod words;

use crate::answer::{Answer, Run};
use crate::random::Random;
use tally::Tally;

/// What stands before and after a run that is lent.
const RUN_GUARD: Run = Run {
    task: 77,
    started: 78,
    depth: 79,
    ceiling: 80,
};

/// A series of cases from one seed. The first difference is told with its seed and case, which repeat it.
pub fn series(
    name: &str,
    seed: u64,
    cases: u64,
    compare: impl Fn(&mut Random, &mut Tally) -> Result<(), String>,
) -> Result<Tally, String> {
    let mut tally = Tally::default();
    for case in 0..cases {
        compare(&mut Random::of_case(seed, case), &mut tally)
            .map_err(|difference| format!("{name}, seed {seed:#x}, case {case}: {difference}"))?;
    }
    Ok(tally)
}

/// Equal, or what differs.
fn same<T: PartialEq + std::fmt::Debug>(name: &str, got: T, expected: T) -> Result<(), String> {
    if got == expected {
        Ok(())
    } else {
        Err(format!("{name} is {got:?}, expected {expected:?}"))
    }
}

/// A call gets this answer on destinations of each of these lengths.
fn gets<const N: usize>(
    lengths: [usize; N],
    expected: Answer,
    call: impl Fn(usize) -> Result<Answer, String>,
) -> Result<(), String> {
    for length in lengths {
        same("answer", call(length)?, expected)?;
    }
    Ok(())
}

/// A length about the one that is needed.
fn about(random: &mut Random, need: usize) -> usize {
    match random.below(6) {
        0 => need.saturating_sub(1),
        1 => need,
        2 => random.below(need + 1),
        _ => need + random.below(9),
    }
}
