//! A call that fills a destination from what it is lent: the answer, and every cell of both.
use super::same;
use crate::answer::Answer;
use crate::lent::Lent;
use std::fmt::Debug;

/// A cell of what is lent.
pub trait Cell: Copy + PartialEq + Debug {
    /// What a destination holds before: no call puts it there.
    const STALE: Self;
    /// What stands around what is lent.
    const GUARD: Self;
}

impl Cell for u8 {
    const STALE: u8 = 0x5A;
    /// In a text no character that stands there; in a word list a letter, so that a call that reads beyond its end goes wrong.
    const GUARD: u8 = 42;
}

impl Cell for u16 {
    const STALE: u16 = 0x5A5A;
    const GUARD: u16 = 0xABCD;
}

/// Calls the model and what is compared on a destination of so many cells.
pub fn compare<S: Cell, D: Cell>(
    source: &[S],
    cells: usize,
    model: impl Fn(&[S], &mut [D]) -> Answer,
    call: impl Fn(&[S], &mut [D]) -> Answer,
) -> Result<Answer, String> {
    let stale = vec![D::STALE; cells];
    let mut expected_cells = stale.clone();
    let expected = model(source, &mut expected_cells);
    let mut lent = Lent::new(source, S::GUARD);
    let mut destination = Lent::new(&stale, D::GUARD);
    let answer = call(lent.lend(), destination.lend());
    same("answer", answer, expected)?;
    destination.expect("destination", &expected_cells)?;
    lent.expect("source", source)?;
    Ok(expected)
}
