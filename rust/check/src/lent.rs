//! A buffer that is lent to a call, with guard cells before and after it.
use std::fmt::Debug;

const GUARDS: usize = 8;

#[derive(Clone, Debug)]
pub struct Lent<T> {
    cells: Vec<T>,
    guard: T,
}

impl<T: Copy + PartialEq + Debug> Lent<T> {
    pub fn new(content: &[T], guard: T) -> Lent<T> {
        let mut cells = vec![guard; GUARDS];
        cells.extend(content);
        cells.extend([guard; GUARDS]);
        Lent { cells, guard }
    }

    pub fn lend(&mut self) -> &mut [T] {
        let end = self.cells.len() - GUARDS;
        &mut self.cells[GUARDS..end]
    }

    pub fn content(&self) -> &[T] {
        &self.cells[GUARDS..self.cells.len() - GUARDS]
    }

    /// The content is as expected, and no guard was touched.
    pub fn expect(&self, name: &str, expected: &[T]) -> Result<(), String> {
        let (before, rest) = self.cells.split_at(GUARDS);
        let after = &rest[rest.len() - GUARDS..];
        if before.iter().chain(after).any(|cell| *cell != self.guard) {
            return Err(format!("{name}: a cell outside was written"));
        }
        match (0..expected.len()).find(|i| self.content()[*i] != expected[*i]) {
            None => Ok(()),
            Some(i) => Err(format!(
                "{name}: cell {i} is {:?}, expected {:?}",
                self.content()[i],
                expected[i]
            )),
        }
    }
}
