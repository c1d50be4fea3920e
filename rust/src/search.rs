//! Searches that own their memory.
use crate::lending::{self, Run};
use crate::limits;
use crate::{Answer, StartRefused, Table, Task};
use std::fmt;
use std::iter::FusedIterator;

/// A search over a table, with a stack and an output that are long enough for it: none of its calls is refused.
///
/// As an iterator it gives the readings one after the other. The next one may take very many steps; [`Search::advance`] makes no more
/// than it is allowed. A clone is a place to come back to.
#[derive(Clone)]
pub struct Search<'a> {
    table: &'a Table,
    upper: Vec<u8>,
    lower: Vec<u8>,
    run: Run,
    stack: Vec<u32>,
    output: Vec<u8>,
    length: usize,
}

impl<'a> Search<'a> {
    /// Begins a search under the highest ceiling, [`MOST_CEILING`](limits::MOST_CEILING).
    pub fn start(
        table: &'a Table,
        task: Task,
        upper: &[u8],
        lower: &[u8],
    ) -> Result<Search<'a>, StartRefused> {
        Search::start_under(table, task, limits::MOST_CEILING, upper, lower)
    }

    /// Begins a search under a ceiling: an arc that would lift the sum of the penalties on its path over it does not fit. So the readings
    /// are those of the paths whose penalties add up to the ceiling at most, in the order that they have under every higher ceiling.
    ///
    /// ```
    /// use readings::{Refusal, Search, Table, Task, limits::MOST_CEILING};
    ///
    /// // One state, initial and terminal; reading 01 writes 03 with penalty 5, 02 without one, or 04 with penalty 255.
    /// let text = "010001000100010003\n020000\n030000\n0700000103000005\n04000001020000\n07000001040000FF\n050006\n";
    /// let table = Table::read(text)?;
    /// let under = |ceiling| Search::start_under(&table, Task::Synthesis, ceiling, &[1], &[]);
    /// assert_eq!(under(MOST_CEILING)?.collect::<Vec<_>>(), [[3], [2], [4]]);
    /// assert_eq!(under(254)?.collect::<Vec<_>>(), [[3], [2]]);
    /// assert_eq!(under(5)?.collect::<Vec<_>>(), [[3], [2]]);
    /// assert_eq!(under(4)?.collect::<Vec<_>>(), [[2]]);
    /// assert_eq!(under(MOST_CEILING + 1).unwrap_err().refusal, Refusal::CeilingLimit);
    /// # Ok::<(), Box<dyn std::error::Error>>(())
    /// ```
    pub fn start_under(
        table: &'a Table,
        task: Task,
        ceiling: u32,
        upper: &[u8],
        lower: &[u8],
    ) -> Result<Search<'a>, StartRefused> {
        let mut run = Run::default();
        lending::start(table.cells(), task as u32, ceiling, upper, lower, &mut run).done()?;
        let (letters, states) = (upper.len() + lower.len(), table.states());
        let written = match task {
            Task::Recognition => 0,
            Task::Synthesis | Task::Analysis => limits::output_letters(letters, states),
        };
        Ok(Search {
            table,
            upper: upper.to_vec(),
            lower: lower.to_vec(),
            run,
            stack: vec![0; limits::stack_cells(letters, states)],
            output: vec![0; written],
            length: 0,
        })
    }

    /// Goes on to the next reading, for at most so many steps.
    pub fn advance(&mut self, allowance: u32) -> Answer {
        let answer = lending::next(
            self.table.cells(),
            &self.upper,
            &self.lower,
            &mut self.run,
            &mut self.stack,
            allowance,
            &mut self.output,
        )
        .answer();
        if let Answer::Found { length, .. } = answer {
            self.length = length;
        }
        answer
    }

    /// The letters of the reading that was found last.
    pub fn reading(&self) -> &[u8] {
        &self.output[..self.length]
    }
}

impl Iterator for Search<'_> {
    type Item = Vec<u8>;

    fn next(&mut self) -> Option<Vec<u8>> {
        loop {
            match self.advance(u32::MAX) {
                Answer::Found { .. } => return Some(self.reading().to_vec()),
                Answer::Paused { .. } => {}
                Answer::Ended { .. } => return None,
                Answer::Refused { refusal, .. } => unreachable!("{refusal}"),
            }
        }
    }
}

impl FusedIterator for Search<'_> {}

impl fmt::Debug for Search<'_> {
    fn fmt(&self, f: &mut fmt::Formatter) -> fmt::Result {
        f.debug_struct("Search")
            .field("upper", &self.upper)
            .field("lower", &self.lower)
            .field("run", &self.run)
            .field("reading", &self.reading())
            .finish_non_exhaustive()
    }
}
