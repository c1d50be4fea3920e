//! Every reading of a word over a finite transducer, one at a time: one for each accepting path and none left out, in the order of a
//! depth-first walk that takes initial states and arcs as they are listed.
//!
//! The engine is proved to meet its contracts and is called through its C interface, the archive that `scripts/library.sh` makes.
//!
//! ```
//! use readings::{Answer, Refusal, Table};
//!
//! // One state, initial and terminal; reading 01 writes 02 or 03 and stays there.
//! let text = "010001000100010002\n020000\n030000\n04000001020000\n04000001030000\n050005\n";
//! let table = Table::read(text)?;
//! let readings: Vec<Vec<u8>> = table.synthesis(&[1])?.collect();
//! assert_eq!(readings, [[2], [3]]);
//!
//! // A search can be left after any number of steps, and goes on where it was left.
//! let mut search = table.synthesis(&[1])?;
//! assert_eq!(search.advance(1), Answer::Paused { steps: 1 });
//! assert_eq!(search.advance(100), Answer::Found { steps: 1, length: 1 });
//! assert_eq!(search.reading(), [2]);
//!
//! // Analysis reads the lower word. 64 is no letter of a word.
//! assert_eq!(table.analysis(&[64]).unwrap_err().refusal, Refusal::WordFault);
//! # Ok::<(), Box<dyn std::error::Error>>(())
//! ```
//!
//! Arcs may have penalties, and [`Search::start_under`] leaves out the readings whose penalties add up to more than a ceiling.
//! [`Table::from_words`] makes the table that cuts words into listed words; [`sheet`] lays readings out for a person to read.
//!
//! [`Table`] and [`Search`] own their memory; the calls of [`lending`] work on memory that the caller lends, and allocate nothing.
//! No call keeps anything, so searches may run on several threads and share a table.

mod answer;
pub mod lending;
pub mod limits;
mod refusal;
mod search;
mod sheet;
mod table;

pub use answer::{Answer, Task};
pub use refusal::{Refusal, StartRefused};
pub use search::Search;
pub use sheet::{Faces, sheet};
pub use table::Table;
