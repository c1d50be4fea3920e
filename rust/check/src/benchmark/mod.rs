//! The benchmark's parts: what is run, how it is timed, and what is printed.
pub mod figures;
pub mod lists;
pub mod runs;
pub mod sheets;
pub mod words;
