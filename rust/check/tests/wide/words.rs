//! `rd_words_read`.
use crate::inputs::WIDE;
use crate::narrow::Boundary;
use crate::narrow::Cut::{Low, Most};
use crate::narrow::Part::*;
use crate::{Checked, NARROW, is, tells};
use readings::limits::TREE_CELLS;
use readings_check::answer::Answer;
use readings_check::compare::{listed, words};
use readings_check::words::packed;

/// The list of the most bytes passes; a word of 64 letters after it gives 32, and where that is cut 30. A word of one letter that is
/// repeated gives 31, unless the list is cut to one word.
fn list(boundary: &Boundary) -> Checked {
    let mut longest = listed::longest();
    let read = |lent: &[u8]| words::compare(boundary, lent, TREE_CELLS);
    is(read(&packed(&longest))?, Answer::done(TREE_CELLS))?;
    longest.push(vec![2; 64]);
    is(read(&packed(&longest))?, Answer::refused(32, 0))?;
    is(read(&[1, 1].repeat(WIDE / 2))?, Answer::refused(31, 0))
}

#[test]
fn lists_read() {
    tells(list, ListWords, NARROW);
    tells(list, ListWords, &[Most(14_555), Most(14_556)]);
    tells(list, ListWords, &[Low(12), Low(14), Most(14_620)]);
}

/// The largest table of a list.
fn table(boundary: &Boundary) -> Checked {
    let lent = packed(&listed::short(255));
    for cells in [TREE_CELLS, WIDE, 65_536 + TREE_CELLS] {
        let answer = words::compare(boundary, &lent, cells)?;
        is(answer, Answer::done(TREE_CELLS))?;
    }
    let answer = words::compare(boundary, &lent, TREE_CELLS - 1)?;
    is(answer, Answer::refused(24, 0))
}

#[test]
fn tables_of_lists() {
    tells(table, ListTable, NARROW);
    tells(table, ListTable, &[Low(11), Most(2_048), Most(2_937)]);
    tells(table, ListCells, &[Low(8)]);
    tells(table, ListLength, &[Low(8), Low(11), Most(2_937)]);
}
