//! `rd_table_read` and `rd_table_write`.
use crate::inputs::{WIDE, largest, tables};
use crate::narrow::Boundary;
use crate::narrow::Cut::{Low, Most, Refused};
use crate::narrow::Part::*;
use crate::{Checked, NARROW, is, tells};
use readings_check::answer::Answer;
use readings_check::compare::texts;
use readings_check::text::{self, K};

/// A good line of 65,536 digits after table K's text gives 2; wherever the text is cut in it, it gives 1.
fn text_read(boundary: &Boundary) -> Checked {
    let mut long = K.as_bytes().to_vec();
    long.resize(K.len() + 65_536, b'0');
    long.push(b'\n');
    is(texts::read(boundary, &long, 100)?, Answer::refused(2, 0))?;
    let whole = text::print(&largest());
    is(texts::read(boundary, &whole, 5_764)?, Answer::done(5_764))
}

#[test]
fn texts_read() {
    tells(text_read, ReadText, NARROW);
    tells(text_read, ReadText, &[Most(65_535), Most(65_536)]);
    tells(text_read, ReadText, &[Most(16_384), Refused(65_536)]);
}

fn table_read(boundary: &Boundary) -> Checked {
    let whole = text::print(&largest());
    is(texts::read(boundary, &whole, 5_764)?, Answer::done(5_764))?;
    is(texts::read(boundary, &whole, WIDE)?, Answer::done(5_764))
}

#[test]
fn tables_read() {
    tells(table_read, ReadTable, NARROW);
    tells(table_read, ReadTable, &[Most(4_096), Most(5_763)]);
    tells(table_read, ReadCells, &[Low(8), Low(10)]);
    tells(table_read, ReadLength, &[Low(8), Low(12)]);
}

fn table_written(boundary: &Boundary) -> Checked {
    let write = |cells: Vec<u16>| texts::write(boundary, &cells, 21_314);
    tables(write, Answer::done(21_314))
}

#[test]
fn tables_written() {
    tells(table_written, WriteTable, NARROW);
    tells(table_written, WriteTable, &[Most(4_096), Most(5_763)]);
    tells(table_written, WriteCells, &[Low(8), Low(13), Low(15)]);
}

fn text_written(boundary: &Boundary) -> Checked {
    let write = |length: usize| texts::write(boundary, &largest().cells(), length);
    is(write(21_314)?, Answer::done(21_314))?;
    is(write(WIDE)?, Answer::done(21_314))
}

#[test]
fn texts_written() {
    tells(text_written, WriteText, NARROW);
    tells(text_written, WriteText, &[Most(16_384), Most(21_313)]);
    tells(text_written, WriteLength, &[Low(8), Low(13), Low(14)]);
}
