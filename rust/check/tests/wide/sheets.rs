//! `rd_sheet_write`.
use crate::narrow::Boundary;
use crate::narrow::Cut::{Low, Most};
use crate::narrow::Part::*;
use crate::{Checked, NARROW, is, tells};
use readings::limits::{MOST_READING, MOST_READINGS, SHEET_BYTES};
use readings_check::answer::Answer;
use readings_check::compare::page::Page;
use readings_check::compare::sheets;
use readings_check::engine::Sheets;

/// One reading of 65,535 letters, 65,537 bytes, has a sheet of 72,635.
fn long(boundary: &Boundary) -> Checked {
    let page = Page::of_lengths([MOST_READING]);
    for bytes in [72_635, 131_072 + 2] {
        let answer = sheets::compare(boundary, &page, bytes)?;
        is(answer, Answer::done(72_635))?;
    }
    let answer = sheets::compare(boundary, &page, 72_634)?;
    is(answer, Answer::refused(24, 0))
}

#[test]
fn long_sheets() {
    tells(long, SheetReadings, NARROW);
    tells(long, SheetReadings, &[Most(65_535), Most(65_536)]);
    tells(long, SheetText, NARROW);
    tells(long, SheetText, &[Low(17), Most(72_634)]);
    tells(long, SheetLength, NARROW);
}

/// The largest list has 65,537,000 bytes and a sheet of 72,489,146. An empty reading more is refused.
fn largest(boundary: &Boundary) -> Checked {
    let page = Page::of_lengths([MOST_READING; MOST_READINGS]);
    let (mut list, mut text) = (page.lent(), vec![0; SHEET_BYTES]);
    let answer = boundary.sheet(page.sheet(&list), &mut text);
    is(answer, Answer::done(SHEET_BYTES))?;
    list.extend([0, 0]);
    let answer = boundary.sheet(page.sheet(&list), &mut text);
    is(answer, Answer::refused(33, 0))
}

#[test]
fn largest_sheets() {
    let cuts = [Low(24), Low(25), Most(65_536_999), Most(65_537_000)];
    tells(largest, SheetReadings, &cuts);
    tells(largest, SheetText, &[Low(24), Low(26), Most(72_489_145)]);
    tells(largest, SheetLength, &[Low(24), Low(26), Most(72_489_145)]);
}

/// Any bit of the number says that a run has ended.
fn ended(boundary: &Boundary) -> Checked {
    let page = Page::of_lengths([3]);
    for ended in (0..32).map(|bit| 1 << bit).chain([0]) {
        let page = Page {
            ended,
            ..page.clone()
        };
        let answer = sheets::compare(boundary, &page, 219)?;
        is(answer, Answer::done(219))?;
    }
    Ok(())
}

#[test]
fn sheets_ended() {
    tells(ended, SheetEnded, NARROW);
    tells(ended, SheetEnded, &[Low(1), Low(24), Low(31)]);
}
