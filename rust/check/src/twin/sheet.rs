//! The answer sheet: one look at all that is lent, then line by line.
use super::fault;
use crate::answer::Answer;
use crate::engine::Sheet;
use readings::limits::{FACES, MOST_READINGS, ROW_LETTERS, SHEET_LINE};
use std::slice::ChunksExactMut;

/// Bytes of a line, with its line feed.
const fn line_bytes(fault: u8) -> usize {
    SHEET_LINE + (fault == fault::LONG_LINES) as usize
}

/// Letters that stand on a line.
const fn row_letters(fault: u8) -> usize {
    ROW_LETTERS + (fault == fault::LONG_ROWS) as usize
}

/// Where a line's letters begin.
const fn letters_at(fault: u8) -> usize {
    6 - (fault == fault::LONG_ROWS) as usize
}

fn faces_hold<const FAULT: u8>(faces: &[u8; FACES]) -> bool {
    let least = if FAULT == fault::BLANK_FACE { 32 } else { 33 };
    let (mut seen, mut within) = (0u128, true);
    for face in faces {
        within &= (least..=126).contains(face);
        seen |= 1 << (face & 127);
    }
    within && (FAULT == fault::FACES_REPEAT || seen.count_ones() as usize == FACES)
}

/// The letters of the first reading, and what follows it; none where it is cut short.
#[inline(always)]
fn first<const FAULT: u8>(bytes: &[u8]) -> Option<(&[u8], &[u8])> {
    let (length, rest) = bytes.split_first_chunk()?;
    let mut length = match FAULT {
        fault::LOW_FIRST => u16::from_le_bytes(*length).into(),
        _ => usize::from(u16::from_be_bytes(*length)),
    };
    if FAULT == fault::CUT_SHOWN {
        length = length.min(rest.len());
    }
    rest.split_at_checked(length)
}

fn letters_hold<const FAULT: u8>(letters: &[u8]) -> bool {
    let looked = match (FAULT, letters) {
        (fault::LAST_LETTER, [looked @ .., _]) => looked,
        _ => letters,
    };
    looked.iter().fold(true, |ok, x| ok & (1..=63).contains(x))
}

/// Bytes of the sheet of some readings; none where they break a rule.
fn size<const FAULT: u8>(mut bytes: &[u8]) -> Option<usize> {
    let (mut lines, mut left) = (2, MOST_READINGS + usize::from(FAULT == fault::ONE_MORE));
    while !bytes.is_empty() {
        let (letters, rest) = first::<FAULT>(bytes)?;
        if left == 0 || !letters_hold::<FAULT>(letters) {
            return None;
        }
        let row = row_letters(FAULT);
        lines += match FAULT {
            fault::EMPTY_ROW => letters.len() / row + 1,
            _ => letters.len().div_ceil(row).max(1),
        };
        left -= 1;
        bytes = rest;
    }
    Some(lines * line_bytes(FAULT))
}

/// The ordinal after this one, right-aligned.
fn count_up(ordinal: &mut [u8; 5]) {
    for place in ordinal.iter_mut().rev() {
        match *place {
            b'9' => *place = b'0',
            b' ' => {
                *place = b'1';
                return;
            }
            _ => {
                *place += 1;
                return;
            }
        }
    }
}

/// The lines that are still to be written, and the faces of letters.
struct Lines<'a, const FAULT: u8> {
    left: ChunksExactMut<'a, u8>,
    faces: [u8; 64],
}

impl<const FAULT: u8> Lines<'_, FAULT> {
    /// Writes the faces of letters to the front of their places, four in a round: each by a store of its own, which takes less time than
    /// to put them together.
    #[inline(always)]
    fn show(&self, letters: &[u8], places: &mut [u8]) {
        let face = |letter: u8| self.faces[letter as usize % 64];
        let (fours, rest) = letters.as_chunks::<4>();
        let (places, last) = places.split_at_mut(letters.len() - rest.len());
        for (place, four) in places.as_chunks_mut::<4>().0.iter_mut().zip(fours) {
            place[0] = face(four[0]);
            place[1] = face(four[1]);
            place[2] = face(four[2]);
            place[3] = face(four[3]);
        }
        for (place, letter) in last.iter_mut().zip(rest) {
            *place = face(*letter);
        }
    }

    /// The next line, if there is place for it: what stands at its front, and letters by their faces.
    #[inline(always)]
    fn put(&mut self, front: &[u8], letters: &[u8]) {
        let Some(line) = self.left.next() else {
            return;
        };
        line.fill(b' ');
        line[..front.len()].copy_from_slice(front);
        self.show(letters, &mut line[letters_at(FAULT)..]);
        line[line_bytes(FAULT) - 1] = b'\n';
    }

    /// The lines of a reading.
    #[inline(always)]
    fn put_reading(&mut self, ordinal: &[u8; 5], letters: &[u8]) {
        let (row, more) = letters.split_at(letters.len().min(row_letters(FAULT)));
        match FAULT {
            fault::LEFT_ALIGNED => self.put(ordinal.trim_ascii_start(), row),
            _ => self.put(ordinal, row),
        }
        for row in more.chunks(row_letters(FAULT)) {
            self.put(&[], row);
        }
        let is_full = !letters.is_empty() && letters.len().is_multiple_of(ROW_LETTERS);
        if FAULT == fault::EMPTY_ROW && is_full {
            self.put(&[], &[]);
        }
    }
}

/// All lines, as far as there is place for them.
fn lay<const FAULT: u8>(sheet: Sheet, text: &mut [u8]) {
    let mut faces = [0; 64];
    faces[1..].copy_from_slice(sheet.faces);
    let left = text.chunks_exact_mut(line_bytes(FAULT));
    let mut lines = Lines::<FAULT> { left, faces };
    lines.put(b"READINGS", &[]);
    let (mut rest, mut ordinal) = (sheet.readings, *b"    0");
    while let Some((letters, after)) = first::<FAULT>(rest) {
        if FAULT != fault::FROM_NOUGHT || rest.len() < sheet.readings.len() {
            count_up(&mut ordinal);
        }
        lines.put_reading(&ordinal, letters);
        rest = after;
    }
    let ended = match FAULT {
        fault::ALWAYS_ENDED => true,
        fault::ONE_ENDED => sheet.ended == 1,
        _ => sheet.ended != 0,
    };
    lines.put(if ended { b"END" } else { b"MORE" }, &[]);
}

/// Writes a sheet: 33, then 24.
#[inline(always)]
pub fn write<const FAULT: u8>(sheet: Sheet, destination: &mut [u8]) -> Answer {
    let faces_hold = faces_hold::<FAULT>(sheet.faces);
    if !faces_hold && FAULT != fault::SHORT_FIRST {
        return Answer::refused(33, 0);
    }
    let Some(size) = size::<FAULT>(sheet.readings) else {
        return Answer::refused(33, 0);
    };
    let Some((text, beyond)) = destination.split_at_mut_checked(size) else {
        if FAULT == fault::WRITTEN_EARLY {
            lay::<FAULT>(sheet, destination);
        }
        return Answer::refused(24, 0);
    };
    if !faces_hold {
        return Answer::refused(33, 0);
    }
    lay::<FAULT>(sheet, text);
    if FAULT == fault::ZERO_AFTER
        && let Some(byte) = beyond.first_mut()
    {
        *byte = 0;
    }
    Answer::done(size)
}
