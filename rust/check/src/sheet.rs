//! The answer sheet: readings laid out on lines, and a sheet read back to its readings.
use crate::answer::Answer;
use crate::engine::Sheet;
use crate::text;
use std::collections::BTreeSet;

/// Characters of a line.
const COLUMNS: usize = 72;
/// Of these, letters.
const LETTERS: usize = 66;
/// Readings of a sheet.
const MOST: usize = 1_000;

/// The characters of letters 1 to 63.
pub type Faces = [u8; 63];

/// Faces that show letters as `tree` numbers them: 1 to 26 as a to z, and its mark, 63, as a bar.
pub const SMALL_LETTERS: &Faces =
    b"abcdefghijklmnopqrstuvwxyzABCDEFGHIJKLMNOPQRSTUVWXYZ0123456789|";

/// Readings as they are lent, each as its length and its letters. None is longer than two bytes can tell.
pub fn packed(readings: &[Vec<u8>]) -> Vec<u8> {
    let mut bytes = Vec::new();
    for reading in readings {
        let length = u16::try_from(reading.len()).expect("a length of two bytes");
        bytes.extend(length.to_be_bytes());
        bytes.extend(reading);
    }
    bytes
}

/// The readings of lent bytes; none where one is cut short.
fn unpacked(mut bytes: &[u8]) -> Option<Vec<&[u8]>> {
    let mut readings = Vec::new();
    while !bytes.is_empty() {
        let (length, rest) = bytes.split_first_chunk()?;
        let (letters, rest) = rest.split_at_checked(u16::from_be_bytes(*length).into())?;
        readings.push(letters);
        bytes = rest;
    }
    Some(readings)
}

/// The readings of what is lent; none where it gets 33.
fn judged<'a>(sheet: &Sheet<'a>) -> Option<Vec<&'a [u8]>> {
    let different: BTreeSet<&u8> = sheet.faces.iter().collect();
    let printable = sheet.faces.iter().all(|face| (33..=126).contains(face));
    if different.len() < sheet.faces.len() || !printable {
        return None;
    }
    let readings = unpacked(sheet.readings)?;
    let mut letters = readings.iter().copied().flatten();
    (readings.len() <= MOST && letters.all(|letter| (1..=63).contains(letter))).then_some(readings)
}

/// Letters on a line, behind an ordinal or nothing.
fn row(front: &str, letters: &[u8], faces: &Faces) -> String {
    let shown = letters.iter().map(|x| char::from(faces[*x as usize - 1]));
    let shown: String = shown.collect();
    format!("{front:>5} {shown:<LETTERS$}\n")
}

/// The lines of some readings and the last word.
fn print(readings: &[&[u8]], faces: &Faces, ended: bool) -> String {
    let mut sheet = format!("{:<COLUMNS$}\n", "READINGS");
    for (before, reading) in readings.iter().enumerate() {
        let (first, rest) = reading.split_at(reading.len().min(LETTERS));
        sheet += &row(&(before + 1).to_string(), first, faces);
        for letters in rest.chunks(LETTERS) {
            sheet += &row("", letters, faces);
        }
    }
    sheet + &format!("{:<COLUMNS$}\n", if ended { "END" } else { "MORE" })
}

/// Writes a sheet: 33, then 24.
pub fn write(sheet: Sheet, destination: &mut [u8]) -> Answer {
    match judged(&sheet) {
        None => Answer::refused(33, 0),
        Some(readings) => {
            let lines = print(&readings, sheet.faces, sheet.ended != 0);
            text::deliver(lines.as_bytes(), destination)
        }
    }
}

/// What stands before the blanks at the end of a line.
fn unfilled(line: &[u8]) -> &[u8] {
    let last = line.iter().rposition(|c| *c != b' ');
    &line[..last.map_or(0, |at| at + 1)]
}

/// The lines of a text, without their line feeds; none where one is not of 72 characters.
fn lines(text: &[u8]) -> Option<Vec<&[u8]>> {
    let lines = text::lines(text).map(|line| line.strip_suffix(b"\n"));
    lines
        .map(|line| line.filter(|l| l.len() == COLUMNS))
        .collect()
}

/// The letter of each character; 0 where it is no face.
fn letters(faces: &Faces) -> [u8; 256] {
    let mut letters = [0; 256];
    for (letter, face) in (1..).zip(faces) {
        letters[*face as usize] = letter;
    }
    letters
}

/// The readings of a sheet, and whether its run ended; none where the text is no sheet over these faces.
pub fn read(sheet: &[u8], faces: &Faces) -> Option<(Vec<Vec<u8>>, bool)> {
    let lines = lines(sheet)?;
    let [first, rows @ .., last] = &lines[..] else {
        return None;
    };
    let ended = match (unfilled(first), unfilled(last)) {
        (b"READINGS", b"END") => true,
        (b"READINGS", b"MORE") => false,
        _ => return None,
    };
    Some((rows_read(rows, &letters(faces))?, ended))
}

/// The readings of the lines between the first and the last.
fn rows_read(rows: &[&[u8]], letter_of: &[u8; 256]) -> Option<Vec<Vec<u8>>> {
    let mut readings: Vec<Vec<u8>> = Vec::new();
    for row in rows {
        let (front, row) = row.split_at(COLUMNS - LETTERS);
        let row = unfilled(row).iter().map(|c| letter_of[*c as usize]);
        if front == format!("{:>5} ", readings.len() + 1).as_bytes() {
            readings.push(Vec::new());
        } else if !unfilled(front).is_empty() || row.len() == 0 || !is_full(readings.last()?) {
            return None;
        }
        readings.last_mut()?.extend(row);
    }
    let no_letter = readings.iter().any(|reading| reading.contains(&0));
    (readings.len() <= MOST && !no_letter).then_some(readings)
}

/// Whether the last line of a reading has no place left.
fn is_full(reading: &[u8]) -> bool {
    !reading.is_empty() && reading.len().is_multiple_of(LETTERS)
}
