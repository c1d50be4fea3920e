//! What a sheet is written from, and what gives 33 in it.
use crate::engine::Sheet;
use crate::sheet::{self, Faces};
use readings::limits::{MOST_READINGS, reading_lines, sheet_size};
use std::fmt;

#[derive(Clone, PartialEq, Eq)]
pub struct Page {
    pub list: Vec<Vec<u8>>,
    /// So many bytes are missing at the end of the list as it is lent.
    pub missing: usize,
    pub faces: Faces,
    pub ended: u32,
}

/// A short list as it is lent, a long one by its counts, which with the seed and the case are enough.
impl fmt::Debug for Page {
    fn fmt(&self, f: &mut fmt::Formatter) -> fmt::Result {
        let bytes = self.lent();
        match bytes.len() {
            0..=300 => write!(f, "readings {bytes:?}")?,
            length => write!(f, "{} readings in {length} bytes", self.list.len())?,
        }
        write!(f, ", faces {:?}, ended {}", self.faces, self.ended)
    }
}

impl Page {
    /// A list over the first 63 printable characters, of a run that has ended.
    pub fn new(list: Vec<Vec<u8>>) -> Page {
        Page {
            list,
            missing: 0,
            faces: std::array::from_fn(|k| b'!' + k as u8),
            ended: 1,
        }
    }

    /// Readings of these lengths. All letters are used, and a reading begins where the one before ended.
    pub fn of_lengths(lengths: impl IntoIterator<Item = usize>) -> Page {
        let mut letters = (1..=63).cycle();
        let reading = |length| letters.by_ref().take(length).collect();
        Page::new(lengths.into_iter().map(reading).collect())
    }

    /// The list as it is lent.
    pub fn lent(&self) -> Vec<u8> {
        let mut bytes = sheet::packed(&self.list);
        bytes.truncate(bytes.len() - self.missing);
        bytes
    }

    /// What a call is handed, with the list as it is lent.
    pub fn sheet<'a>(&'a self, lent: &'a [u8]) -> Sheet<'a> {
        Sheet {
            readings: lent,
            faces: &self.faces,
            ended: self.ended,
        }
    }

    /// Bytes of the whole list's sheet.
    pub fn size(&self) -> usize {
        let lines = self.list.iter().map(|reading| reading_lines(reading.len()));
        sheet_size(lines.sum())
    }
}

/// What gives 33.
#[derive(Clone, Copy, Debug, PartialEq, Eq)]
pub enum Fault {
    /// The first of two faces is as the second.
    Repeated(usize, usize),
    /// A face is this character.
    Face(usize, u8),
    /// There are 1,001 readings: empty ones come first.
    TooMany,
    /// So many bytes of the last reading are missing.
    Missing(usize),
    /// In a reading, counted from the last one, this letter stands at a place.
    Letter(usize, usize, u8),
}

impl Fault {
    pub fn plant(self, page: &mut Page) {
        match self {
            Fault::Repeated(one, other) => page.faces[one] = page.faces[other],
            Fault::Face(at, character) => page.faces[at] = character,
            Fault::TooMany => {
                let more = MOST_READINGS + 1 - page.list.len();
                page.list.splice(..0, vec![Vec::new(); more]);
            }
            Fault::Missing(bytes) => page.missing = bytes,
            Fault::Letter(back, at, letter) => {
                let reading = page.list.len() - 1 - back;
                page.list[reading][at] = letter;
            }
        }
    }

    /// Faults of each kind and in each place that a page has for it. The last reading has letters.
    pub fn all(page: &Page) -> Vec<Fault> {
        let last = page.list.last().expect("a reading").len();
        let mut faults = vec![Fault::TooMany];
        faults.extend([1, last, last + 1].map(Fault::Missing));
        faults.extend([(0, 62), (62, 0), (30, 31)].map(|(a, b)| Fault::Repeated(a, b)));
        for at in [0, 31, 62] {
            let characters = [0, b'\n', b' ', 127, 128, 255];
            faults.extend(characters.map(|character| Fault::Face(at, character)));
        }
        for (back, reading) in page.list.iter().rev().enumerate() {
            let last = reading.len() - 1;
            for at in [0, last / 2, last] {
                faults.extend([0, 64, 255].map(|letter| Fault::Letter(back, at, letter)));
            }
        }
        faults
    }
}
