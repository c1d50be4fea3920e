//! Answer sheets: readings laid out on lines, for a person to read.
use crate::Refusal;
use crate::lending;
use crate::limits::{FACES, MOST_READINGS, reading_lines, sheet_size};

/// The characters that show letters 1 to 63 on a sheet: printable ones of ASCII, 33 to 126, no two equal.
#[derive(Clone, Copy, Debug, PartialEq, Eq, Hash)]
pub struct Faces([u8; FACES]);

impl Faces {
    /// The first character shows letter 1, the last one letter 63. Faces that are not as they must be are refused with
    /// [`Refusal::SheetFault`].
    pub fn new(characters: &[u8; FACES]) -> Result<Faces, Refusal> {
        lending::sheet_write(&[], characters, 0, &mut [0; sheet_size(0)]).done()?;
        Ok(Faces(*characters))
    }

    /// The characters, that of letter 1 first.
    pub fn characters(&self) -> &[u8; FACES] {
        &self.0
    }
}

/// The answer sheet of some readings, on lines of 72 characters: `READINGS`; each reading behind its ordinal, 66 letters a line; and
/// `END`, or `MORE` where the run that gave them has not ended. Over the same faces, sheets are equal only if their readings and their
/// last words are.
///
/// ```
/// use readings::Faces;
///
/// let faces = Faces::new(b"abcdefghijklmnopqrstuvwxyzABCDEFGHIJKLMNOPQRSTUVWXYZ0123456789|")?;
/// let staubecken = [
///     [19, 20, 1, 21, 2, 63, 5, 3, 11, 5, 14],
///     [19, 20, 1, 21, 63, 2, 5, 3, 11, 5, 14],
/// ];
/// let sheet = readings::sheet(staubecken, &faces, true)?;
/// assert!(sheet.lines().all(|line| line.len() == 72)); // filled up with blanks
/// let lines: Vec<&str> = sheet.lines().map(str::trim_end).collect();
/// assert_eq!(lines, ["READINGS", "    1 staub|ecken", "    2 stau|becken", "END"]);
/// # Ok::<(), readings::Refusal>(())
/// ```
///
/// A letter 0 or over 63 is refused with [`Refusal::SheetFault`], and so is a reading of more than
/// [`MOST_READING`](crate::limits::MOST_READING) letters, whose length two bytes do not hold, and a list of more than
/// [`MOST_READINGS`](crate::limits::MOST_READINGS).
///
/// The readings of a [`Search`](crate::Search) can be handed on as they come. One more than a sheet can hold is taken at most, and with
/// a refusal those taken are lost. Where there may be so many, peek at what is left: one sheet after another, each counted from 1.
///
/// ```
/// # use readings::{Faces, Refusal, limits::MOST_READINGS};
/// # let faces = Faces::new(b"abcdefghijklmnopqrstuvwxyzABCDEFGHIJKLMNOPQRSTUVWXYZ0123456789|")?;
/// # let search = (0..2_500).map(|_| [1]);
/// # let mut last = Vec::new();
/// let mut readings = search.peekable();
/// loop {
///     let page: Vec<_> = readings.by_ref().take(MOST_READINGS).collect();
///     let ended = readings.peek().is_none();
///     let sheet = readings::sheet(page, &faces, ended)?;
/// #   last.extend(sheet.lines().last().map(|line| line.trim_end().to_string()));
///     print!("{sheet}");
///     if ended {
///         break;
///     }
/// }
/// # assert_eq!(last, ["MORE", "MORE", "END"]);
/// # Ok::<(), Refusal>(())
/// ```
pub fn sheet<R: AsRef<[u8]>>(
    readings: impl IntoIterator<Item = R>,
    faces: &Faces,
    ended: bool,
) -> Result<String, Refusal> {
    let (mut lent, mut lines) = (Vec::new(), 0);
    for reading in readings.into_iter().take(MOST_READINGS + 1) {
        let letters = reading.as_ref();
        let length = u16::try_from(letters.len()).map_err(|_| Refusal::SheetFault)?;
        lent.extend(length.to_be_bytes());
        lent.extend(letters);
        lines += reading_lines(letters.len());
    }
    let mut sheet = vec![0; sheet_size(lines)];
    let written = lending::sheet_write(&lent, &faces.0, ended.into(), &mut sheet).done()?;
    sheet.truncate(written);
    Ok(String::from_utf8(sheet).expect("faces, digits, blanks and line feeds"))
}
