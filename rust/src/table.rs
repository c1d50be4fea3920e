//! Tables that keep the rules.
use crate::lending;
use crate::limits::{MOST_STATES, TABLE_CELLS, TEXT_BYTES, TREE_CELLS, table_cells};
use crate::{Refusal, Search, StartRefused, Task};

/// A loaded table, which keeps the rules.
#[derive(Clone, Debug, PartialEq, Eq, Hash)]
pub struct Table {
    cells: Vec<u16>,
}

impl Table {
    /// The table of a text. Letters 64 to 71 on an arc stand for one letter of class 0 to 7: the arc reads it, and writes the letter that
    /// it read. An arc may have a penalty; [`Search::start_under`] says what a ceiling makes of it.
    ///
    /// ```
    /// use readings::Table;
    ///
    /// // Class 0 is the letters 01, 05 and 09. One state, initial and terminal: 02 is read and written, and so is a letter of the class.
    /// let text = "010001000100010002\n0600010509\n020000\n030000\n04000002020000\n04000040400000\n050006\n";
    /// let table = Table::read(text)?;
    /// let readings: Vec<Vec<u8>> = table.synthesis(&[2, 5, 2, 9])?.collect();
    /// assert_eq!(readings, [[2, 5, 2, 9]]);
    /// assert_eq!(table.recognition(&[2, 5], &[2, 5])?.count(), 1);
    /// assert_eq!(table.recognition(&[2, 5], &[2, 9])?.count(), 0); // two letters of the class
    /// # Ok::<(), Box<dyn std::error::Error>>(())
    /// ```
    pub fn read(text: impl AsRef<[u8]>) -> Result<Table, Refusal> {
        let mut cells = vec![0; TABLE_CELLS];
        let length = lending::table_read(text.as_ref(), &mut cells).done()?;
        cells.truncate(length);
        Ok(Table { cells })
    }

    /// The table of the letter tree of some words. Its synthesis cuts a word of one or more letters into listed words in all ways, each
    /// once, with [`CUT`](crate::limits::CUT) between two words; where two ways part, the one with the longer word comes first.
    ///
    /// ```
    /// use readings::Table;
    ///
    /// let letters = |word: &str| word.bytes().map(|c| c - b'a' + 1).collect::<Vec<u8>>();
    /// let shown = |letter: &u8| match letter {
    ///     63 => '|',
    ///     _ => char::from(b'a' - 1 + letter),
    /// };
    ///
    /// let words = ["becken", "ecken", "stau", "staub", "stube", "tube", "wach", "wachs"];
    /// let table = Table::from_words(words.map(letters))?;
    /// let staubecken = table.synthesis(&letters("staubecken"))?;
    /// let cuts: Vec<String> = staubecken.map(|cut| cut.iter().map(shown).collect()).collect();
    /// assert_eq!(cuts, ["staub|ecken", "stau|becken"]);
    /// # Ok::<(), Box<dyn std::error::Error>>(())
    /// ```
    ///
    /// The words stand in rising dictionary order, else they are refused with [`Refusal::WordOrder`]. A word has 1 to
    /// [`MOST_WORD`](crate::limits::MOST_WORD) letters of 1 to [`MOST_LISTED_LETTER`](crate::limits::MOST_LISTED_LETTER), else it is
    /// refused with [`Refusal::ListedWord`]. [`Refusal::StateLimit`] says that they have over [`MOST_STATES`] beginnings together, the
    /// empty one among them. The first word that is refused decides. No words make a table of one state that accepts nothing.
    ///
    /// One word more than a table can hold is taken at most, since the refusal is then sure.
    pub fn from_words(words: impl IntoIterator<Item = impl AsRef<[u8]>>) -> Result<Table, Refusal> {
        let mut lent = Vec::new();
        for word in words.into_iter().take(MOST_STATES) {
            let letters = word.as_ref();
            // A word that is too long for a length byte is still too long when it is cut to 255 letters.
            let length = u8::try_from(letters.len()).unwrap_or(u8::MAX);
            lent.push(length);
            lent.extend(&letters[..length.into()]);
        }
        let mut cells = vec![0; TREE_CELLS];
        let length = lending::words_read(&lent, &mut cells).done()?;
        cells.truncate(length);
        Ok(Table { cells })
    }

    /// The table at the front of some cells, as [`Table::cells`] has them.
    pub fn from_cells(cells: &[u16]) -> Result<Table, Refusal> {
        lending::table_write(cells, &mut [0; TEXT_BYTES]).done()?;
        let count = |k: usize| usize::from(cells[k]);
        let length = table_cells(count(1), count(2), count(3));
        Ok(Table {
            cells: cells[..length].to_vec(),
        })
    }

    /// The counts of states, initial states, terminal states and arcs; the eight classes, each as 16 cells, its letters and then zeros; the
    /// initial states, the terminal states; and for each arc its source, upper letter, lower letter, target and penalty.
    pub fn cells(&self) -> &[u16] {
        &self.cells
    }

    /// How many states it has.
    pub fn states(&self) -> usize {
        self.cells[0].into()
    }

    /// Its text.
    pub fn text(&self) -> String {
        let mut text = vec![0; TEXT_BYTES];
        let written = lending::table_write(&self.cells, &mut text).done();
        text.truncate(written.expect("a table that keeps the rules, and room for every text"));
        String::from_utf8(text).expect("digits and line feeds")
    }

    /// The paths that read an upper and a lower word: an empty reading for each.
    pub fn recognition(&self, upper: &[u8], lower: &[u8]) -> Result<Search<'_>, StartRefused> {
        Search::start(self, Task::Recognition, upper, lower)
    }

    /// The lower words of an upper word.
    pub fn synthesis(&self, upper: &[u8]) -> Result<Search<'_>, StartRefused> {
        Search::start(self, Task::Synthesis, upper, &[])
    }

    /// The upper words of a lower word.
    pub fn analysis(&self, lower: &[u8]) -> Result<Search<'_>, StartRefused> {
        Search::start(self, Task::Analysis, &[], lower)
    }
}
