//! Limits, and how much memory a search or a sheet needs.

/// States of a table.
pub const MOST_STATES: usize = 256;
/// Arcs of a table.
pub const MOST_ARCS: usize = 1_024;
/// The highest letter; the lowest is 1.
pub const MOST_LETTER: u8 = 63;
/// Letters of a word.
pub const MOST_WORD: usize = 64;
/// Frames of a stack that are ever used.
pub const MOST_FRAMES: usize = 33_024;
/// Classes of a table, numbered from 0.
pub const MOST_CLASSES: usize = 8;
/// Letters of a class, and cells of its row in a table.
pub const CLASS_LETTERS: usize = 16;
/// What stands on an arc for class 0; class k is k more.
pub const FIRST_CLASS: u8 = 64;
/// Where the classes begin in the cells of a table: behind its counts of states, initial states, terminal states and arcs.
pub const CLASSES_AT: usize = 4;
/// Where the initial states begin: behind the classes.
pub const INITIALS_AT: usize = CLASSES_AT + MOST_CLASSES * CLASS_LETTERS;
/// Cells of an arc: source, upper letter, lower letter, target, penalty.
pub const ARC_CELLS: usize = 5;
/// The highest penalty of an arc; the lowest is 0.
pub const MOST_PENALTY: u8 = 255;
/// Cells that hold every table.
pub const TABLE_CELLS: usize = table_cells(MOST_STATES, MOST_STATES, MOST_ARCS);
/// Bytes that hold the text of every table.
pub const TEXT_BYTES: usize = 21_314;
/// Cells of a frame: state, next arc, letters passed on the upper and on the lower side, sum of penalties.
pub const FRAME_CELLS: usize = 5;
/// The highest ceiling of a search: the penalties of a path may add up to so much.
pub const MOST_CEILING: u32 = 100_000;
/// States of the longest cycle that is told.
pub const CYCLE_STATES: usize = 256;
/// The highest letter of a listed word; the lowest is 1.
pub const MOST_LISTED_LETTER: u8 = 62;
/// The letter that a reading over the table of a word list has between two words.
pub const CUT: u8 = 63;
/// Cells that hold the table of every word list: every state but the root is a word's end and has an arc to it and one back.
pub const TREE_CELLS: usize = table_cells(1, MOST_STATES - 1, 2 * (MOST_STATES - 1));
/// Faces of a sheet: characters for letters 1 to 63.
pub const FACES: usize = 63;
/// Readings of a sheet.
pub const MOST_READINGS: usize = 1_000;
/// Letters of a reading on a sheet.
pub const MOST_READING: usize = 65_535;
/// Bytes of a sheet's line, with its line feed.
pub const SHEET_LINE: usize = 73;
/// Letters that stand on a line of a sheet.
pub const ROW_LETTERS: usize = 66;
/// Bytes that hold every sheet.
pub const SHEET_BYTES: usize = sheet_size(MOST_READINGS * reading_lines(MOST_READING));

/// Cells of a table, by its counts of initial states, terminal states and arcs.
pub const fn table_cells(initials: usize, terminals: usize, arcs: usize) -> usize {
    INITIALS_AT + initials + terminals + ARC_CELLS * arcs
}

/// Frames that are enough for a search, by its letters to read, those of every word that the task reads, and the table's states.
pub const fn stack_frames(letters: usize, states: usize) -> usize {
    (letters + 1) * states
}

/// The cells of these frames.
pub const fn stack_cells(letters: usize, states: usize) -> usize {
    FRAME_CELLS * stack_frames(letters, states)
}

/// Letters of an output that are enough for every reading of such a search: a path has fewer arcs than these frames, and an arc writes
/// one letter at most, in recognition none.
pub const fn output_letters(letters: usize, states: usize) -> usize {
    stack_frames(letters, states) - 1
}

/// Lines that a reading takes on a sheet, by its letters: one also where it has none.
pub const fn reading_lines(letters: usize) -> usize {
    if letters == 0 {
        1
    } else {
        letters.div_ceil(ROW_LETTERS)
    }
}

/// Bytes of a sheet, by the lines that its readings take together: the first and the last line are added.
pub const fn sheet_size(lines: usize) -> usize {
    SHEET_LINE * (lines + 2)
}
