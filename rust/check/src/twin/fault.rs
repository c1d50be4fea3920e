//! The errors that a good programmer would make here, one number each.

pub const NONE: u8 = 0;
/// An arc is counted as tried before its push is known to succeed.
pub const TRIED_EARLY: u8 = 1;
/// A terminal state accepts with letters still unread.
pub const UNREAD: u8 = 2;
/// The allowance is tested before the end.
pub const ALLOWANCE_FIRST: u8 = 3;
/// A start for synthesis looks for the idle cycles of recognition.
pub const RECOGNITION_CYCLES: u8 = 4;
/// A frame without arcs left is dropped while its letter is still needed.
pub const DROPPED_EARLY: u8 = 5;
/// Every state counts as reached from an initial one.
pub const ALL_REACHED: u8 = 6;
/// The initial states alone count as reached.
pub const INITIALS_REACHED: u8 = 7;
/// The cycle is shown from the lowest state on one, reached or not; whether 12 is given is decided rightly.
pub const UNREACHED_TOLD: u8 = 8;
/// Reached is what arcs lead to whose letters the words have: each letter on a side that is read is 0 or stands somewhere in its word.
pub const WORD_REACHED: u8 = 9;
/// The search goes deep before it goes wide, so that a longer cycle can be shown.
pub const DEPTH_FIRST: u8 = 10;
/// The shortest of all cycles is shown, from whatever state.
pub const SHORTEST_OF_ALL: u8 = 11;
/// Among the shortest cycles the one is shown that comes first by the order in which the arcs are listed.
pub const AS_LISTED: u8 = 12;
/// The cycle shown begins with its second state.
pub const BEGUN_ELSEWHERE: u8 = 13;
/// Reached is what idle arcs lead to from the initial states.
pub const IDLE_REACHED: u8 = 14;

/// A sheet's lines have 73 characters.
pub const LONG_LINES: u8 = 15;
/// No blank follows an ordinal, and 67 letters stand on a line.
pub const LONG_ROWS: u8 = 16;
/// Ordinals are left-aligned.
pub const LEFT_ALIGNED: u8 = 17;
/// Ordinals are counted from 0.
pub const FROM_NOUGHT: u8 = 18;
/// The last word is `END` whatever the run did.
pub const ALWAYS_ENDED: u8 = 19;
/// A run counts as ended only where its number is 1.
pub const ONE_ENDED: u8 = 20;
/// A reading that fills its last line has an empty one after it.
pub const EMPTY_ROW: u8 = 21;
/// A reading's length has its low byte first.
pub const LOW_FIRST: u8 = 22;
/// Faces may repeat.
pub const FACES_REPEAT: u8 = 23;
/// A blank may be a face.
pub const BLANK_FACE: u8 = 24;
/// Of a reading that is cut short what is there is shown.
pub const CUT_SHOWN: u8 = 25;
/// One reading too many is shown.
pub const ONE_MORE: u8 = 26;
/// A reading's last letter is not looked at before it is shown.
pub const LAST_LETTER: u8 = 27;
/// The faces are looked at after the destination's length.
pub const SHORT_FIRST: u8 = 28;
/// Lines are written to a short destination as far as they go.
pub const WRITTEN_EARLY: u8 = 29;
/// A zero is put after the sheet, where the destination goes on.
pub const ZERO_AFTER: u8 = 30;

/// The arc that cuts stands before the other arcs of a word's end.
pub const CUT_FIRST: u8 = 31;
/// The arc that cuts reads the letter that it writes.
pub const CUT_READ: u8 = 32;
/// The root counts as a word's end.
pub const ROOT_AN_END: u8 = 33;
/// A word that the next one goes on from is not marked as a word.
pub const SHORTER_MISSED: u8 = 34;
/// A word is listed twice.
pub const REPEATED: u8 = 35;
/// A word may be before the one before it.
pub const UNORDERED: u8 = 36;
/// A word may stand after one that goes on from it.
pub const SHORTER_AFTER: u8 = 37;
/// A table may have 257 states.
pub const STATES_257: u8 = 38;
/// A table may have no more than 255 states.
pub const STATES_255: u8 = 39;
/// A listed word may have the letter 63.
pub const LETTER_63: u8 = 40;
/// A listed word may have a letter 0.
pub const LETTER_0: u8 = 41;
/// A listed word may have 65 letters.
pub const WORD_OF_65: u8 = 42;
/// A listed word may have no letters.
pub const WORD_OF_0: u8 = 43;
/// Of a word that is cut short what is there is taken.
pub const CUT_TAKEN: u8 = 44;
/// A word that is cut short is left out.
pub const CUT_DROPPED: u8 = 45;
/// An empty list is refused.
pub const NONE_REFUSED: u8 = 46;
/// At one word 31 comes before 30.
pub const ORDER_FIRST: u8 = 47;
/// At one word 32 comes before 31.
pub const STATES_FIRST: u8 = 48;
/// All words are looked at for 30 before any for 31 and 32.
pub const BAD_FIRST: u8 = 49;
/// All words are looked at for 30 and 31 before any for 32.
pub const STATES_LAST: u8 = 50;
/// A list's destination is looked at before its faults.
pub const LIST_SHORT_FIRST: u8 = 51;
/// A cell is cleared where the list is refused.
pub const REFUSED_TOUCHED: u8 = 52;
/// Cells are written to a short destination as far as they go.
pub const SHORT_FILLED: u8 = 53;
/// A zero is put after the table, where the destination goes on.
pub const CELL_AFTER: u8 = 54;

/// A letter that an arc of a class has read is not written.
pub const CLASS_UNWRITTEN: u8 = 55;
/// An arc of a class writes what stands on it.
pub const CLASS_WRITTEN: u8 = 56;
/// In recognition an arc of a class reads two letters of it that differ.
pub const UNLIKE_IN_CLASS: u8 = 57;
/// The zeros that fill up the row of a class count as its letters, and a word's end as a 0.
pub const NOUGHT_IN_CLASS: u8 = 58;

/// An arc that lifts the sum to the ceiling, and not over it, does not fit.
pub const CEILING_MISSED: u8 = 59;
/// A penalty is held against the ceiling, but not added to the sum.
pub const UNSUMMED: u8 = 60;
/// A call that goes on takes the top frame's sum for 0.
pub const SUM_LOST: u8 = 61;
/// The sums of used frames are not looked at.
pub const SUM_TRUSTED: u8 = 62;
/// A ceiling over 100,000 is looked for after the place.
pub const CEILING_AFTER_PLACE: u8 = 63;
/// A ceiling over 100,000 is looked for after idle cycles.
pub const CEILING_AFTER_CYCLES: u8 = 64;
/// A ceiling over 100,000 is looked for before the words.
pub const CEILING_BEFORE_WORDS: u8 = 65;
/// A ceiling may be over 100,000.
pub const CEILING_ANY: u8 = 66;
/// Arcs that differ by their penalties alone count as different.
pub const PENALTY_COMPARED: u8 = 67;
/// A loaded penalty may be over 255.
pub const PENALTY_256: u8 = 68;
/// An arc with a penalty is not idle.
pub const PENALTY_NOT_IDLE: u8 = 69;
