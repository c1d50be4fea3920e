//! Wide values at the C boundary: each parameter of each call, and each number told or left, with values of more than 8, 13 and 16
//! bits. A check passes on the library, and notices every cut that is planted for it (`narrow.rs`). What is expected comes from the
//! model, or follows from document 01.
//!
//! Some cuts nobody can tell, for documents 01 and 02 have no case that they would change: a destination or a loaded table taken for 5,764
//! cells where it has more, a destination for 21,314 bytes, a stack for 165,120 cells (33,024 frames), an output for 33,023 letters, and
//! a length that is told in 16 bits. With a word list: a list taken for 14,621 bytes (14,556 that have no fault, and a word of 64 letters),
//! a destination for 2,938 cells, cells told in 9 bits, and a length in 12. With a sheet: a list taken for 65,537,001 bytes (1,000
//! readings of 65,535 letters and one byte), a destination for 72,489,146 bytes, and a length told in 27 bits. Steps of more than 25 bits
//! in one call are left out, since they would take long.
mod calls;
mod huge;
mod inputs;
mod narrow;
mod sheets;
mod starts;
mod texts;
mod words;

use narrow::Cut::{self, Low};
use narrow::{Boundary, Part, SOUND};
use readings_check::answer::Answer;

/// All is as expected, or what differs.
type Checked = Result<(), String>;

/// Cuts to a few bits.
const NARROW: &[Cut] = &[Low(8), Low(13), Low(16)];

/// A check passes on the library, and notices each of these cuts of a part.
fn tells(check: fn(&Boundary) -> Checked, part: Part, cuts: &[Cut]) {
    if let Err(difference) = check(&SOUND) {
        panic!("{}", difference.chars().take(1_000).collect::<String>());
    }
    for cut in cuts {
        let fault = Some((part, *cut));
        let noticed = check(&Boundary { fault }).is_err();
        assert!(noticed, "not noticed: {part:?}, {cut:?}");
    }
}

/// An answer is this one.
fn is(answer: Answer, expected: Answer) -> Checked {
    if answer == expected {
        Ok(())
    } else {
        Err(format!("answer is {answer:?}, expected {expected:?}"))
    }
}
