//! Why a call is refused.
use std::error::Error;
use std::fmt;

/// The enum, with what each refusal means as its documentation and as its message.
macro_rules! refusals {
    ($($name:ident = $number:literal: $meaning:literal)*) => {
        /// Why a call is refused. `refusal as u32` is its number.
        #[non_exhaustive]
        #[derive(Clone, Copy, Debug, PartialEq, Eq, Hash)]
        pub enum Refusal {
            $(#[doc = $meaning] $name = $number,)*
        }

        impl Refusal {
            /// All refusals, by rising number.
            pub const ALL: &[Refusal] = &[$(Refusal::$name),*];

            /// The refusal of a number.
            pub fn of(number: u32) -> Option<Refusal> {
                match number {
                    $($number => Some(Refusal::$name),)*
                    _ => None,
                }
            }
        }

        impl fmt::Display for Refusal {
            fn fmt(&self, f: &mut fmt::Formatter) -> fmt::Result {
                f.write_str(match self {
                    $(Refusal::$name => $meaning,)*
                })
            }
        }
    };
}

refusals! {
    Malformed = 1: "a line is empty, has an odd count of digits, another character than 0-9, A-F, or lacks its line feed"
    Misplaced = 2: "a line has the wrong kind for its place or the wrong length, text stands after the end, or a line is missing"
    CountLimit = 3: "a header count is outside its limit"
    StateNumber = 4: "a state number is not below the count of states"
    LetterLimit = 5: "an arc letter is over 71"
    StateOrder = 6: "an initial state is repeated, or terminal states do not rise"
    SourceOrder = 7: "an arc's source is below the one before"
    ArcRepeated = 8: "an arc equals an earlier one"
    LineCount = 9: "the end line's number is not the count of lines before it"
    WordFault = 10: "a word has more than 64 letters, or a letter 0 or over 63"
    TaskFault = 11: "unknown task, or a word on a side that the task does not read"
    IdleCycle = 12: "from an initial state arcs lead to a cycle of arcs that read nothing for the task, so a search could be endless"
    LoadedTable = 20: "the loaded table breaks a rule, has a penalty over 255, or is cut short"
    Place = 21: "the run or its used frames are not a place in a search"
    StackFull = 22: "the stack is full; the same run goes on with a longer one that begins with the same used frames"
    OutputFull = 23: "the output is too short for the reading; the same run goes on with a longer one"
    DestinationShort = 24: "a destination is too short for what is to be written to it"
    ListedWord = 30: "a listed word has no letter or over 64, has a letter 0 or over 62, or is cut short"
    WordOrder = 31: "a listed word is not after the one before it in dictionary order"
    StateLimit = 32: "with this word the list's table has over 256 states"
    SheetFault = 33: "two faces are equal or one is not 33 to 126; or there are over 1,000 readings, one is cut short, or one has a letter 0 or over 63"
    ClassFault = 34: "classes are over 7 or do not rise, a class has a letter 0 or over 63 or letters that do not rise, or an arc's class is not defined or not the same on both sides"
    CeilingLimit = 39: "a run's ceiling is over 100,000"
}

impl Error for Refusal {}

/// Why a start is refused.
///
/// ```
/// use readings::{Refusal, Table};
///
/// // Arcs that read and write nothing lead from state 0 to 1 and 2, from 1 to itself and to 2, and from 2 back to 0.
/// let text = "010003000100000005\n020000\n04000000000001\n04000000000002\n\
///             04000100000001\n04000100000002\n04000200000000\n050007\n";
/// let refused = Table::read(text)?.synthesis(&[]).unwrap_err();
/// assert_eq!(refused.refusal, Refusal::IdleCycle);
/// // State 1 has a shorter cycle but is not the lowest; 0, 1, 2 is a longer one.
/// assert_eq!(refused.cycle, [0, 2]);
/// # Ok::<(), Box<dyn std::error::Error>>(())
/// ```
#[derive(Clone, Debug, PartialEq, Eq)]
pub struct StartRefused {
    /// The refusal.
    pub refusal: Refusal,
    /// With [`Refusal::IdleCycle`] the states of one such cycle in walking order, none twice; else empty. It begins with the lowest state
    /// on any such cycle and is a shortest one through it; among those it is the one whose state numbers come first, compared one by one.
    /// The order in which the table lists arcs and initial states plays no part.
    pub cycle: Vec<u16>,
}

impl fmt::Display for StartRefused {
    fn fmt(&self, f: &mut fmt::Formatter) -> fmt::Result {
        self.refusal.fmt(f)
    }
}

impl Error for StartRefused {}
