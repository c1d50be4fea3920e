//! Word lists in which some words have flaws: what gives 30, 31 and 32.
use crate::words;

/// What makes a word bad.
#[derive(Clone, Copy, Debug, PartialEq, Eq)]
pub enum Bad {
    /// It has so many letters.
    Length(usize),
    /// This is its first letter, or its last one.
    First(u8),
    Last(u8),
}

/// How a word is not after the one before it.
#[derive(Clone, Copy, Debug, PartialEq, Eq)]
pub enum Fall {
    /// It is the same.
    Repeated,
    /// The one before goes on from it.
    Shorter,
    /// Its first letter is lower.
    Lower,
    /// It is the same but for its last letter, which is lower.
    LastLower,
}

/// What is wrong with a word: 30, 31, 32, or several of them.
#[derive(Clone, Copy, Debug, Default, PartialEq, Eq)]
pub struct Flaw {
    pub bad: Option<Bad>,
    pub fall: Option<Fall>,
    pub over: bool,
}

/// Words of a list with flaws.
pub const PLACES: usize = 7;

/// The first words have 64 letters each, so that 64 letters more at any later place are too many. There is no earlier place where they
/// could be.
pub const FIRST_OVER: usize = 3;

impl Flaw {
    /// The number that it earns.
    pub fn number(self) -> Option<u32> {
        let bad = self.bad.map(|_| 30);
        let fall = self.fall.map(|_| 31);
        bad.or(fall).or(self.over.then_some(32))
    }

    /// A word at a place, after the one before.
    fn word(self, at: usize, before: &[u8]) -> Vec<u8> {
        let length = if at < FIRST_OVER || self.over { 64 } else { 2 };
        let shorter = before.split_last().map_or(&[][..], |(_, front)| front);
        let mut word = match self.fall {
            None => vec![20 + at as u8; length],
            Some(Fall::Lower) => vec![19 - at as u8; length],
            Some(Fall::Repeated) => before.to_vec(),
            Some(Fall::Shorter) => shorter.to_vec(),
            Some(Fall::LastLower) => [shorter, &[1]].concat(),
        };
        match self.bad {
            Some(Bad::Length(letters)) => word.resize(letters, 1),
            Some(Bad::First(letter)) => word[0] = letter,
            Some(Bad::Last(letter)) => *word.last_mut().expect("a letter") = letter,
            None => {}
        }
        word
    }

    /// Each flaw of one kind that a word at a place can have.
    pub fn plain(at: usize) -> Vec<Flaw> {
        let mut flaws = bads(Flaw::default());
        if at > 0 {
            let falls = [Fall::Repeated, Fall::Shorter, Fall::Lower, Fall::LastLower];
            flaws.extend(falls.map(|fall| Flaw {
                fall: Some(fall),
                ..Flaw::default()
            }));
        }
        if at >= FIRST_OVER {
            flaws.push(Flaw {
                over: true,
                ..Flaw::default()
            });
        }
        flaws
    }

    /// Flaws of two kinds, and of all three. A word that brings states is not the one before, nor shorter.
    pub fn several(at: usize) -> Vec<Flaw> {
        let mut flaws: Vec<Flaw> = Flaw::plain(at);
        flaws.retain(|flaw| flaw.bad.is_none());
        if at >= FIRST_OVER {
            flaws.push(Flaw {
                fall: Some(Fall::Lower),
                over: true,
                ..Flaw::default()
            });
        }
        let mut with_bad: Vec<Flaw> = flaws.iter().flat_map(|flaw| bads(*flaw)).collect();
        flaws.retain(|flaw| flaw.fall.is_some() && flaw.over);
        with_bad.extend(flaws);
        with_bad
    }
}

/// A flaw, and that the word is bad besides.
fn bads(flaw: Flaw) -> Vec<Flaw> {
    let lengths = [0, 65, 66, 128, 255].map(Bad::Length);
    let firsts = [0, 63, 64, 255].map(Bad::First);
    let lasts = [0, 63, 64, 255].map(Bad::Last);
    let all = lengths.into_iter().chain(firsts).chain(lasts);
    let with = all.map(|bad| Flaw {
        bad: Some(bad),
        ..flaw
    });
    with.collect()
}

/// A list as it is lent, with these flaws at their places, and the number that the earliest one earns.
pub fn flawed(flaws: &[(usize, Flaw)]) -> (Vec<u8>, Option<u32>) {
    let at = |place: usize| flaws.iter().find(|(at, _)| *at == place);
    let mut list: Vec<Vec<u8>> = Vec::new();
    for place in 0..PLACES {
        let flaw = at(place).map_or(Flaw::default(), |(_, flaw)| *flaw);
        let before = list.last().map_or(&[][..], Vec::as_slice);
        list.push(flaw.word(place, before));
    }
    let mut numbers = (0..PLACES).filter_map(|place| at(place)?.1.number());
    (words::packed(&list), numbers.next())
}
