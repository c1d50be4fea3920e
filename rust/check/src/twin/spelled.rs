//! Words as they stand in a list, one after another, and what two of them have to do with each other.
use super::fault;
use readings::limits::{MOST_LISTED_LETTER, MOST_WORD};

/// Letters of a word's head.
pub const HEAD: usize = 8;

/// A word with its head: the first letters, the first one highest, and zeros after a shorter word.
#[derive(Clone, Copy)]
pub struct Word<'a> {
    pub letters: &'a [u8],
    pub head: u64,
}

/// The word before the first one.
pub const NONE: Word = Word {
    letters: &[],
    head: 0,
};

/// The first word and what follows it; none where its length is bad or it is cut short.
#[inline(always)]
pub fn first<const FAULT: u8>(bytes: &[u8]) -> Option<(Word<'_>, &[u8])> {
    let (length, rest) = bytes.split_first()?;
    let mut length = usize::from(*length);
    if FAULT == fault::CUT_TAKEN {
        length = length.min(rest.len());
    }
    let least = usize::from(FAULT != fault::WORD_OF_0);
    let most = MOST_WORD + usize::from(FAULT == fault::WORD_OF_65);
    if length < least || length > most {
        return None;
    }
    let (letters, after) = rest.split_at_checked(length)?;
    let head = match rest.first_chunk() {
        Some(eight) => u64::from_be_bytes(*eight),
        None => padded(letters),
    };
    let beyond = u64::MAX.checked_shr(8 * length as u32).unwrap_or(0);
    let head = head & !beyond;
    Some((Word { letters, head }, after))
}

/// The head of a word near the end of a list.
#[cold]
fn padded(letters: &[u8]) -> u64 {
    let mut head = [0; HEAD];
    head[..letters.len()].copy_from_slice(letters);
    u64::from_be_bytes(head)
}

#[inline(always)]
pub fn letters_hold<const FAULT: u8>(letters: &[u8]) -> bool {
    let least = u8::from(FAULT != fault::LETTER_0);
    let most = MOST_LISTED_LETTER + u8::from(FAULT == fault::LETTER_63);
    let each = letters.iter();
    each.fold(true, |ok, x| ok & (least..=most).contains(x))
}

/// How many first letters two words have in common.
#[inline(always)]
pub fn common(word: Word, before: Word) -> usize {
    let same = (word.head ^ before.head).leading_zeros() as usize / 8;
    if same < HEAD {
        return same.min(word.letters.len());
    }
    let pairs = word.letters.iter().zip(before.letters);
    pairs.take_while(|(a, b)| a == b).count()
}

/// Whether a word is after another with which it has so many first letters in common.
#[inline(always)]
pub fn rises<const FAULT: u8>(word: Word, before: Word, common: usize) -> bool {
    if word.head > before.head {
        return true;
    }
    match (word.letters.get(common), before.letters.get(common)) {
        (Some(_), None) => true,
        (Some(letter), Some(other)) => letter > other || FAULT == fault::UNORDERED,
        (None, Some(_)) => FAULT == fault::SHORTER_AFTER,
        (None, None) => FAULT == fault::REPEATED || FAULT == fault::WORD_OF_0,
    }
}

/// Whether a word anywhere in a list is bad.
pub fn any_bad(mut bytes: &[u8]) -> bool {
    while !bytes.is_empty() {
        match first::<{ fault::NONE }>(bytes) {
            Some((word, rest)) if letters_hold::<{ fault::NONE }>(word.letters) => bytes = rest,
            _ => return true,
        }
    }
    false
}
