//! One table of a word list: the answer, and every cell that was lent; and the lists for which it is compared.
use super::flaws::{self, Fall, Flaw, PLACES};
use super::listed;
use super::tally::Tally;
use super::{about, filled, gets};
use crate::answer::Answer;
use crate::draw::lists;
use crate::engine::Trees;
use crate::german;
use crate::model::Model;
use crate::random::Random;
use crate::words;
use readings::limits::TREE_CELLS;

/// A short list as it is lent, a long one by its length, which with the seed and the case is enough.
fn shown(list: &[u8]) -> String {
    match list.len() {
        0..=400 => format!("{list:?}"),
        length => format!("a list of {length} bytes"),
    }
}

/// Makes the table of a list as it is lent, to a destination of so many cells, with the model and with what is compared.
pub fn compare(trees: &impl Trees, list: &[u8], cells: usize) -> Result<Answer, String> {
    let model = |words: &[u8], table: &mut [u16]| Model.tree(words, table);
    let call = |words: &[u8], table: &mut [u16]| trees.tree(words, table);
    filled::compare(list, cells, model, call)
        .map_err(|difference| format!("{difference}, on {cells} cells for {}", shown(list)))
}

/// Made where the destination is as long as the table or longer, and refused with 24 where it is shorter.
fn made(trees: &impl Trees, list: &[Vec<u8>]) -> Result<(), String> {
    let lent = words::packed(list);
    let size = words::parse(&lent)
        .map(|table| table.cells().len())
        .map_err(|number| format!("{number} for {list:?}"))?;
    let enough = [size + 100, size + 1, size];
    let short = [size - 1, size - 4, size / 2, 1, 0];
    let call = |cells| compare(trees, &lent, cells);
    gets(enough, Answer::done(size), call)?;
    gets(short, Answer::refused(24, 0), call)
}

/// Refused with this number on destinations of each of these lengths.
fn refused_on<const N: usize>(
    trees: &impl Trees,
    lent: &[u8],
    number: u32,
    destinations: [usize; N],
) -> Result<(), String> {
    let call = |cells| compare(trees, lent, cells);
    gets(destinations, Answer::refused(number, 0), call)
}

/// Refused with this number, whatever the destination.
fn refused(trees: &impl Trees, lent: &[u8], number: u32) -> Result<(), String> {
    let destinations = [TREE_CELLS + 100, TREE_CELLS, 5, 1, 0];
    refused_on(trees, lent, number, destinations)
}

/// Lists of no word to as many as there can be, and those whose tables are the largest.
pub fn sizes(trees: &impl Trees) -> Result<(), String> {
    made(trees, &[])?;
    for length in 1..=64 {
        made(trees, &listed::of_lengths([length]))?;
        made(trees, &listed::of_lengths([length, 1, 64]))?;
    }
    for letter in 1..=62 {
        made(trees, &[vec![letter]])?;
        made(trees, &[vec![1, letter], vec![62; 3]])?;
    }
    for count in [2, 10, 61, 62, 63, 64, 126, 250, 254, 255] {
        made(trees, &listed::short(count))?;
    }
    for letter in 1..=62 {
        made(trees, &[vec![letter], vec![letter, 1], vec![letter, 62]])?;
    }
    made(trees, &listed::longest())?;
    made(trees, &german::letters(&german::EIGHT))?;
    made(trees, &german::letters(&german::MANY))
}

/// 255, 256 and 257 states at the first word where there can be so many, at one in the middle, and at the last one. A word has no more
/// than 64 letters, so the first is the fourth: 1 and 4 x 64 are 257.
pub fn limits(trees: &impl Trees) -> Result<(), String> {
    for (at, count) in [(3, 4), (3, 5), (3, 9), (4, 5), (10, 20), (19, 20), (61, 62)] {
        for states in [255, 256, 257] {
            let list = listed::reaching(states, at, count);
            let is_over = states + count - 1 - at > 256;
            match is_over {
                true => refused(trees, &words::packed(&list), 32)?,
                false => made(trees, &list)?,
            }
        }
    }
    for count in [256, 257, 300, 3_906] {
        refused(trees, &words::packed(&listed::short(count)), 32)?;
    }
    let mut list = listed::longest();
    list.push(vec![2; 64]);
    refused(trees, &words::packed(&list), 32)
}

/// Each flaw at each place, alone and with others at its word; and each two flaws at two places, the one first and the other.
pub fn flaws(trees: &impl Trees) -> Result<(), String> {
    for at in 0..PLACES {
        for flaw in Flaw::plain(at).into_iter().chain(Flaw::several(at)) {
            let (list, number) = flaws::flawed(&[(at, flaw)]);
            refused(trees, &list, number.expect("a flaw"))?;
        }
        for later in at + 1..PLACES {
            for one in Flaw::plain(at) {
                for other in Flaw::plain(later) {
                    let (list, number) = flaws::flawed(&[(at, one), (later, other)]);
                    let number = number.expect("a flaw");
                    refused_on(trees, &list, number, [TREE_CELLS, 0])?;
                }
            }
        }
    }
    Ok(())
}

/// Words of every length and of every letter that is none, alone and after another; and length bytes with nothing after them.
pub fn bad_words(trees: &impl Trees) -> Result<(), String> {
    let after = |front: &[u8], word: &[u8]| refused(trees, &[front, word].concat(), 30);
    for front in [&[][..], &[1, 1]] {
        for length in (65..=255).chain([0]) {
            let word = vec![2; length];
            after(front, &words::packed(&[word]))?;
        }
        for letter in (63..=255).chain([0]) {
            after(front, &[1, letter])?;
            after(front, &[2, 1, letter])?;
            after(front, &[3, 1, letter, 1])?;
            after(front, &[3, letter, 2, 2])?;
            after(front, &[3, 2, letter, 2])?;
            after(front, &[3, 2, 2, letter])?;
        }
        for length in 0..=255 {
            after(front, &[length])?;
        }
    }
    Ok(())
}

/// A letter that is none, one that falls and one that rises, at each place of a word of 64 letters.
pub fn places(trees: &impl Trees) -> Result<(), String> {
    for at in 0..64 {
        let with = |letter: u8| {
            let mut word = vec![2; 64];
            word[at] = letter;
            word
        };
        for letter in [0, 63, 255] {
            refused(trees, &words::packed(&[with(letter)]), 30)?;
        }
        refused(trees, &words::packed(&[with(2), with(1)]), 31)?;
        made(trees, &[with(2), with(3)])?;
    }
    Ok(())
}

/// Lists that are cut short in their last word: behind its length, or in its letters. Only an earlier flaw comes before that.
pub fn cut_short(trees: &impl Trees) -> Result<(), String> {
    let last = PLACES - 1;
    let falls_and_over = Flaw {
        fall: Some(Fall::Lower),
        over: true,
        ..Flaw::default()
    };
    for (flaw, letters) in [(Flaw::default(), 2), (falls_and_over, 64)] {
        let cut = |earlier: &[(usize, Flaw)], missing: usize| {
            let (mut list, _) = flaws::flawed(&[earlier, &[(last, flaw)]].concat());
            list.truncate(list.len() - missing);
            let number = earlier.first().and_then(|(_, flaw)| flaw.number());
            refused(trees, &list, number.unwrap_or(30))
        };
        for missing in 1..=letters {
            cut(&[], missing)?;
        }
        for at in 0..last {
            for earlier in Flaw::plain(at) {
                cut(&[(at, earlier)], 1)?;
                cut(&[(at, earlier)], letters)?;
            }
        }
    }
    Ok(())
}

/// A random list, sound or with flaws, to a destination about as long as its table.
pub fn any(trees: &impl Trees, random: &mut Random, tally: &mut Tally) -> Result<(), String> {
    let mut list = lists::any(random);
    for _ in 0..random.below(3) {
        spoil(random, &mut list);
    }
    let mut lent = words::packed(&list);
    if random.one_in(8) {
        lent.truncate(random.below(lent.len() + 1));
    }
    let size = words::parse(&lent).map_or(TREE_CELLS, |table| table.cells().len());
    tally.add(compare(trees, &lent, about(random, size))?);
    Ok(())
}

/// One thing made bad, or nearly.
fn spoil(random: &mut Random, list: &mut Vec<Vec<u8>>) {
    if list.is_empty() {
        return;
    }
    let (one, other) = (random.below(list.len()), random.below(list.len()));
    match random.below(6) {
        0 => list.swap(one, other),
        1 => list.insert(other, list[one].clone()),
        2 => list[one].truncate(random.below(4)),
        3 => list[one].resize(*random.pick(&[0, 1, 63, 64, 65, 66, 255]), 1),
        4 => list[one] = list[other].clone(),
        _ => {
            if let Some(letter) = list[one].last_mut() {
                *letter = *random.pick(&[0, 1, 61, 62, 63, 64, 128, 255]);
            }
        }
    }
}
