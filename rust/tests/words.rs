//! Tables of word lists, as `Table::from_words` gives them.
use readings::{Refusal, Table, limits};
use std::{iter, thread};

/// A word in small letters, as letters 1 to 26.
fn letters(word: &str) -> Vec<u8> {
    word.bytes().map(|c| c - b'a' + 1).collect()
}

/// The table of words in small letters.
fn of(words: &[&str]) -> Result<Table, Refusal> {
    Table::from_words(words.iter().copied().map(letters))
}

/// The readings of a word in small letters, with a bar for each cut.
fn cuts(table: &Table, word: &str) -> Vec<String> {
    let shown = |letter: u8| match letter {
        limits::CUT => '|',
        _ => char::from(b'a' - 1 + letter),
    };
    let search = table.synthesis(&letters(word)).expect("a search");
    search
        .map(|cut| cut.into_iter().map(shown).collect())
        .collect()
}

const GERMAN: [&str; 8] = [
    "becken", "ecken", "stau", "staub", "stube", "tube", "wach", "wachs",
];

#[test]
fn words_are_cut_in_every_way() {
    let table = of(&GERMAN).expect("a table");
    assert_eq!(table.states(), 29);
    assert_eq!(cuts(&table, "staubecken"), ["staub|ecken", "stau|becken"]);
    assert_eq!(cuts(&table, "wachstube"), ["wachs|tube", "wach|stube"]);
    assert_eq!(cuts(&table, "wach"), ["wach"]);
    let none: [&str; 0] = [];
    for word in ["", "st", "staube", "wachstub", "xwach"] {
        assert_eq!(cuts(&table, word), none, "{word}");
    }
}

#[test]
fn a_longer_word_comes_first_where_two_ways_part() {
    let table = of(&["a", "aa", "aaa"]).expect("a table");
    assert_eq!(
        cuts(&table, "aaaa"),
        [
            "aaa|a", "aa|aa", "aa|a|a", "a|aaa", "a|aa|a", "a|a|aa", "a|a|a|a"
        ]
    );
}

#[test]
fn a_small_tree_cell_by_cell() {
    let table = of(&["a", "ab", "b"]).expect("a table");
    let expected = [
        [4, 1, 3, 6].as_slice(),
        &[0; 128],
        &[0],
        &[1, 2, 3],
        &[0, 1, 1, 1, 0],
        &[0, 2, 2, 3, 0],
        &[1, 2, 2, 2, 0],
        &[1, 0, 63, 0, 0],
        &[2, 0, 63, 0, 0],
        &[3, 0, 63, 0, 0],
    ];
    assert_eq!(table.cells(), expected.concat());
}

#[test]
fn no_words() {
    let table = of(&[]).expect("a table");
    assert_eq!(table.cells(), [&[1, 1, 0, 0], &[0; 129][..]].concat());
    assert_eq!(table.synthesis(&[1]).expect("a search").count(), 0);
}

#[test]
fn the_first_word_that_is_refused_decides() {
    for (words, refusal) in [
        (&["a", ""][..], Refusal::ListedWord),
        (&["a", "a"], Refusal::WordOrder),
        (&["b", "a"], Refusal::WordOrder),
        (&["ab", "a"], Refusal::WordOrder),
        (&["b", "a", ""], Refusal::WordOrder),
        (&["b", "", "a"], Refusal::ListedWord),
    ] {
        assert_eq!(of(words), Err(refusal), "{words:?}");
    }
}

#[test]
fn letters_beyond_the_limits() {
    for letter in 0..=u8::MAX {
        let holds = (1..=limits::MOST_LISTED_LETTER).contains(&letter);
        let told = Table::from_words([[letter]]).map(|table| table.states());
        assert_eq!(told, holds.then_some(2).ok_or(Refusal::ListedWord));
    }
}

/// A length byte that were cut to eight bits would be 0, 1 or 64 for most of these.
#[test]
fn a_word_of_any_length() {
    let of = |length: usize| Table::from_words([vec![1; length]]).map(|table| table.states());
    assert_eq!(of(1), Ok(2));
    assert_eq!(of(limits::MOST_WORD), Ok(65));
    for length in [0, 65, 254, 255, 256, 257, 320, 511, 512, 513, 65_537] {
        assert_eq!(of(length), Err(Refusal::ListedWord), "{length}");
    }
}

/// A word that is too long for a length byte is refused in its turn: after an earlier word, and before a later one.
#[test]
fn a_long_word_among_others() {
    let long = vec![3; 300];
    let of = |words: [&[u8]; 3]| Table::from_words(words).map(|table| table.states());
    assert_eq!(of([&[2], &[1], &long]), Err(Refusal::WordOrder));
    assert_eq!(of([&[1], &long, &[1]]), Err(Refusal::ListedWord));
    assert_eq!(of([&long, &[1], &[1]]), Err(Refusal::ListedWord));
}

/// Words of two letters, in order.
fn pairs() -> impl Iterator<Item = [u8; 2]> {
    (1..=62).flat_map(|first| (1..=62).map(move |next| [first, next]))
}

#[test]
fn states_up_to_the_limit() {
    let of = |words| Table::from_words(pairs().take(words)).map(|table| table.states());
    assert_eq!(of(250), Ok(256)); // with five states for the first letters, and the root
    assert_eq!(of(251), Err(Refusal::StateLimit));
}

/// The largest table of a list: each of 255 words has a state of its own, and no beginning is none.
#[test]
fn the_largest_table() {
    let with = |first| iter::once(vec![first]).chain((1..=62).map(move |next| vec![first, next]));
    let words: Vec<Vec<u8>> = (1..=5).flat_map(with).collect();
    let of = |count| Table::from_words(&words[..count]).map(|table| table.cells().len());
    assert_eq!(of(limits::MOST_STATES - 1), Ok(limits::TREE_CELLS));
    assert_eq!(of(limits::MOST_STATES), Err(Refusal::StateLimit));
}

/// Each thread makes tables of its own list, over and over, while the others make theirs.
#[test]
fn threads_make_tables() {
    thread::scope(|scope| {
        for length in 1..=4 {
            scope.spawn(move || {
                let words = || pairs().take(50 * length);
                let table = Table::from_words(words()).expect("a table");
                assert_eq!(table.cells()[2] as usize, 50 * length);
                for _ in 0..500 {
                    assert_eq!(Table::from_words(words()).as_ref(), Ok(&table));
                }
            });
        }
    });
}

#[test]
fn no_more_words_are_asked_for_than_needed() {
    let mut asked = 0;
    let repeated = iter::repeat_with(|| {
        asked += 1;
        [1]
    });
    let words = repeated.take(1_000); // so that a call that asks for all of them ends too
    assert_eq!(Table::from_words(words), Err(Refusal::WordOrder));
    assert_eq!(asked, limits::MOST_STATES);
    let mut asked = 0;
    let words = pairs().inspect(|_| asked += 1);
    assert_eq!(Table::from_words(words), Err(Refusal::StateLimit));
    assert_eq!(asked, limits::MOST_STATES);
}
