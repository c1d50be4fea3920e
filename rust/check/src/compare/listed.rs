//! Word lists of certain sizes, which keep the rules unless they have too many states.

/// Words that each begin with a letter of their own, by their lengths: each adds as many states as it has letters.
pub fn of_lengths(lengths: impl IntoIterator<Item = usize>) -> Vec<Vec<u8>> {
    let words = (1..=62).zip(lengths);
    words.map(|(letter, length)| vec![letter; length]).collect()
}

/// So many words, at one of which there are so many states; each one after it adds one more.
pub fn reaching(states: usize, at: usize, count: usize) -> Vec<Vec<u8>> {
    let (share, rest) = ((states - 1) / (at + 1), (states - 1) % (at + 1));
    of_lengths((0..count).map(|k| {
        if k > at {
            1
        } else {
            share + usize::from(k < rest)
        }
    }))
}

/// The first words of one and of two letters: every state but the root is a word's end.
pub fn short(count: usize) -> Vec<Vec<u8>> {
    let with = |first| {
        let longer = (1..=62).map(move |next| vec![first, next]);
        [vec![first]].into_iter().chain(longer)
    };
    (1..=62).flat_map(with).take(count).collect()
}

/// The list of the most bytes: 255 words, as many of them of 64 letters as there is place for in the tree.
pub fn longest() -> Vec<Vec<u8>> {
    let mut words: Vec<Vec<u8>> = (1..=62).map(|length| vec![1; length]).collect();
    for branch in 1..=4 {
        let stem = [vec![1; 62], vec![branch]].concat();
        words.push(stem.clone());
        words.extend((1..=62).map(|tip| [&stem[..], &[tip]].concat()));
    }
    words.truncate(255);
    words
}
