//! What to do after refusals 22 and 23, and how much memory is enough or needed.
use readings::lending::{self, Run};
use readings::{Answer, Refusal, limits};

const SYNTHESIS: u32 = 2;

/// A chain of arcs that read nothing and write 1, at whose end a letter 1 is read: the longest paths that so many states allow.
fn chain(states: u16) -> Vec<u16> {
    let mut cells = vec![states, 1, 1, states];
    cells.resize(limits::INITIALS_AT, 0); // no classes
    cells.extend([0, states - 1]);
    for state in 0..states {
        let last = state + 1 == states;
        let (letter, target) = if last { (1, 0) } else { (0, state + 1) };
        cells.extend([state, letter, 1, target, 0]);
    }
    cells
}

/// A start for synthesis, and its first call on so many frames and letters.
fn first_call(table: &[u16], word: &[u8], frames: usize, letters: usize) -> (Answer, Run) {
    let mut run = Run::default();
    let started = lending::start(table, SYNTHESIS, limits::MOST_CEILING, word, &[], &mut run);
    started.done().expect("a search");
    let mut stack = vec![0; limits::FRAME_CELLS * frames];
    let mut output = vec![0; letters];
    let reply = lending::next(
        table,
        word,
        &[],
        &mut run,
        &mut stack,
        u32::MAX,
        &mut output,
    );
    (reply.answer(), run)
}

fn refusal(answer: Answer) -> Option<Refusal> {
    match answer {
        Answer::Refused { refusal, .. } => Some(refusal),
        _ => None,
    }
}

#[test]
fn what_is_enough_is_needed() {
    for (states, letters) in [(1, 0), (1, 5), (2, 1), (7, 3), (256, 0), (256, 64)] {
        let (table, word) = (chain(states), vec![1; letters]);
        let frames = limits::stack_frames(letters, states.into());
        let written = limits::output_letters(letters, states.into());
        let (answer, run) = first_call(&table, &word, frames, written);
        assert!(matches!(answer, Answer::Found { length, .. } if length == written));
        assert_eq!(run.depth as usize, frames);
        let (answer, run) = first_call(&table, &word, frames - 1, written);
        assert_eq!(refusal(answer), Some(Refusal::StackFull));
        assert_eq!(run.depth as usize, frames - 1);
        if written > 0 {
            let (answer, run) = first_call(&table, &word, frames, written - 1);
            assert_eq!(refusal(answer), Some(Refusal::OutputFull));
            assert_eq!(run.depth as usize, written); // enough for the refused step
        }
    }
}

#[test]
fn a_refused_search_goes_on_with_more() {
    let (table, word) = (chain(4), [1, 1]);
    let mut run = Run::default();
    let started = lending::start(
        &table,
        SYNTHESIS,
        limits::MOST_CEILING,
        &word,
        &[],
        &mut run,
    );
    started.done().expect("a search");
    let (mut stack, mut output) = (vec![0; limits::FRAME_CELLS], vec![]);
    let mut refused = Vec::new();
    let (steps, length) = loop {
        let reply = lending::next(&table, &word, &[], &mut run, &mut stack, 1_000, &mut output);
        match reply.answer() {
            Answer::Found { steps, length } => break (steps, length),
            Answer::Refused { refusal, .. } => refused.push(refusal),
            other => panic!("{other:?}"),
        }
        match refused.last() {
            Some(Refusal::StackFull) => stack.resize(stack.len() + limits::FRAME_CELLS, 9),
            Some(Refusal::OutputFull) => output.resize(run.depth as usize, 9),
            other => panic!("{other:?}"),
        }
    };
    assert_eq!((steps, length, &output[..]), (1, 11, &[1; 11][..]));
    assert_eq!(refused.len(), 12);
    assert_eq!(
        refused.iter().position(|r| *r == Refusal::OutputFull),
        Some(11)
    );
}

/// With no task a start is refused; the lent run is as it was.
#[test]
fn any_number_may_be_given_as_task() {
    for task in [0, 4, 1 << 8 | 2, u32::MAX] {
        let mut run = Run::of(77);
        let reply = lending::start(&chain(2), task, 0, &[], &[], &mut run);
        assert_eq!(reply.done().unwrap_err().refusal, Refusal::TaskFault);
        assert_eq!(run, Run::of(77));
    }
}

/// A ceiling up to 100,000 is set; one over it is refused, and leaves the lent run as it was.
#[test]
fn any_number_may_be_given_as_ceiling() {
    for ceiling in [0, 1, 65_536, 99_999, 100_000] {
        let mut run = Run::of(77);
        let reply = lending::start(&chain(2), SYNTHESIS, ceiling, &[], &[], &mut run);
        assert_eq!(reply.done(), Ok(()));
        assert_eq!(run, Run::under(SYNTHESIS, ceiling));
    }
    for ceiling in [100_001, 131_072, 1 << 31, u32::MAX] {
        let mut run = Run::of(77);
        let reply = lending::start(&chain(2), SYNTHESIS, ceiling, &[], &[], &mut run);
        assert_eq!(reply.done().unwrap_err().refusal, Refusal::CeilingLimit);
        assert_eq!(run, Run::of(77));
    }
}

/// A list of one reading whose letters are all 1, as it is lent.
fn one_reading(letters: u16) -> Vec<u8> {
    let mut list = letters.to_be_bytes().to_vec();
    list.resize(list.len() + usize::from(letters), 1);
    list
}

/// Faces that the call takes.
fn faces() -> [u8; limits::FACES] {
    std::array::from_fn(|k| b'!' + k as u8)
}

#[test]
fn a_sheet_has_the_bytes_that_it_needs() {
    for letters in [0, 1, 66, 67, 132, 133, u16::MAX] {
        let size = limits::sheet_size(limits::reading_lines(letters.into()));
        let mut sheet = vec![0; size];
        let list = one_reading(letters);
        let reply = lending::sheet_write(&list, &faces(), 1, &mut sheet);
        assert_eq!(reply.done(), Ok(size));
        let reply = lending::sheet_write(&list, &faces(), 1, &mut sheet[1..]);
        assert_eq!(reply.done(), Err(Refusal::DestinationShort));
        let reply = lending::sheet_write(&list, &[b'x'; limits::FACES], 1, &mut sheet[1..]);
        assert_eq!(reply.done(), Err(Refusal::SheetFault));
    }
}

/// The list with the largest table: words of one and of two letters, as many as there are states but the root.
fn most_words() -> Vec<u8> {
    let words = (1..=5).flat_map(|first| {
        let longer = (1..=limits::MOST_LISTED_LETTER).map(move |next| vec![2, first, next]);
        std::iter::once(vec![1, first]).chain(longer)
    });
    words.take(limits::MOST_STATES - 1).flatten().collect()
}

#[test]
fn a_list_has_the_cells_that_it_needs() {
    let list = most_words();
    for (words, size) in [
        (&[][..], limits::table_cells(1, 0, 0)),
        (&[1, 9], limits::table_cells(1, 1, 2)),
        (&[1, 9, 3, 9, 9, 9], limits::table_cells(1, 2, 5)),
        (&list, limits::TREE_CELLS),
    ] {
        let mut table = vec![0; size];
        assert_eq!(lending::words_read(words, &mut table).done(), Ok(size));
        assert_eq!(table[0], table[3] - table[2] + 1); // a tree
        let reply = lending::words_read(words, &mut table[1..]);
        assert_eq!(reply.done(), Err(Refusal::DestinationShort));
        let bad = [words, &[0]].concat(); // a word of no letters
        let reply = lending::words_read(&bad, &mut table[1..]);
        assert_eq!(reply.done(), Err(Refusal::ListedWord));
    }
}

/// All six calls, on the largest chain, the list with the largest table and the longest reading of a sheet.
fn all_calls() {
    let (table, word) = (chain(256), [1; 64]);
    let mut text = vec![0; limits::TEXT_BYTES];
    let length = lending::table_write(&table, &mut text).done();
    text.truncate(length.expect("a table's text"));
    let mut cells = vec![0; limits::TABLE_CELLS];
    let length = lending::table_read(&text, &mut cells).done();
    assert_eq!(cells[..length.expect("a text's table")], table);
    let (answer, _) = first_call(&cells, &word, limits::stack_frames(64, 256), 16_639);
    assert!(matches!(answer, Answer::Found { length: 16_639, .. }));
    let length = lending::words_read(&most_words(), &mut cells).done();
    assert_eq!(length, Ok(limits::TREE_CELLS));
    let mut sheet = vec![0; limits::sheet_size(993)];
    let written = lending::sheet_write(&one_reading(u16::MAX), &faces(), 0, &mut sheet).done();
    assert_eq!(written, Ok(sheet.len()));
}

#[test]
fn a_thread_of_64_kib() {
    let thread = std::thread::Builder::new().stack_size(64 << 10);
    let calls = thread.spawn(all_calls).expect("a thread");
    calls.join().expect("all is found");
}
