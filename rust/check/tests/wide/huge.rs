//! Lengths of more than 32 bits, of every slice that is lent.
use crate::inputs::k;
use crate::narrow::Boundary;
use crate::narrow::Cut::{self, Low};
use crate::narrow::Part::*;
use crate::{Checked, is, tells};
use readings_check::answer::{Answer, Run};
use readings_check::compare::page::Page;
use readings_check::engine::{Engine, Next, Sheets, Start, Texts, Trees};
use readings_check::query::MOST_CEILING;
use readings_check::text::K;
use reserved::Reserved;

/// Cells in memory that is reserved and reads as zeros. It costs nothing where it is not touched.
mod reserved {
    use std::ffi::c_void;
    use std::io::Error;
    use std::ops::{Deref, DerefMut};
    use std::{ptr, slice};

    unsafe extern "C" {
        fn mmap(
            at: *mut c_void,
            n: usize,
            access: i32,
            kind: i32,
            file: i32,
            from: i64,
        ) -> *mut c_void;
        fn munmap(at: *mut c_void, n: usize) -> i32;
    }

    /// For reading and writing; private, of no file, and not counted as memory in use (Linux).
    const ACCESS: i32 = 0x3;
    const KIND: i32 = 0x4022;

    pub struct Reserved<T: Copy> {
        cells: *mut T,
        length: usize,
    }

    impl<T: Copy + From<u8>> Reserved<T> {
        /// These cells, then zeros.
        pub fn new(front: &[T], length: usize) -> Reserved<T> {
            let bytes = length * size_of::<T>();
            // SAFETY: new memory is asked for, at no place that anything uses.
            let at = unsafe { mmap(ptr::null_mut(), bytes, ACCESS, KIND, -1, 0) };
            let failed = at.addr() == usize::MAX;
            assert!(!failed, "{bytes} bytes: {}", Error::last_os_error());
            let cells = at.cast();
            let mut reserved = Reserved { cells, length };
            reserved[..front.len()].copy_from_slice(front);
            reserved
        }
    }

    impl<T: Copy> Deref for Reserved<T> {
        type Target = [T];

        fn deref(&self) -> &[T] {
            // SAFETY: so many cells are mapped until this value is dropped, and zeros are a value of their type.
            unsafe { slice::from_raw_parts(self.cells, self.length) }
        }
    }

    impl<T: Copy> DerefMut for Reserved<T> {
        fn deref_mut(&mut self) -> &mut [T] {
            // SAFETY: as above, and this value alone has them.
            unsafe { slice::from_raw_parts_mut(self.cells, self.length) }
        }
    }

    impl<T: Copy> Drop for Reserved<T> {
        fn drop(&mut self) {
            // SAFETY: the memory was mapped with this length, and nothing borrows it any more.
            unsafe { munmap(self.cells.cast(), self.length * size_of::<T>()) };
        }
    }
}

/// A length: cut to 32 bits or fewer it is 2.
const HUGE: usize = (1 << 32) + 2;

const CUTS: &[Cut] = &[Low(17), Low(24), Low(31), Low(32)];

fn texts(boundary: &Boundary) -> Checked {
    let mut cells = Reserved::new(&[], HUGE);
    is(boundary.read(K.as_bytes(), &mut cells), Answer::done(160))?;
    let mut text = Reserved::new(&[], HUGE);
    is(boundary.write(&k(), &mut text), Answer::done(K.len()))?;
    is(boundary.write(&cells, &mut [0; 200]), Answer::done(K.len()))?;
    let mut text = Reserved::new(K.as_bytes(), HUGE - 2 + K.len());
    text[K.len()] = b'\n'; // an empty line after the end
    is(boundary.read(&text, &mut [0; 160]), Answer::refused(1, 0))
}

#[test]
fn huge_texts() {
    for part in [ReadText, ReadTable, WriteTable, WriteText] {
        tells(texts, part, CUTS);
    }
}

/// A list here is a word of one letter, then words of none.
fn lists(boundary: &Boundary) -> Checked {
    let words = Reserved::new(&[1, 1], HUGE);
    is(boundary.tree(&words, &mut [0; 144]), Answer::refused(30, 0))?;
    let mut cells = Reserved::new(&[], HUGE);
    is(boundary.tree(&[1, 1], &mut cells), Answer::done(144))
}

#[test]
fn huge_lists() {
    for part in [ListWords, ListTable] {
        tells(lists, part, CUTS);
    }
}

/// A word here is letters 01 01, then zeros.
fn starts(engine: &Boundary) -> Checked {
    let (cells, word) = (Reserved::new(&k(), HUGE), Reserved::new(&[1, 1], HUGE));
    let start = |table: &[u16], task: u32, upper: &[u8], lower: &[u8]| {
        let mut run = Run::default();
        let start = Start {
            table,
            task,
            ceiling: MOST_CEILING,
            upper,
            lower,
        };
        engine.start(start, &mut run).answer
    };
    is(start(&cells, 2, &[1, 2], &[]), Answer::done(0))?;
    is(start(&k(), 2, &word, &[]), Answer::refused(10, 0))?;
    is(start(&k(), 3, &[], &word), Answer::refused(10, 0))
}

#[test]
fn huge_starts() {
    for part in [StartTable, StartUpper, StartLower] {
        tells(starts, part, CUTS);
    }
}

fn calls(engine: &Boundary) -> Checked {
    let next = |table: &[u16], words: [&[u8]; 2], stack: &mut [u32], output: &mut [u8]| {
        let mut run = Run::of(if words[1].is_empty() { 2 } else { 3 });
        engine.next(Next {
            table,
            upper: words[0],
            lower: words[1],
            run: &mut run,
            stack,
            allowance: 9,
            output,
        })
    };
    let (words, found): ([&[u8]; 2], _) = ([&[1, 2], &[]], Answer::found(3, 2));
    let (mut stack, mut output) = ([9; 45], [0; 8]);
    let cells = Reserved::new(&k(), HUGE);
    is(next(&cells, words, &mut stack, &mut output), found)?;
    let mut long = Reserved::new(&[], HUGE + 2);
    is(next(&k(), words, &mut long, &mut output), found)?;
    let mut long = Reserved::new(&[], HUGE - 1);
    is(next(&k(), words, &mut stack, &mut long), found)?;
    let word = Reserved::new(&[1, 1], HUGE);
    for words in [[&*word, &[]], [&[], &*word]] {
        let answer = next(&k(), words, &mut stack, &mut output);
        is(answer, Answer::refused(10, 0))?;
    }
    Ok(())
}

#[test]
fn huge_calls() {
    for part in [NextTable, NextUpper, NextLower, NextStack, NextOutput] {
        tells(calls, part, CUTS);
    }
}

/// A list of zeros is of empty readings, far too many here.
fn sheets(boundary: &Boundary) -> Checked {
    let page = Page::of_lengths([0]);
    let list = Reserved::new(&[], HUGE);
    let answer = boundary.sheet(page.sheet(&list), &mut [0; 219]);
    is(answer, Answer::refused(33, 0))?;
    let mut text = Reserved::new(&[], HUGE);
    let answer = boundary.sheet(page.sheet(&page.lent()), &mut text);
    is(answer, Answer::done(219))
}

#[test]
fn huge_sheets() {
    for part in [SheetReadings, SheetText] {
        tells(sheets, part, CUTS);
    }
}
