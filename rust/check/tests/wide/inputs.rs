//! Tables, tasks and words of wide values, for any call that takes them.
use crate::{Checked, is};
use readings_check::answer::Answer;
use readings_check::table::{Arc, Table};
use readings_check::text::{self, K};

/// A length: cut to 8, 13 or 16 bits it is 2.
pub const WIDE: usize = 65_536 + 2;

/// What a call answers, as model and library agree on, or what differs.
type Told = Result<Answer, String>;

/// The cells of table K.
pub fn k() -> Vec<u16> {
    text::parse(K.as_bytes()).expect("table K").cells()
}

/// The largest table: 256 states, all of them initial and terminal, eight classes of 16 letters, and 1,024 arcs with penalties, every
/// fourth one of a class.
pub fn largest() -> Table {
    let arcs = (0..1_024).map(|k| match k % 4 {
        3 => Arc::of_class(k / 4, k / 4 % 8, 255 - k / 4).with_penalty(255),
        letter => Arc::new(k / 4, 1 + letter, 63, 255 - k / 4).with_penalty(1 + letter),
    });
    Table {
        states: 256,
        classes: std::array::from_fn(|_| (48..64).collect()),
        initials: (0..256).collect(),
        terminals: (0..256).collect(),
        arcs: arcs.collect(),
    }
}

/// The largest table passes, also with stale cells after it; a high bit in any cell of table K gives 20.
pub fn tables(call: impl Fn(Vec<u16>) -> Told, passes: Answer) -> Checked {
    let mut cells = largest().cells();
    is(call(cells.clone())?, passes)?;
    cells.resize(WIDE, 0x5A5A);
    is(call(cells)?, passes)?;
    for at in 0..k().len() {
        for bit in 8..16 {
            let mut cells = k();
            cells[at] += 1 << bit;
            is(call(cells)?, Answer::refused(20, 0))?;
        }
    }
    Ok(())
}

/// A task with a high bit gives 11.
pub fn tasks(call: impl Fn(u32) -> Told) -> Checked {
    for task in 1..=3 {
        for bit in 2..32 {
            is(call(task + (1 << bit))?, Answer::refused(11, 0))?;
        }
    }
    is(call(u32::MAX)?, Answer::refused(11, 0))
}

/// Words that are too long give 10, and 11 on a side that the task does not read; two of 64 letters pass.
pub fn words(call: impl Fn(u32, Vec<u8>, Vec<u8>) -> Told, passes: Answer) -> Checked {
    for (task, upper, lower, number) in [
        (1, 65, 0, 10),
        (1, 0, 65, 10),
        (1, 64, WIDE, 10),
        (1, WIDE, 64, 10),
        (2, WIDE, 0, 10),
        (3, 0, WIDE, 10),
        (2, 1, 65_536, 11),
        (3, 65_536, 1, 11),
    ] {
        let answer = call(task, vec![1; upper], vec![1; lower])?;
        is(answer, Answer::refused(number, 0))?;
    }
    is(call(1, vec![1; 64], vec![1; 64])?, passes)
}
