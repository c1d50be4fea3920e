//! A word's readings over the table of a list, to the end of their run: all the ways to cut it into listed words, in order.
use super::same;
use super::tally::Tally;
use crate::answer::{Answer, ENDED, FOUND, Run};
use crate::draw::lists;
use crate::engine::{Engine, Next, Start, Trees};
use crate::query::{MOST_CEILING, SYNTHESIS};
use crate::random::Random;
use crate::words;
use readings::limits::{TREE_CELLS, output_letters, stack_cells};

/// The table of a list that keeps the rules.
pub fn table(trees: &impl Trees, list: &[Vec<u8>]) -> Result<Vec<u16>, String> {
    let mut cells = vec![0; TREE_CELLS];
    let answer = trees.tree(&words::packed(list), &mut cells);
    same("answer", answer, Answer::done(answer.length as usize))?;
    cells.truncate(answer.length as usize);
    Ok(cells)
}

/// The readings of the words of a task over a table, until the end is told.
pub fn readings(engine: &impl Engine, start: Start) -> Result<Vec<Vec<u8>>, String> {
    let mut run = Run::default();
    let Start {
        table,
        upper,
        lower,
        ..
    } = start;
    same(
        "start",
        engine.start(start, &mut run).answer,
        Answer::done(0),
    )?;
    let (letters, states) = (upper.len() + lower.len(), table[0].into());
    let mut stack = vec![0; stack_cells(letters, states)];
    let mut output = vec![0; output_letters(letters, states)];
    let mut readings = Vec::new();
    loop {
        let answer = engine.next(Next {
            table,
            upper,
            lower,
            run: &mut run,
            stack: &mut stack,
            allowance: 1_000,
            output: &mut output,
        });
        match answer.kind {
            FOUND => readings.push(output[..answer.length as usize].to_vec()),
            ENDED => return Ok(readings),
            _ if answer.is_refused() => return Err(format!("{answer:?} in a search")),
            _ => {}
        }
    }
}

/// The readings in synthesis of a word over a table.
pub fn synthesis(engine: &impl Engine, table: &[u16], word: &[u8]) -> Result<Vec<Vec<u8>>, String> {
    let start = Start {
        table,
        task: SYNTHESIS,
        ceiling: MOST_CEILING,
        upper: word,
        lower: &[],
    };
    readings(engine, start)
}

/// The readings of a word over the table of a list are its cuts, in order; tells how many there are.
pub fn compare(
    engine: &(impl Trees + Engine),
    list: &[Vec<u8>],
    word: &[u8],
) -> Result<usize, String> {
    let cuts = words::cuts(list, word);
    let check = || {
        let table = table(engine, list)?;
        same("readings", &synthesis(engine, &table, word)?, &cuts)
    };
    check().map_err(|difference| format!("{difference}, of {word:?} over {list:?}"))?;
    Ok(cuts.len())
}

/// A random list that keeps the rules, and a word made of its words, or nearly.
pub fn any(
    engine: &(impl Trees + Engine),
    random: &mut Random,
    tally: &mut Tally,
) -> Result<(), String> {
    let list = lists::few(random);
    let word = lists::nearly_joined(random, &list, 14);
    let count = compare(engine, &list, &word)?;
    tally.add_cuts(count);
    Ok(())
}
