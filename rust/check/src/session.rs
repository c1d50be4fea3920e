//! A session: a table and one query in, the lines of its readings out.
use crate::answer::{ENDED, FOUND, REFUSED, Run};
use crate::engine::{Engine, Next, Start};
use crate::query::MOST_CEILING;
use crate::text;
use readings::limits::FRAME_CELLS;

/// The longest input, in bytes.
pub const LONGEST: usize = 65_536;
const FRAMES: usize = 4_096;
const LETTERS: usize = 4_096;
const ALLOWANCE: u32 = 1_000;
const MOST_READINGS: u16 = 1_000;
const MOST_CALLS: usize = 65_536;

/// A loaded table and what is asked of it.
struct Asked {
    table: Vec<u16>,
    task: u8,
    upper: Vec<u8>,
    lower: Vec<u8>,
}

/// The table's text, through the first line that begins with 05, and the rest.
fn split(input: &[u8]) -> (&[u8], &[u8]) {
    let mut end = 0;
    for line in text::lines(input) {
        end += line.len();
        if line.starts_with(b"05") {
            break;
        }
    }
    input.split_at(end)
}

/// A length and so many letters, from the front of some bytes.
fn word<'a>(bytes: &mut &'a [u8]) -> Option<&'a [u8]> {
    let (length, rest) = bytes.split_first()?;
    let (word, rest) = rest.split_at_checked(usize::from(*length))?;
    *bytes = rest;
    Some(word)
}

/// A query's task and words, where its bytes have the right kind and length.
fn decode(bytes: &[u8]) -> Option<(u8, Vec<u8>, Vec<u8>)> {
    let [0x10, task, rest @ ..] = bytes else {
        return None;
    };
    let mut rest = rest;
    let (upper, lower) = (word(&mut rest)?.to_vec(), word(&mut rest)?.to_vec());
    rest.is_empty().then_some((*task, upper, lower))
}

/// What an input asks: 3 for its length, the table's faults, then the query's.
fn open(input: &[u8]) -> Result<Asked, u32> {
    if input.len() > LONGEST {
        return Err(3);
    }
    let (table, rest) = split(input);
    let table = text::parse(table)?.cells();
    let mut lines = text::lines(rest);
    let bytes = text::line_bytes(lines.next().ok_or(2u32)?).ok_or(1u32)?;
    let (task, upper, lower) = decode(&bytes).ok_or(2u32)?;
    if lines.next().is_some() {
        return Err(2);
    }
    Ok(Asked {
        table,
        task,
        upper,
        lower,
    })
}

fn refusal(number: u32) -> Vec<u8> {
    text::line(&[0x2E, number as u8])
}

fn count(kind: u8, readings: u16) -> Vec<u8> {
    let [high, low] = readings.to_be_bytes();
    text::line(&[kind, high, low])
}

fn reading(ordinal: u16, letters: &[u8]) -> Vec<u8> {
    let mut bytes = vec![0x20];
    bytes.extend(ordinal.to_be_bytes());
    bytes.extend((letters.len() as u16).to_be_bytes());
    bytes.extend(letters);
    text::line(&bytes)
}

/// The readings' lines and the last one.
fn answer(engine: &impl Engine, asked: &Asked, mut run: Run) -> Vec<u8> {
    let (mut stack, mut output) = (vec![0; FRAME_CELLS * FRAMES], vec![0; LETTERS]);
    let (mut lines, mut readings) = (Vec::new(), 0);
    for _ in 0..MOST_CALLS {
        let answer = engine.next(Next {
            table: &asked.table,
            upper: &asked.upper,
            lower: &asked.lower,
            run: &mut run,
            stack: &mut stack,
            allowance: ALLOWANCE,
            output: &mut output,
        });
        match answer.kind {
            FOUND => {
                readings += 1;
                lines.extend(reading(readings, &output[..answer.length as usize]));
                if readings == MOST_READINGS {
                    break;
                }
            }
            ENDED => {
                lines.extend(count(0x2F, readings));
                return lines;
            }
            REFUSED => {
                lines.extend(refusal(answer.number));
                return lines;
            }
            _ => {}
        }
    }
    lines.extend(count(0x2D, readings));
    lines
}

/// What a session prints, over any engine.
pub fn session(engine: &impl Engine, input: &[u8]) -> Vec<u8> {
    let asked = match open(input) {
        Ok(asked) => asked,
        Err(number) => return refusal(number),
    };
    let mut run = Run::default();
    let start = Start {
        table: &asked.table,
        task: asked.task.into(),
        ceiling: MOST_CEILING,
        upper: &asked.upper,
        lower: &asked.lower,
    };
    let started = engine.start(start, &mut run);
    if started.answer.is_refused() {
        return refusal(started.answer.number);
    }
    answer(engine, &asked, run)
}
