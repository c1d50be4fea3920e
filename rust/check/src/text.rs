//! A table's text, read and written: one item a line, two capital digits a byte, a line feed after each.
use crate::answer::Answer;
use crate::rules;
use crate::table::{Arc, Classes, Table};
use std::iter::Peekable;

/// The text of document 01's table K.
pub const K: &str = "010003000100020005\n020000\n030001\n030002\n\
                     04000001010001\n04000002020002\n04000102020002\n\
                     04000100030000\n04000200030000\n050009\n";

/// The bytes that a line says; none where it is malformed (1). The line has its line feed with it, if it has one.
pub fn line_bytes(line: &[u8]) -> Option<Vec<u8>> {
    let digits = line.strip_suffix(b"\n")?;
    if digits.is_empty() || digits.len() % 2 == 1 {
        return None;
    }
    let value = |c: u8| match c {
        b'0'..=b'9' => Some(c - b'0'),
        b'A'..=b'F' => Some(c - b'A' + 10),
        _ => None,
    };
    digits
        .chunks(2)
        .map(|pair| Some(value(pair[0])? * 16 + value(pair[1])?))
        .collect()
}

/// The line of some bytes.
pub fn line(bytes: &[u8]) -> Vec<u8> {
    let mut text = String::new();
    for b in bytes {
        text += &format!("{b:02X}");
    }
    text.push('\n');
    text.into_bytes()
}

/// The lines of a text, each with its line feed; the last may lack it.
pub fn lines(text: &[u8]) -> impl Iterator<Item = &[u8]> {
    text.split_inclusive(|c| *c == b'\n')
}

fn number(bytes: &[u8], at: usize) -> u16 {
    u16::from_be_bytes([bytes[at], bytes[at + 1]])
}

/// The next line's bytes: 2 where there is none, then 1.
fn next_bytes<'a>(lines: &mut impl Iterator<Item = &'a [u8]>) -> Result<Vec<u8>, u32> {
    line_bytes(lines.next().ok_or(2u32)?).ok_or(1)
}

/// The same, and 2 where it has not this kind and length.
fn item<'a>(
    lines: &mut impl Iterator<Item = &'a [u8]>,
    kind: u8,
    length: usize,
) -> Result<Vec<u8>, u32> {
    let bytes = next_bytes(lines)?;
    if bytes[0] == kind && bytes.len() == length {
        Ok(bytes)
    } else {
        Err(2)
    }
}

/// The arc of the next line, of either kind: the second has a penalty, which is not 0.
fn arc<'a>(lines: &mut impl Iterator<Item = &'a [u8]>) -> Result<Arc, u32> {
    let bytes = next_bytes(lines)?;
    let penalty = match (bytes[0], bytes.len(), bytes[bytes.len() - 1]) {
        (4, 7, _) => 0,
        (7, 8, penalty) if penalty != 0 => penalty.into(),
        _ => return Err(2),
    };
    let (upper, lower) = (bytes[3].into(), bytes[4].into());
    let arc = Arc::new(number(&bytes, 1), upper, lower, number(&bytes, 5));
    Ok(arc.with_penalty(penalty))
}

fn kept(fault: Option<u32>) -> Result<(), u32> {
    fault.map_or(Ok(()), Err)
}

/// The classes of the next lines, as many as have this kind: 2 for a line's length, then 34.
fn classes<'a>(lines: &mut Peekable<impl Iterator<Item = &'a [u8]>>) -> Result<Classes, u32> {
    let mut classes = Classes::default();
    while let Some(bytes) = lines.peek().and_then(|line| line_bytes(line))
        && bytes[0] == 6
    {
        if !(3..=18).contains(&bytes.len()) {
            return Err(2);
        }
        let number = u16::from(bytes[1]);
        let letters: Vec<u16> = bytes[2..].iter().map(|x| u16::from(*x)).collect();
        kept(rules::class(&classes, number, &letters))?;
        classes[usize::from(number)] = letters;
        lines.next();
    }
    Ok(classes)
}

/// How many lines stand before the end line.
fn lines_before(table: &Table) -> usize {
    let defined = table.classes.iter().filter(|letters| !letters.is_empty());
    1 + defined.count() + table.initials.len() + table.terminals.len() + table.arcs.len()
}

/// A text's table, or the number that its first bad line earns.
pub fn parse(text: &[u8]) -> Result<Table, u32> {
    parse_in(text, rules::ORDER)
}

/// The same, where the numbers of an arc are looked for in this order.
pub fn parse_in(text: &[u8], order: [u32; 5]) -> Result<Table, u32> {
    let mut lines = lines(text).peekable();
    let header = item(&mut lines, 1, 9)?;
    let count = |k: usize| number(&header, 1 + 2 * k);
    kept(rules::counts(count(0), count(1), count(2), count(3)))?;
    let mut table = Table {
        states: count(0),
        classes: classes(&mut lines)?,
        ..Table::default()
    };
    for _ in 0..count(1) {
        let state = number(&item(&mut lines, 2, 3)?, 1);
        kept(rules::initial(table.states, &table.initials, state))?;
        table.initials.push(state);
    }
    for _ in 0..count(2) {
        let state = number(&item(&mut lines, 3, 3)?, 1);
        kept(rules::terminal(table.states, &table.terminals, state))?;
        table.terminals.push(state);
    }
    for _ in 0..count(3) {
        let arc = arc(&mut lines)?;
        kept(rules::arc(&table, arc, order))?;
        table.arcs.push(arc);
    }
    let end = item(&mut lines, 5, 3)?;
    if usize::from(number(&end, 1)) != lines_before(&table) {
        return Err(9);
    }
    match lines.next() {
        None => Ok(table),
        Some(line) => Err(if line_bytes(line).is_none() { 1 } else { 2 }),
    }
}

/// A kind and a number of two bytes.
fn numbered(kind: u8, number: u16) -> Vec<u8> {
    let [high, low] = number.to_be_bytes();
    line(&[kind, high, low])
}

/// A table's text.
pub fn print(table: &Table) -> Vec<u8> {
    let counts = [
        table.states as usize,
        table.initials.len(),
        table.terminals.len(),
        table.arcs.len(),
    ];
    let mut header = vec![1];
    for count in counts {
        header.extend((count as u16).to_be_bytes());
    }
    let mut text = line(&header);
    for (class, letters) in (0..).zip(&table.classes) {
        if !letters.is_empty() {
            let letters = letters.iter().map(|x| *x as u8);
            text.extend(line(&Vec::from_iter([6, class].into_iter().chain(letters))));
        }
    }
    for state in &table.initials {
        text.extend(numbered(2, *state));
    }
    for state in &table.terminals {
        text.extend(numbered(3, *state));
    }
    for arc in &table.arcs {
        let mut bytes = vec![if arc.penalty == 0 { 4 } else { 7 }];
        bytes.extend(arc.source.to_be_bytes());
        bytes.extend([arc.upper as u8, arc.lower as u8]);
        bytes.extend(arc.target.to_be_bytes());
        bytes.extend((arc.penalty != 0).then_some(arc.penalty as u8));
        text.extend(line(&bytes));
    }
    text.extend(numbered(5, lines_before(table) as u16));
    text
}

/// What is to be written, to the front of a destination: 24 where it is too short.
pub fn deliver<T: Copy>(all: &[T], destination: &mut [T]) -> Answer {
    match destination.get_mut(..all.len()) {
        None => Answer::refused(24, 0),
        Some(front) => {
            front.copy_from_slice(all);
            Answer::done(all.len())
        }
    }
}

/// Text to cells: the text's refusals, then 24.
pub fn read(text: &[u8], destination: &mut [u16]) -> Answer {
    read_in(text, rules::ORDER, destination)
}

/// The same, where the numbers of an arc are looked for in this order.
pub fn read_in(text: &[u8], order: [u32; 5], destination: &mut [u16]) -> Answer {
    match parse_in(text, order) {
        Err(number) => Answer::refused(number, 0),
        Ok(table) => deliver(&table.cells(), destination),
    }
}

/// Cells to text: 20, then 24.
pub fn write(cells: &[u16], destination: &mut [u8]) -> Answer {
    match Table::loaded(cells) {
        None => Answer::refused(20, 0),
        Some(table) => deliver(&print(&table), destination),
    }
}
