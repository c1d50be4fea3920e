//! Faults of classes, or nearly: in loaded tables, and in the lines of a text.
use crate::random::Random;
use crate::text;
use readings::limits::{ARC_CELLS, CLASS_LETTERS, CLASSES_AT, INITIALS_AT, MOST_CLASSES};

/// Letters of arcs at the edges of the rules.
const LETTERS: [u8; 14] = [0, 1, 2, 62, 63, 64, 65, 66, 70, 71, 72, 73, 128, 255];

/// A cell of a table: one of its classes' now and then, for they are many.
pub fn some_cell(random: &mut Random, cells: &[u16]) -> usize {
    if cells.len() <= INITIALS_AT {
        return random.below(cells.len());
    }
    if random.one_in(6) {
        return random.within(CLASSES_AT, INITIALS_AT - 1);
    }
    let others = (0..CLASSES_AT).chain(INITIALS_AT..cells.len());
    let others: Vec<usize> = others.collect();
    *random.pick(&others)
}

/// A class cleared or begun, a letter of one changed, two exchanged; or a letter of an arc changed, on one side or on both.
pub fn damage_cells(random: &mut Random, cells: &mut [u16]) {
    if cells.len() <= INITIALS_AT {
        return;
    }
    let row = CLASSES_AT + CLASS_LETTERS * random.below(MOST_CLASSES);
    let last = *random.pick(&[2, CLASS_LETTERS]) - 1;
    let at = row + random.below(last);
    match random.below(6) {
        0 => cells[row..row + CLASS_LETTERS].fill(0),
        1 => cells[row] = random.within(1, 63) as u16,
        2 => cells[at] = *random.pick(&[0, 1, 2, 62, 63, 64, 65, 257, 65_535]),
        3 => cells.swap(at, at + 1),
        _ => damage_arc_cells(random, cells),
    }
}

/// Where the cells of an arc stand, as the counts have it.
pub fn some_arc(random: &mut Random, cells: &[u16]) -> usize {
    let count = |k: usize| usize::from(cells[k]);
    let arc = random.below(count(3).max(1));
    INITIALS_AT + count(1) + count(2) + ARC_CELLS * arc
}

/// The letters of an arc; it may lie beyond the end, and then nothing is changed.
fn damage_arc_cells(random: &mut Random, cells: &mut [u16]) {
    let at = some_arc(random, cells);
    let letter = u16::from(*random.pick(&LETTERS));
    if let Some([_, upper, lower, ..]) = cells.get_mut(at..at + ARC_CELLS) {
        match random.below(3) {
            0 => *upper = letter,
            1 => *lower = letter,
            _ => (*upper, *lower) = (letter, letter),
        }
    }
}

/// The lines of a text as bytes; one that is malformed has none.
pub fn split(source: &[u8]) -> Vec<Vec<u8>> {
    let lines = text::lines(source).map(|line| text::line_bytes(line).unwrap_or_default());
    lines.collect()
}

pub fn joined(lines: &[Vec<u8>]) -> Vec<u8> {
    lines.iter().flat_map(|bytes| text::line(bytes)).collect()
}

/// A class line changed, or put in.
pub fn damage_class_line(random: &mut Random, source: &mut Vec<u8>) {
    let mut lines = split(source);
    let of_class = (0..lines.len()).filter(|at| lines[*at].first() == Some(&6));
    let of_class: Vec<usize> = of_class.collect();
    if !of_class.is_empty() && random.one_in(2) {
        let at = *random.pick(&of_class);
        spoil(random, &mut lines[at]);
    } else {
        put_class_line(random, &mut lines);
    }
    *source = joined(&lines);
}

/// A class line put near the header, with the lines counted again or not.
fn put_class_line(random: &mut Random, lines: &mut Vec<Vec<u8>>) {
    let most = *random.pick(&[1, 2, 9]);
    let at = random.within(0, lines.len().min(most));
    lines.insert(at, class_line(random));
    let before = lines.len() as u16 - 1;
    if random.one_in(2)
        && let Some([5, high, low]) = lines.last_mut().map(Vec::as_mut_slice)
    {
        [*high, *low] = before.to_be_bytes();
    }
}

/// A line of a class, mostly a good one.
fn class_line(random: &mut Random) -> Vec<u8> {
    let class = random.below(9) as u8;
    let length = *random.pick(&[0, 1, 1, 2, 3, 15, 16, 17, 18]);
    let first = random.within(1, 48) as u8;
    let mut line = vec![6, class];
    line.extend((0..length).map(|k| first + k));
    if random.one_in(3) {
        spoil(random, &mut line);
    }
    line
}

/// A class or a letter changed, a letter put after the others or taken off, two exchanged.
fn spoil(random: &mut Random, line: &mut Vec<u8>) {
    let at = random.within(1, line.len().max(2) - 1);
    match random.below(5) {
        _ if line.len() < 3 => line.push(1),
        0 => line[1] = *random.pick(&[0, 1, 6, 7, 8, 9, 255]),
        1 => line[at] = *random.pick(&LETTERS),
        2 => line.push(*random.pick(&LETTERS)),
        3 => _ = line.pop(),
        _ => line.swap(at, 2),
    }
}

/// Whether the bytes are those of an arc's line, with or without a penalty.
pub fn is_arc(bytes: &[u8]) -> bool {
    matches!((bytes.first(), bytes.len()), (Some(4), 7) | (Some(7), 8))
}

/// Some parts of an arc's line changed.
pub fn damage_arc_line(random: &mut Random, source: &mut Vec<u8>) {
    let mut lines = split(source);
    let is_arc = |bytes: &&mut Vec<u8>| is_arc(bytes);
    let mut arcs: Vec<&mut Vec<u8>> = lines.iter_mut().filter(is_arc).collect();
    if arcs.is_empty() {
        return;
    }
    let at = random.below(arcs.len());
    for _ in 0..random.within(1, 4) {
        match random.below(5) {
            0 => arcs[at][2] = random.below(4) as u8,
            1 => arcs[at][6] = *random.pick(&[0, 1, 255]),
            2 => arcs[at][3] = *random.pick(&LETTERS),
            3 => arcs[at][4] = *random.pick(&LETTERS),
            _ => arcs[at][4] = arcs[at][3],
        }
    }
    *source = joined(&lines);
}
