//! A table's text read and written: the answer and every cell of the destination.
use super::tally::Tally;
use super::{about, classes, filled, penalties, same};
use crate::answer::{Answer, DONE};
use crate::draw;
use crate::engine::Texts;
use crate::model::Model;
use crate::random::Random;
use crate::text;

/// Reads a text into a destination of so many cells.
pub fn read(texts: &impl Texts, source: &[u8], cells: usize) -> Result<Answer, String> {
    let read = |text: &[u8], table: &mut [u16]| texts.read(text, table);
    let model = |text: &[u8], table: &mut [u16]| Model.read(text, table);
    filled::compare(source, cells, model, read).map_err(|difference| {
        let source = String::from_utf8_lossy(source);
        format!("{difference}, reading to {cells} cells {source:?}")
    })
}

/// Writes a table into a destination of so many bytes.
pub fn write(texts: &impl Texts, source: &[u16], bytes: usize) -> Result<Answer, String> {
    let write = |table: &[u16], text: &mut [u8]| texts.write(table, text);
    let model = |table: &[u16], text: &mut [u8]| Model.write(table, text);
    filled::compare(source, bytes, model, write)
        .map_err(|difference| format!("{difference}, writing to {bytes} bytes {source:?}"))
}

/// A random table written, and the text read back.
pub fn round_trip(
    texts: &impl Texts,
    random: &mut Random,
    tally: &mut Tally,
) -> Result<(), String> {
    let task = random.within(1, 3) as u32;
    let table = draw::table(random, task, false);
    let (cells, source) = (table.cells(), text::print(&table));
    let mut bytes = vec![0; source.len()];
    let mut back = vec![0; cells.len()];
    let written = texts.write(&cells, &mut bytes);
    let answer = texts.read(&bytes, &mut back);
    same("text", &bytes, &source)?;
    same("table", &back, &cells)?;
    same("written", written, Answer::done(source.len()))?;
    same("read", answer, Answer::done(cells.len()))?;
    tally.add(answer);
    tally.add(write(texts, &cells, about(random, source.len()))?);
    tally.add(read(texts, &source, about(random, cells.len()))?);
    Ok(())
}

/// A character of a text changed, put in or taken out; a line doubled, taken out or exchanged with the next; an end cut off or put on; a
/// fault in the line of a class or an arc, or of its penalty.
fn damage(random: &mut Random, source: &mut Vec<u8>) {
    let digits = b"0123456789ABCDEF";
    let others = b"abcfgG :/@`\n\r\0\x7F\xFF";
    if source.is_empty() {
        return;
    }
    let at = random.below(source.len());
    match random.below(15) {
        0..=2 => source[at] = *random.pick(digits),
        3 => source[at] = *random.pick(others),
        4 => source.insert(at, *random.pick(digits)),
        5 => _ = source.remove(at),
        6 => source.truncate(at),
        7 => {
            let more: [&[u8]; 5] = [b"\n", b"05", b"050001\n", b"0G\n", b"01000100\n"];
            source.extend(*random.pick(&more));
        }
        8 => damage_lines(random, source),
        9 | 10 => classes::damage_class_line(random, source),
        11 | 12 => penalties::damage_line(random, source),
        _ => classes::damage_arc_line(random, source),
    }
}

fn damage_lines(random: &mut Random, source: &mut Vec<u8>) {
    let mut lines: Vec<&[u8]> = text::lines(source).collect();
    let at = random.below(lines.len());
    match random.below(3) {
        0 => _ = lines.remove(at),
        1 => lines.insert(at, lines[at]),
        _ if at + 1 < lines.len() => lines.swap(at, at + 1),
        _ => {}
    }
    *source = lines.concat();
}

/// A random table's text with one to three damages, or anything, read.
pub fn damaged(texts: &impl Texts, random: &mut Random, tally: &mut Tally) -> Result<(), String> {
    let task = random.within(1, 3) as u32;
    let table = draw::table(random, task, false);
    let mut source = text::print(&table);
    for _ in 0..random.within(1, 3) {
        damage(random, &mut source);
    }
    if random.one_in(20) {
        let bytes = (0..random.below(60)).map(|_| random.below(256) as u8);
        source = bytes.collect();
    }
    let answer = read(texts, &source, about(random, table.cells().len()))?;
    tally.add(answer);
    if answer.kind == DONE {
        return Ok(());
    }
    let mut cells = table.cells();
    let at = classes::some_cell(random, &cells);
    match random.below(6) {
        0 => cells[at] = random.below(300) as u16,
        1 => cells[at] = random.below(4) as u16,
        2 => cells.truncate(at),
        3 => penalties::damage_cells(random, &mut cells),
        _ => classes::damage_cells(random, &mut cells),
    }
    tally.add(write(texts, &cells, about(random, source.len()))?);
    Ok(())
}
