//! Answer sheets of readings, as `sheet` gives them.
use readings::{Faces, Refusal, Table, limits, sheet};
use std::iter;

const CHARACTERS: &[u8; limits::FACES] =
    b"abcdefghijklmnopqrstuvwxyzABCDEFGHIJKLMNOPQRSTUVWXYZ0123456789|";

fn faces() -> Faces {
    Faces::new(CHARACTERS).expect("characters that differ")
}

/// The lines of a sheet, each of 72 characters, without the blanks at their ends.
fn lines(sheet: &str) -> Vec<&str> {
    assert!(sheet.ends_with('\n'));
    let lines = sheet.lines().inspect(|line| assert_eq!(line.len(), 72));
    lines.map(str::trim_end).collect()
}

#[test]
fn the_readings_of_a_search() {
    let text = "010001000100010002\n020000\n030000\n04000001020000\n04000001030000\n050005\n";
    let table = Table::read(text).expect("a table");
    let mut search = table.synthesis(&[1, 1]).expect("a search");
    let first = sheet(search.by_ref().take(3), &faces(), false).expect("a sheet");
    let expected = ["READINGS", "    1 bb", "    2 bc", "    3 cb", "MORE"];
    assert_eq!(lines(&first), expected);
    let rest = sheet(search, &faces(), true).expect("a sheet");
    assert_eq!(lines(&rest), ["READINGS", "    1 cc", "END"]);
}

#[test]
fn long_and_empty_readings() {
    let (none, row) = (Vec::new(), vec![63; 66]);
    let longer = [&row[..], &[1]].concat();
    let sheet = sheet([&none, &row, &longer], &faces(), true).expect("a sheet");
    let bars = "|".repeat(66);
    let expected = [
        "READINGS",
        "    1",
        &format!("    2 {bars}"),
        &format!("    3 {bars}"),
        "      a",
        "END",
    ];
    assert_eq!(lines(&sheet), expected);
}

#[test]
fn no_readings() {
    let none: [&[u8]; 0] = [];
    let sheet = sheet(none, &faces(), false).expect("a sheet");
    assert_eq!(lines(&sheet), ["READINGS", "MORE"]);
}

#[test]
fn letters_and_lengths_beyond_the_limits() {
    let of = |reading: &[u8]| sheet([reading], &faces(), true).map(|sheet| sheet.len());
    assert_eq!(of(&[0]), Err(Refusal::SheetFault));
    assert_eq!(of(&[1, 64]), Err(Refusal::SheetFault));
    assert_eq!(of(&[1; limits::MOST_READING]), Ok(limits::sheet_size(993)));
    assert_eq!(of(&[1; limits::MOST_READING + 1]), Err(Refusal::SheetFault));
}

#[test]
fn no_more_readings_are_asked_for_than_needed() {
    let mut asked = 0;
    let readings = iter::repeat_with(|| {
        asked += 1;
        [1]
    });
    let refused = sheet(readings, &faces(), false);
    assert_eq!((refused, asked), (Err(Refusal::SheetFault), 1_001));
    let most = iter::repeat_n([1], limits::MOST_READINGS);
    let sheet = sheet(most, &faces(), false).expect("a sheet");
    assert_eq!(lines(&sheet)[1_000..], [" 1000 a", "MORE"]);
}

#[test]
fn faces_differ_and_are_printable() {
    assert_eq!(faces().characters(), CHARACTERS);
    for character in [b'b', b' ', 127, b'\n', 0, 255] {
        let mut characters = *CHARACTERS;
        characters[62] = character;
        assert_eq!(Faces::new(&characters), Err(Refusal::SheetFault));
    }
}

/// Were the length cut to two bytes, 0, there would be an empty reading, and the letters would be taken for five more.
#[test]
fn a_length_is_not_cut() {
    let mut reading = [vec![51, 49], vec![1; 13_105]].concat().repeat(4);
    reading.extend([51, 50]);
    reading.resize(65_536, 1);
    assert_eq!(sheet([reading], &faces(), true), Err(Refusal::SheetFault));
}
