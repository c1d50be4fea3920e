//! The proved library's answer sheets, against the layout and read back; and what a sheet is, line by line.
use readings_check::answer::{Answer, DONE};
use readings_check::compare::fixed;
use readings_check::compare::page::Page;
use readings_check::compare::sheets;
use readings_check::draw;
use readings_check::engine::Sheets;
use readings_check::library::Library;
use readings_check::model::Model;
use readings_check::random::Random;
use readings_check::sheet;
use readings_check::twin::SOUND;
use std::collections::{BTreeSet, HashMap};
use std::slice::from_ref;

fn agreed<T>(result: Result<T, String>) -> T {
    result.unwrap_or_else(|difference| panic!("{difference}"))
}

/// The sheet of a page that is not refused.
fn written(sheets: &impl Sheets, page: &Page) -> Vec<u8> {
    let (lent, mut bytes) = (page.lent(), vec![0; page.size()]);
    let answer = sheets.sheet(page.sheet(&lent), &mut bytes);
    assert_eq!(answer, Answer::done(bytes.len()), "on {page:?}");
    bytes
}

/// The lines of a page's sheet, all of 72 characters, without the blanks at their ends.
fn lines(sheets: &impl Sheets, page: &Page) -> Vec<String> {
    let sheet = String::from_utf8(written(sheets, page)).expect("text");
    let lines: Vec<&str> = sheet.split_terminator('\n').collect();
    assert!(sheet.ends_with('\n') && lines.iter().all(|line| line.len() == 72));
    lines.iter().map(|line| line.trim_end().into()).collect()
}

#[test]
fn sizes_agree() {
    agreed(sheets::sizes(&Library));
}

#[test]
fn faults_agree() {
    agreed(sheets::faults(&Library));
}

#[test]
fn random_sheets_agree() {
    let tally = agreed(fixed::sheets(&Library));
    tally.demand(1_000, &[DONE], &[24, 33]);
}

/// Readings in small letters and bars.
fn in_words(list: &[&str]) -> Page {
    let letter = |c: u8| if c == b'|' { 63 } else { c - b'a' + 1 };
    let list = list.iter().map(|word| word.bytes().map(letter).collect());
    Page {
        faces: *sheet::SMALL_LETTERS,
        ..Page::new(list.collect())
    }
}

/// What stands on the lines, letter by letter.
fn as_seen(sheets: &impl Sheets) {
    let page = in_words(&["staub|ecken", "stau|becken"]);
    let expected = ["READINGS", "    1 staub|ecken", "    2 stau|becken", "END"];
    assert_eq!(lines(sheets, &page), expected);
    let page = Page { ended: 0, ..page };
    assert_eq!(lines(sheets, &page)[3], "MORE");
    let none = Page::new(vec![]);
    assert_eq!(lines(sheets, &none), ["READINGS", "END"]);
    let (row, rows) = ("z".repeat(66), "z".repeat(132));
    let more = [&rows[..], "a"].concat();
    let expected = [
        "READINGS",
        "    1",
        &format!("    2 {row}"),
        &format!("    3 {row}"),
        &format!("      {row}"),
        &format!("    4 {row}"),
        &format!("      {row}"),
        "      a",
        "    5",
        "END",
    ];
    let page = in_words(&["", &row, &rows, &more, ""]);
    assert_eq!(lines(sheets, &page), expected);
}

/// Each ordinal stands where it must, the widest too.
fn ordinals(sheets: &impl Sheets) {
    let lines = lines(sheets, &in_words(&["b"; 1_000]));
    for (ordinal, line) in [
        (1, "    1 b"),
        (9, "    9 b"),
        (10, "   10 b"),
        (99, "   99 b"),
        (100, "  100 b"),
        (999, "  999 b"),
        (1_000, " 1000 b"),
    ] {
        assert_eq!(lines[ordinal], line);
    }
    assert_eq!(lines.len(), 1_002);
}

#[test]
fn the_library_writes_what_a_person_sees() {
    as_seen(&Library);
    ordinals(&Library);
}

#[test]
fn the_layout_is_what_a_person_sees() {
    as_seen(&Model);
    ordinals(&Model);
}

#[test]
fn the_twin_writes_what_a_person_sees() {
    as_seen(&SOUND);
    ordinals(&SOUND);
}

/// Lists of up to three readings of up to two letters out of two, and lists whose readings end about lines' ends.
fn different_lists() -> BTreeSet<Vec<Vec<u8>>> {
    let words = ["", "1", "2", "11", "12", "21", "22"];
    let words = words.map(|word| word.bytes().map(|c| c - b'0').collect::<Vec<u8>>());
    let mut lists = BTreeSet::from([vec![]]);
    for _ in 0..3 {
        for list in lists.clone() {
            for word in &words {
                lists.insert([&list[..], from_ref(word)].concat());
            }
        }
    }
    let lengths = [1, 65, 66, 67, 131, 132, 133];
    for a in lengths {
        lists.insert(Page::of_lengths([a]).list);
        lists.extend(lengths.map(|b| Page::of_lengths([a, b]).list));
        lists.extend(lengths.map(|b| Page::of_lengths([a, 0, b]).list));
    }
    lists
}

#[test]
fn two_lists_never_have_the_same_sheet() {
    let mut seen = HashMap::new();
    for list in different_lists() {
        for ended in [0, 1] {
            let page = Page {
                ended,
                ..Page::new(list.clone())
            };
            let sheet = written(&Library, &page);
            let before = seen.insert(sheet, page.clone());
            assert!(before.is_none(), "{before:?} and {page:?}");
        }
    }
    assert!(seen.len() > 1_000, "only {} sheets", seen.len());
}

/// A change of one byte of a sheet makes another list or last word of it, or no sheet at all.
#[test]
fn every_byte_of_a_sheet_counts() {
    for case in 0..50 {
        let mut random = Random::of_case(0xB17E5, case);
        let mut list = draw::readings(&mut random);
        list.truncate(3);
        list.iter_mut().for_each(|reading| reading.truncate(150));
        let faces = draw::faces(&mut random);
        let page = Page {
            faces,
            ..Page::new(list)
        };
        let mut sheet = written(&Library, &page);
        let told = sheet::read(&sheet, &faces);
        assert_eq!(told, Some((page.list, true)));
        for at in 0..sheet.len() {
            let before = sheet[at];
            for other in [b' ', b'\n', b'0', faces[0], faces[62]] {
                sheet[at] = other;
                let same = sheet::read(&sheet, &faces) == told;
                assert_eq!(same, before == other, "byte {at} as {other}");
            }
            sheet[at] = before;
        }
    }
}
