//! The inputs under examples/ print what stands beside them.
mod common;

use common::{built, from_root, program, run};
use readings::{Search, Table, Task};
use readings_check::german;
use readings_check::model::Model;
use readings_check::session::session;
use readings_check::sheet;
use readings_check::text;
use readings_check::tree;
use std::fs;
use std::path::{Path, PathBuf};
use std::process::Command;

/// The text of an example, or of what it prints.
fn example(name: &str) -> String {
    fs::read_to_string(from_root(&format!("examples/{name}"))).expect("an example")
}

/// Every input of a session with its output. It begins with a table's header; a word list does not.
fn examples() -> Vec<(PathBuf, PathBuf)> {
    let folder = fs::read_dir(from_root("examples")).expect("the folder examples/");
    let mut inputs: Vec<PathBuf> = folder.map(|entry| entry.expect("a file").path()).collect();
    inputs.retain(|path| path.extension().is_some_and(|end| end == "txt"));
    inputs.retain(|path| fs::read(path).expect("an example").starts_with(b"01"));
    inputs.sort();
    let with_output = |path: PathBuf| (path.clone(), path.with_extension("out"));
    inputs.into_iter().map(with_output).collect()
}

#[test]
fn the_program_prints_what_stands_beside() {
    let examples = examples();
    assert!(examples.len() >= 7, "{examples:?}");
    for (input, output) in examples {
        let text = fs::read(&input).expect("an example");
        let expected = fs::read_to_string(&output).expect("its output");
        let said = String::from_utf8(session(&Model, &text)).expect("text");
        let printed = String::from_utf8(program(&text)).expect("text");
        assert_eq!(said, expected, "{input:?}");
        assert_eq!(printed, expected, "{input:?}");
    }
}

#[test]
fn the_answer_keys_are_what_stands_beside() {
    let exam = fs::read(from_root("examples/exam.txt")).expect("an exam");
    let expected = example("exam.out");
    let output = run(built("keys").arg(from_root("examples/words.txt")), &exam);
    assert_eq!(String::from_utf8_lossy(&output.stdout), expected);
    assert!(output.status.success(), "it ends with {}", output.status);
}

/// The table is what the list of the eight words gives, in its text.
#[test]
fn the_german_tables_are_letter_trees() {
    let words = german::letters(&german::EIGHT);
    let table = Table::from_words(&words).expect("a table").text();
    let drawn = tree::table(&words.into_iter().collect());
    assert_eq!(table.as_bytes(), text::print(&drawn));
    for (name, word) in [("german", "staubecken"), ("wachstube", "wachstube")] {
        let path = from_root(&format!("examples/{name}.txt"));
        let text = fs::read(path).expect("an example");
        let query = text.strip_prefix(table.as_bytes());
        let letters = tree::letters(word);
        let mut bytes = vec![0x10, 2, letters.len() as u8];
        bytes.extend(&letters);
        bytes.push(0);
        assert_eq!(query, Some(&text::line(&bytes)[..]), "{name}");
    }
}

/// Under a lower ceiling some readings of the session are left out, and the others keep their order.
#[test]
fn the_far_fetched_readings_under_ceilings() {
    let text = example("far-fetched.txt");
    let (table, query) = text.split_at(text.len() - 13);
    assert_eq!(query, "100202010100\n");
    let table = Table::read(table).expect("a table");
    let all = [[1, 1], [1, 5], [5, 1], [5, 5]];
    for (ceiling, count) in [(0, 1), (2, 1), (3, 3), (5, 3), (6, 4), (100_000, 4)] {
        let search = Search::start_under(&table, Task::Synthesis, ceiling, &[1, 1], &[]);
        let readings: Vec<Vec<u8>> = search.expect("a search").collect();
        assert_eq!(readings, all[..count], "under {ceiling}");
    }
}

/// The one table is the inverse of the other, and synthesis on it prints what analysis prints on the other.
#[test]
fn the_exchanged_table_prints_the_same() {
    let (table, exchanged) = (example("backward.txt"), example("exchanged.txt"));
    let table = table
        .strip_suffix("100300020505\n")
        .expect("analysis of ee");
    let inverse = text::parse(table.as_bytes()).expect("a table").inverse();
    let expected = [&text::print(&inverse)[..], b"100202050500\n"].concat();
    assert_eq!(exchanged.as_bytes(), expected);
    assert_eq!(example("backward.out"), example("exchanged.out"));
}

/// What a C program under examples/ prints. The header and the archive serve it; `cc` is the compiler that links these tests too.
fn c_program(name: &str) -> String {
    let program = Path::new(env!("CARGO_TARGET_TMPDIR")).join(name);
    let compiled = Command::new("cc")
        .args(["-std=c99", "-Wall", "-Wextra", "-Wpedantic", "-Wconversion"])
        .args(["-Werror", "-I"])
        .arg(from_root("include"))
        .arg(from_root(&format!("examples/{name}.c")))
        .arg(from_root("target/staticlib/libcapi.a"))
        .arg("-o")
        .arg(&program)
        .status()
        .expect("a C compiler");
    assert!(compiled.success());
    let output = Command::new(program).output().expect("the program runs");
    assert!(output.status.success());
    String::from_utf8(output.stdout).expect("text")
}

#[test]
fn the_c_program_lists_the_readings() {
    assert_eq!(c_program("list"), "01 02\n01 03 02\n");
}

#[test]
fn the_c_programs_print_what_stands_beside() {
    for name in ["cuts", "sheet"] {
        let output = from_root(&format!("examples/{name}.out"));
        let expected = fs::read_to_string(output).expect("its output");
        assert_eq!(c_program(name), expected, "{name}");
    }
}

/// The readings that a session printed, each as its length, two bytes, and its letters, which stand after kind and ordinal.
fn printed(name: &str) -> Vec<Vec<u8>> {
    let printed = fs::read(from_root(&format!("examples/{name}.out"))).expect("an output");
    let lines = text::lines(&printed).map(|line| text::line_bytes(line).expect("digits"));
    let readings = lines.filter(|bytes| bytes[0] == 0x20);
    readings.map(|bytes| bytes[3..].to_vec()).collect()
}

#[test]
fn the_cuts_are_the_readings_of_the_sessions() {
    let readings = [printed("german"), printed("wachstube")].concat();
    let shown = readings.iter().map(|reading| tree::shown(&reading[2..]));
    let cuts = example("cuts.out");
    assert!(shown.eq(cuts.lines()), "{cuts}");
}

/// They are lent for a sheet as they stand in a session's lines.
#[test]
fn the_sheet_has_the_readings_of_the_session() {
    let lent = printed("german").concat();
    let sheet = fs::read(from_root("examples/sheet.out")).expect("an output");
    let (list, ended) = sheet::read(&sheet, sheet::SMALL_LETTERS).expect("a sheet");
    assert_eq!((sheet::packed(&list), ended), (lent, true));
}
