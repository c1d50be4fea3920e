//! The C header has the names, numbers, sizes and layouts of this package.
use readings::lending::{Reply, Run, StartReply};
use readings::{Answer, Refusal, Task, limits};
use std::fs;
use std::mem::{offset_of, size_of};
use std::path::{Path, PathBuf};
use std::process::Command;

fn include() -> PathBuf {
    Path::new(env!("CARGO_MANIFEST_DIR")).join("../include")
}

/// A C compiler finds that each expression has its value, or says which has not.
fn check(name: &str, values: &[(String, usize)]) -> Result<(), String> {
    let lines = values.iter().map(|(expression, value)| {
        format!("_Static_assert({expression} == {value}, \"{value}\");\n")
    });
    takes(name, &lines.collect::<String>())
}

/// A C compiler takes these lines after the header's, or says why not.
fn takes(name: &str, lines: &str) -> Result<(), String> {
    let program = format!("#include \"readings.h\"\n{lines}");
    let path = Path::new(env!("CARGO_TARGET_TMPDIR")).join(name);
    fs::write(&path, program).expect("a C program");
    let checked = Command::new("cc")
        .args(["-std=c11", "-Wall", "-Wextra", "-Wpedantic", "-Wconversion"])
        .args(["-Werror", "-fsyntax-only", "-I"])
        .arg(include())
        .arg(path)
        .output()
        .expect("a C compiler");
    let said = String::from_utf8_lossy(&checked.stderr).into_owned();
    checked.status.success().then_some(()).ok_or(said)
}

fn named(values: &[(&str, usize)]) -> Vec<(String, usize)> {
    let owned = values
        .iter()
        .map(|(name, value)| (name.to_string(), *value));
    owned.collect()
}

/// `StackFull` as `STACK_FULL`.
fn capitals(name: &str) -> String {
    let mut capitals = String::new();
    for c in name.chars() {
        if c.is_uppercase() && !capitals.is_empty() {
            capitals.push('_');
        }
        capitals.push(c.to_ascii_uppercase());
    }
    capitals
}

#[test]
fn refusals_and_tasks() {
    let refusals = Refusal::ALL.iter().map(|refusal| {
        let name = capitals(&format!("{refusal:?}"));
        (format!("RD_REFUSAL_{name}"), *refusal as usize)
    });
    check("refusals.c", &refusals.collect::<Vec<_>>()).unwrap();
    let tasks = [Task::Recognition, Task::Synthesis, Task::Analysis].map(|task| {
        let name = capitals(&format!("{task:?}"));
        (format!("RD_{name}"), task as usize)
    });
    check("tasks.c", &tasks).unwrap();
}

#[test]
fn kinds() {
    let kinds = [
        ("RD_DONE", 0),
        ("RD_FOUND", 1),
        ("RD_PAUSED", 2),
        ("RD_ENDED", 3),
        ("RD_REFUSED", 4),
    ];
    check("kinds.c", &named(&kinds)).unwrap();
    let reply = |kind| Reply {
        kind,
        number: if kind == 4 { 22 } else { 0 },
        steps: 7,
        length: 5,
    };
    let (steps, length, refusal) = (7, 5, Refusal::StackFull);
    assert_eq!(reply(0).done(), Ok(5));
    assert_eq!(reply(1).answer(), Answer::Found { steps, length });
    assert_eq!(reply(2).answer(), Answer::Paused { steps });
    assert_eq!(reply(3).answer(), Answer::Ended { steps });
    assert_eq!(reply(4).answer(), Answer::Refused { steps, refusal });
    assert_eq!(reply(4).done(), Err(refusal));
}

/// An answer of `next` is not taken for one of the other calls.
#[test]
#[should_panic(expected = "a reply of another call than `next`")]
fn a_pause_is_not_done() {
    let pause = Reply {
        kind: 2,
        ..Reply::default()
    };
    let _ = pause.done();
}

#[test]
fn limits_and_sizes() {
    let limits = [
        ("RD_MOST_STATES", limits::MOST_STATES),
        ("RD_MOST_ARCS", limits::MOST_ARCS),
        ("RD_MOST_LETTER", limits::MOST_LETTER.into()),
        ("RD_MOST_WORD", limits::MOST_WORD),
        ("RD_MOST_FRAMES", limits::MOST_FRAMES),
        ("RD_MOST_CLASSES", limits::MOST_CLASSES),
        ("RD_CLASS_LETTERS", limits::CLASS_LETTERS),
        ("RD_FIRST_CLASS", limits::FIRST_CLASS.into()),
        ("RD_FIRST_CLASS", usize::from(limits::MOST_LETTER) + 1),
        ("RD_CLASSES_AT", limits::CLASSES_AT),
        ("RD_INITIALS_AT", limits::INITIALS_AT),
        ("RD_INITIALS_AT", 4 + 8 * 16),
        ("RD_ARC_CELLS", limits::ARC_CELLS),
        ("RD_MOST_PENALTY", limits::MOST_PENALTY.into()),
        ("RD_MOST_CEILING", limits::MOST_CEILING as usize),
        ("RD_TABLE_CELLS", limits::TABLE_CELLS),
        ("RD_TEXT_BYTES", limits::TEXT_BYTES),
        ("RD_FRAME_CELLS", limits::FRAME_CELLS),
        ("RD_CYCLE_STATES", limits::CYCLE_STATES),
        ("RD_STACK_FRAMES(1 + 1, 2 + 1)", limits::stack_frames(2, 3)),
        ("RD_STACK_FRAMES(128, 256)", limits::MOST_FRAMES),
        ("RD_STACK_CELLS(1 + 1, 2 + 1)", limits::stack_cells(2, 3)),
        (
            "RD_OUTPUT_LETTERS(1 + 1, 2 + 1)",
            limits::output_letters(2, 3),
        ),
        (
            "2 * RD_OUTPUT_LETTERS(2, 3)",
            2 * limits::output_letters(2, 3),
        ),
    ];
    check("limits.c", &named(&limits)).unwrap();
    let said = check("wrong.c", &named(&[("RD_MOST_STATES", 255)])).unwrap_err();
    assert!(said.contains("RD_MOST_STATES == 255"), "{said}");
}

#[test]
fn limits_of_a_word_list() {
    let ends = limits::MOST_STATES - 1; // every state but the root
    let limits = [
        ("RD_MOST_LISTED_LETTER", limits::MOST_LISTED_LETTER.into()),
        ("RD_CUT", limits::CUT.into()),
        ("RD_CUT", usize::from(limits::MOST_LISTED_LETTER) + 1),
        ("RD_CUT", limits::MOST_LETTER.into()),
        ("RD_TREE_CELLS", limits::TREE_CELLS),
        ("RD_TREE_CELLS", 132 + 1 + ends + 5 * (ends + ends)),
    ];
    check("list.c", &named(&limits)).unwrap();
}

#[test]
fn limits_and_sizes_of_a_sheet() {
    let most = limits::MOST_READINGS * limits::reading_lines(limits::MOST_READING);
    assert_eq!(limits::SHEET_BYTES, limits::sheet_size(most));
    let limits = [
        ("RD_FACES", limits::FACES),
        ("RD_FACES", limits::MOST_LETTER.into()),
        ("RD_MOST_READINGS", limits::MOST_READINGS),
        ("RD_MOST_READING", limits::MOST_READING),
        ("RD_SHEET_LINE", limits::SHEET_LINE),
        ("RD_ROW_LETTERS", limits::ROW_LETTERS),
        ("RD_SHEET_BYTES", limits::SHEET_BYTES),
        ("RD_READING_LINES(0)", limits::reading_lines(0)),
        ("RD_READING_LINES(1)", limits::reading_lines(1)),
        ("RD_READING_LINES(65 + 1)", limits::reading_lines(66)),
        (
            "2 * RD_READING_LINES(1 + 66)",
            2 * limits::reading_lines(67),
        ),
        ("RD_READING_LINES(RD_MOST_READING)", 993),
        ("RD_SHEET_SIZE(0)", limits::sheet_size(0)),
        ("2 * RD_SHEET_SIZE(1 + 1)", 2 * limits::sheet_size(2)),
        (
            "RD_SHEET_SIZE(RD_MOST_READINGS * RD_READING_LINES(RD_MOST_READING))",
            limits::SHEET_BYTES,
        ),
    ];
    check("sheet.c", &named(&limits)).unwrap();
}

#[test]
fn layouts() {
    let layouts = [
        ("sizeof(rd_answer)", size_of::<Reply>()),
        ("offsetof(rd_answer, kind)", offset_of!(Reply, kind)),
        ("offsetof(rd_answer, number)", offset_of!(Reply, number)),
        ("offsetof(rd_answer, steps)", offset_of!(Reply, steps)),
        ("offsetof(rd_answer, length)", offset_of!(Reply, length)),
        ("sizeof(rd_started)", size_of::<StartReply>()),
        (
            "offsetof(rd_started, answer)",
            offset_of!(StartReply, answer),
        ),
        ("offsetof(rd_started, cycle)", offset_of!(StartReply, cycle)),
        ("sizeof(rd_run)", size_of::<Run>()),
        ("offsetof(rd_run, task)", offset_of!(Run, task)),
        ("offsetof(rd_run, started)", offset_of!(Run, started)),
        ("offsetof(rd_run, depth)", offset_of!(Run, depth)),
        ("offsetof(rd_run, ceiling)", offset_of!(Run, ceiling)),
        ("sizeof(RD_NO_LETTERS)", size_of::<*const u8>()),
    ];
    check("layouts.c", &named(&layouts)).unwrap();
}

/// The calls have the types that `lending` gives them.
#[test]
fn calls() {
    let table_write = "rd_answer (*w)(const uint16_t *, size_t, uint8_t *, size_t)";
    let types = format!(
        "rd_answer (*r)(const uint8_t *, size_t, uint16_t *, size_t) = rd_table_read;
         rd_answer (*l)(const uint8_t *, size_t, uint16_t *, size_t) = rd_words_read;
         {table_write} = rd_table_write;
         rd_started (*s)(const uint16_t *, size_t, uint32_t, uint32_t, const uint8_t *, size_t, const uint8_t *,
                         size_t, rd_run *) = rd_start;
         rd_answer (*n)(const uint16_t *, size_t, const uint8_t *, size_t, const uint8_t *, size_t, rd_run *,
                        uint32_t *, size_t, uint32_t, uint8_t *, size_t) = rd_next;
         rd_answer (*a)(const uint8_t *, size_t, const uint8_t *, uint32_t, uint8_t *, size_t) = rd_sheet_write;\n"
    );
    takes("calls.c", &types).unwrap();
    takes("other.c", &format!("{table_write} = rd_table_read;\n")).unwrap_err();
}

#[test]
fn version() {
    let version = env!("CARGO_PKG_VERSION");
    let header = fs::read_to_string(include().join("readings.h")).expect("the header");
    assert!(header.contains(&format!("#define RD_VERSION \"{version}\"\n")));
    let parts = version
        .split('.')
        .map(|part| part.parse::<usize>().expect("a number"));
    let number = parts.fold(0, |number, part| 100 * number + part);
    check("version.c", &named(&[("RD_VERSION_NUMBER", number)])).unwrap();
}
