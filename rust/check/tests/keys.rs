//! The program `keys` against one that is written from its text alone, and what a user of the script `./keys` sees. The script must find
//! its program newer than the sources, as `./keys` leaves it; or else it proves and builds it first.
mod common;

use common::{built, from_root, run};
use readings_check::draw::lists;
use readings_check::german;
use readings_check::keys::{Fault, LONGEST, SMALL, Said, capital, keys, wrong};
use readings_check::random::Random;
use readings_check::sheet;
use readings_check::tree;
use readings_check::words;
use std::collections::BTreeMap;
use std::fs;
use std::path::Path;
use std::process::{self, Command};
use std::sync::atomic::{AtomicUsize, Ordering};

/// The list's file, in the folder where a program runs.
const NAME: &str = "words.txt";
/// The byte order mark.
const MARK: &str = "\u{FEFF}";

/// What a program says to a list, which lies in a new folder, and an exam.
fn said(program: &mut Command, list: &[u8], exam: &[u8]) -> Said {
    static FOLDERS: AtomicUsize = AtomicUsize::new(0);
    let number = FOLDERS.fetch_add(1, Ordering::Relaxed);
    let folder = format!("keys-{}-{number}", process::id());
    let folder = Path::new(env!("CARGO_TARGET_TMPDIR")).join(folder);
    fs::create_dir(&folder).expect("a new folder");
    fs::write(folder.join(NAME), list).expect("the list");
    let output = run(program.current_dir(&folder), exam);
    fs::remove_dir_all(folder).expect("the folder is removed");
    Said {
        out: output.stdout,
        err: output.stderr,
        status: output.status.code().expect("an exit status"),
    }
}

/// The script at the root.
fn script() -> Command {
    Command::new(from_root("keys"))
}

/// The first line in which two texts differ.
fn difference(printed: &[u8], expected: &[u8]) -> Option<String> {
    let lines = |text: &[u8]| -> Vec<String> {
        let lines = text.split_inclusive(|c| *c == b'\n');
        lines.map(|line| line.escape_ascii().to_string()).collect()
    };
    let (a, b) = (lines(printed), lines(expected));
    let at = (0..a.len().max(b.len())).find(|at| a.get(*at) != b.get(*at))?;
    Some(format!("{:?} instead of {:?}", a.get(at), b.get(at)))
}

/// The program says what the reference says, and this is told. The program itself always ends with 0; its script judges.
fn agrees(list: impl AsRef<[u8]>, exam: impl AsRef<[u8]>) -> Said {
    let (list, exam) = (list.as_ref(), exam.as_ref());
    let expected = keys(NAME, list, exam);
    let said = said(built("keys").arg(NAME), list, exam);
    let differs = difference(&said.err, &expected.err);
    if let Some(differs) = differs.or(difference(&said.out, &expected.out)) {
        let (list, exam) = (list.escape_ascii(), exam.escape_ascii());
        panic!("{differs}, on the list \"{list}\" and the exam \"{exam}\"");
    }
    assert_eq!(said.status, 0);
    expected
}

/// The text that a person sees: lines of sheets have 72 characters, and the blanks at their ends are not seen.
fn seen(out: &[u8]) -> String {
    let text = String::from_utf8_lossy(out);
    assert!(text.is_empty() || text.ends_with('\n'));
    let lines: Vec<&str> = text.split_terminator('\n').collect();
    for pair in lines.windows(2) {
        let is_word = pair[0].is_empty();
        let is_sheet = !is_word && !pair[1].is_empty() && !pair[1].starts_with("no key: ");
        assert!(!is_sheet || pair[1].chars().count() == 72, "{pair:?}");
    }
    let lines = lines
        .iter()
        .map(|line| format!("{}\n", line.trim_end_matches(' ')));
    lines.collect()
}

/// A user of the script sees this on standard output and on standard error, and this exit status. The reference says so too.
fn sees(list: impl AsRef<[u8]>, exam: impl AsRef<[u8]>, out: &str, err: &str, status: i32) {
    let (list, exam) = (list.as_ref(), exam.as_ref());
    let said = said(script().arg(NAME), list, exam);
    assert_eq!(seen(&said.out), out);
    assert_eq!(String::from_utf8_lossy(&said.err), err);
    assert_eq!(said.status, status);
    assert!(said == keys(NAME, list, exam), "the reference differs");
}

/// A user of the script sees that the list, the input or the output failed, and nothing else.
fn fails(list: impl AsRef<[u8]>, exam: impl AsRef<[u8]>, told: &str) {
    sees(list, exam, "", &format!("{told}\n"), 2);
}

/// The text of some words, one a line.
fn lines(words: &[impl AsRef<str>]) -> String {
    let lines = words.iter().map(|word| format!("{}\n", word.as_ref()));
    lines.collect()
}

/// A word in which some letters are capitals.
fn capitals(random: &mut Random, word: &str) -> String {
    let few = random.within(1, 3);
    let letters = word.chars().map(|c| match random.one_in(few) {
        true => capital(c),
        false => c,
    });
    letters.collect()
}

const TWO_EACH: &str = "\
Wachstube
READINGS
    1 wachs|tube
    2 wach|stube
END

Staubecken
READINGS
    1 staub|ecken
    2 stau|becken
END

";

#[test]
fn staubecken_and_wachstube_have_two_keys_each() {
    let (exam, told) = (
        "Wachstube\nStaubecken\n",
        "keys: words 2, readings 4, refused 0\n",
    );
    sees(lines(&german::EIGHT), exam, TWO_EACH, told, 0);
    for case in 0..20 {
        let random = &mut Random::of_case(0x57A0B, case);
        let mut list = german::EIGHT.map(|word| capitals(random, word));
        random.shuffle(&mut list);
        let said = agrees(lines(&list), exam);
        assert_eq!(seen(&said.out), TWO_EACH, "{list:?}");
        assert_eq!(said.err, told.as_bytes());
    }
}

const OUTSIDE_ASCII: &str = "\
Straßenbahn
READINGS
    1 straßen|bahn
END

STRAẞENBAHN
READINGS
    1 straßen|bahn
END

Übermut
READINGS
    1 übermut
    2 über|mut
END

türÜBERstraße
READINGS
    1 tür|über|straße
END

Strassenbahn
READINGS
END

";

#[test]
fn sharp_s_and_umlauts_stand_as_themselves() {
    let list = "Bahn\nÜber\nMut\nStraßen\nstraße\nÜbermut\nTür\nur\n";
    let exam = "Straßenbahn\nSTRAẞENBAHN\nÜbermut\ntürÜBERstraße\nStrassenbahn\n";
    let told = "keys: words 5, readings 5, refused 0\n";
    sees(list, exam, OUTSIDE_ASCII, told, 0);
}

#[test]
fn both_texts_may_come_from_any_editor() {
    let list = format!("{MARK}# Lektion 1\r\n\r\n \tÜber \t\r\nmut\r\nMut\r\nÜBER");
    let exam = format!("{MARK}  Übermut\t\r\n   # heute nicht: Mut\r\n \t\r\nmut");
    let shown = "Übermut\nREADINGS\n    1 über|mut\nEND\n\nmut\nREADINGS\n    1 mut\nEND\n\n";
    let told = "keys: words 2, readings 2, refused 0\n";
    sees(list, exam, shown, told, 0);
}

const LONG: &str = "\
ÜberÜberÜberÜberÜberÜberÜberÜberÜberÜberÜberÜberÜberÜberÜberÜber
READINGS
    1 über|über|über|über|über|über|über|über|über|über|über|über|über|ü
      ber|über|über
END

";

#[test]
fn a_long_reading_goes_on_in_a_second_line() {
    let told = "keys: words 1, readings 1, refused 0\n";
    sees("über\n", "Über".repeat(16), LONG, told, 0);
}

#[test]
fn a_reading_of_66_columns_has_one_line() {
    for (letters, rows) in [(61, 1), (62, 1), (63, 1), (64, 2)] {
        let list = ["ä".repeat(20), "ß".repeat(letters - 60)];
        let word = ["ä".repeat(60), list[1].clone()].concat();
        let shown = seen(&agrees(lines(&list), word).out);
        assert_eq!(shown.lines().count(), 4 + rows, "{letters} letters");
    }
}

#[test]
fn an_empty_list_gives_no_reading() {
    let told = "keys: words 1, readings 0, refused 0\n";
    for list in ["", "\n", "# none\r\n", MARK] {
        sees(list, "Wort\n", "Wort\nREADINGS\nEND\n\n", told, 0);
    }
}

#[test]
fn an_exam_without_words_gives_no_sheet() {
    let told = "keys: words 0, readings 0, refused 0\n";
    for exam in ["", "\n\n", "# none", MARK] {
        sees("wort\n", exam, "", told, 0);
    }
}

#[test]
fn a_digit_is_no_letter() {
    let shown = "Stra3e\nno key: character 5, \"3\", is no letter\n\n";
    let told =
        "keys: line 3: character 5, \"3\", is no letter\nkeys: words 1, readings 0, refused 1\n";
    sees("straße\n", "# Wege\n\n Stra3e\n", shown, told, 1);
}

#[test]
fn a_blank_within_a_word_is_no_letter() {
    let shown = "zwei Worte\nno key: character 5, \" \", is no letter\n\n";
    let told =
        "keys: line 1: character 5, \" \", is no letter\nkeys: words 1, readings 0, refused 1\n";
    sees("zwei\nworte\n", "zwei Worte", shown, told, 1);
}

#[test]
fn a_decomposed_umlaut_is_no_letter() {
    let fault = "character 3, \"\u{308}\", is no letter";
    let shown = format!("Ba\u{308}r\nno key: {fault}\n\n");
    let told = format!("keys: line 1: {fault}\nkeys: words 1, readings 0, refused 1\n");
    sees("bär\nbar\n", "Ba\u{308}r\n", &shown, &told, 1);
}

const UNKNOWN: &str = r#"Wort"
no key: character 5, """, is no letter

Ćevapčići
no key: character 1, "Ć", is no letter

10€
no key: character 1, "1", is no letter

Über😀
no key: character 5, "😀", is no letter

"#;

const UNKNOWN_TOLD: &str = r#"keys: line 1: character 5, """, is no letter
keys: line 2: character 1, "Ć", is no letter
keys: line 3: character 1, "1", is no letter
keys: line 4: character 5, "😀", is no letter
keys: words 4, readings 0, refused 4
"#;

#[test]
fn an_unknown_character_is_shown_as_given() {
    let exam = "Wort\"\nĆevapčići\n10€\nÜber😀\n";
    sees("wort\n", exam, UNKNOWN, UNKNOWN_TOLD, 1);
}

/// Malformed bytes are shown here by the mark that stands for them.
const NOT_SEEN: &str = "\
Wo\u{7}rt
no key: character 3, byte 07, is no letter

Wört\u{85}
no key: character 5, byte C2 85, is no letter

Wor\u{FFFD}t
no key: character 4, byte FF, is no letter

Stra\u{FFFD}e
no key: character 5, byte C3, is no letter

ein\tWort
no key: character 4, byte 09, is no letter

";

const NOT_SEEN_TOLD: &str = "\
keys: line 1: character 3, byte 07, is no letter
keys: line 2: character 5, byte C2 85, is no letter
keys: line 3: character 4, byte FF, is no letter
keys: line 4: character 5, byte C3, is no letter
keys: line 5: character 4, byte 09, is no letter
keys: words 5, readings 0, refused 5
";

#[test]
fn what_is_not_seen_is_shown_by_its_bytes() {
    let exam = b"Wo\x07rt\nW\xC3\xB6rt\xC2\x85\nWor\xFFt\nStra\xC3e\nein\tWort\n";
    sees("wort\n", exam, NOT_SEEN, NOT_SEEN_TOLD, 1);
}

#[test]
fn a_word_has_at_most_64_letters() {
    let word = "Ä".repeat(64);
    let too_many = "character 65, \"x\", is a letter too many: a word has at most 64";
    let no_letter = "character 65, \"-\", is no letter";
    let key = format!("{word}\nREADINGS\n    1 {}\nEND\n", "ä".repeat(64));
    let shown = format!("{key}\n{word}xy\nno key: {too_many}\n\n{word}-x\nno key: {no_letter}\n\n");
    let counts = "keys: words 3, readings 1, refused 2";
    let told = format!("keys: line 2: {too_many}\nkeys: line 3: {no_letter}\n{counts}\n");
    let exam = format!("{word}\n{word}xy\n{word}-x\n");
    sees(word, exam, &shown, &told, 1);
}

#[test]
fn a_bad_word_leaves_the_others_as_they_are() {
    let out = |exam: &str| agrees(lines(&german::EIGHT), exam).out;
    for bad in ["Stra3e", "\u{308}", "\u{7}", &"x".repeat(65)] {
        let exam = format!("Wachstube\n{bad}\nStaubecken\n");
        let alone = [out("Wachstube"), out(bad), out("Staubecken")];
        assert_eq!(out(&exam), alone.concat(), "{bad:?}");
    }
}

#[test]
fn a_list_with_a_bad_word_is_refused() {
    let eight = lines(&german::EIGHT);
    let list = format!("{eight}\nBahn\n# hier:\n  Stra3e \nw0rt\n");
    let told = "keys: words.txt, line 12, \"Stra3e\": character 5, \"3\", is no letter";
    fails(list, "Bahn\nw0rt\n", told);
}

#[test]
fn a_list_with_a_long_word_is_refused() {
    let long = "Ä".repeat(65);
    let fault = "character 65, \"Ä\", is a letter too many: a word has at most 64";
    let told = format!("keys: words.txt, line 2, \"{long}\": {fault}");
    fails(format!("bahn\n{long}\n"), "Bahn\n", &told);
}

/// Four words with 255 beginnings, so that there are 256 with the empty one.
fn full() -> String {
    let words = [("ä", 64), ("b", 64), ("c", 64), ("d", 63)];
    lines(&words.map(|(letter, times)| letter.repeat(times)))
}

#[test]
fn a_list_of_256_states_is_taken() {
    let list = format!("{}DDD\nb\nÄä\nb\n", full());
    let shown = "Äd\nREADINGS\nEND\n\nbddd\nREADINGS\n    1 b|ddd\nEND\n\n";
    let told = "keys: words 2, readings 1, refused 0\n";
    sees(list, "Äd\nbddd\n", shown, told, 0);
}

#[test]
fn a_list_of_257_states_is_refused() {
    let list = format!("{}DDD\nb\nddd\n\nbe\nw0rt\n", full());
    let fault = "the list is too long with this word, over 256 states; words before it that fit: 6";
    let told = format!("keys: words.txt, line 9, \"be\": {fault}");
    fails(list, "b\n", &told);
}

/// A text of exactly so many bytes, with a comment at its end.
fn commented(front: &str, bytes: usize) -> String {
    format!("{front}#{}", "x".repeat(bytes - front.len() - 1))
}

#[test]
fn a_list_of_65536_bytes_is_taken() {
    let list = commented("wort\nWort\nort\n", LONGEST);
    let told = "keys: words 1, readings 1, refused 0\n";
    sees(list, "ort", "ort\nREADINGS\n    1 ort\nEND\n\n", told, 0);
}

#[test]
fn a_list_of_more_bytes_is_refused() {
    let fault = "the list is too long here, over 65,536 bytes; words before it that fit: 2";
    let told = format!("keys: words.txt, line 4: {fault}");
    for bytes in [LONGEST + 1, LONGEST + 2, 200_000] {
        fails(commented("wort\nWort\nort\n", bytes), "ort", &told);
    }
}

/// The line that the limit cuts is not looked at, nor is what comes after; what is wrong before it is told.
#[test]
fn only_whole_lines_of_a_long_list_are_looked_at() {
    let most = "wort\nORT\n".repeat(7_281) + "abcdef\n"; // 65,536 bytes
    let fault = "the list is too long here, over 65,536 bytes";
    let told = format!("keys: words.txt, line 14564: {fault}; words before it that fit: 3");
    for rest in ["w0rt\n", "\n", "x", "#\nw0rt"] {
        fails(format!("{most}{rest}"), "ort", &told);
    }
    let told = format!("keys: words.txt, line 14563: {fault}; words before it that fit: 2");
    for cut in ["abcdefg\n", "abcdefgh", "abcdef3\nx"] {
        fails(most.replace("abcdef\n", cut), "ort", &told);
    }
    let told = "keys: words.txt, line 2, \"w0rt\": character 2, \"0\", is no letter";
    fails(most.replacen("ORT", "w0rt", 1), "ort", told);
    let told = format!("keys: words.txt, line 1: {fault}; words before it that fit: 0");
    fails("x".repeat(LONGEST + 1), "ort", &told);
}

#[test]
fn an_exam_of_65536_bytes_is_taken() {
    let exam = commented("ort\n", LONGEST);
    let told = "keys: words 1, readings 1, refused 0\n";
    sees("ort", exam, "ort\nREADINGS\n    1 ort\nEND\n\n", told, 0);
}

#[test]
fn an_exam_of_more_bytes_is_refused() {
    for bytes in [LONGEST + 1, 300_000] {
        let exam = commented("ort\n", bytes);
        fails("ort", exam, "keys: standard input has over 65,536 bytes");
    }
}

/// What the script tells of arguments, where it prints nothing and ends with 2.
fn told_of(arguments: &[&str]) -> String {
    let said = said(script().args(arguments), b"wort\n", b"Wort\n");
    assert_eq!((said.out, said.status), (vec![], 2), "{arguments:?}");
    String::from_utf8(said.err).expect("text")
}

#[test]
fn a_list_that_is_not_there_cannot_be_read() {
    let told = "keys: the list cannot be read: wörter.txt: No such file or directory\n";
    assert_eq!(told_of(&["wörter.txt"]), told);
}

#[test]
fn a_folder_cannot_be_read() {
    let told = "keys: the list cannot be read: .: Is a directory\n";
    assert_eq!(told_of(&["."]), told);
}

#[test]
fn one_file_is_to_be_named() {
    let is_told = |told: &str| {
        let (line, rest) = told.split_once('\n').expect("a line");
        line.starts_with("keys: one file is to be named") && rest.is_empty()
    };
    for arguments in [&[][..], &[NAME, NAME], &[NAME, NAME, NAME]] {
        assert!(is_told(&told_of(arguments)));
        let said = said(built("keys").args(arguments), b"wort\n", b"Wort\n");
        assert!(is_told(&String::from_utf8_lossy(&said.err)));
        assert_eq!((said.out, said.status), (vec![], 0));
    }
}

#[test]
fn a_full_disk_is_told() {
    for exam in ["Wort\n", "W0rt\n", &"wort\n".repeat(2_000)] {
        let mut shell = Command::new("sh");
        shell.args(["-c", "exec \"$0\" words.txt >/dev/full"]);
        let said = said(shell.arg(from_root("keys")), b"wort\n", exam.as_bytes());
        let told = String::from_utf8(said.err).expect("text");
        let last = told.lines().last();
        assert_eq!(last, Some("keys: standard output cannot be written"));
        assert_eq!((said.out, said.status), (vec![], 2));
    }
}

#[test]
fn an_exam_that_cannot_be_read_is_told() {
    let mut shell = Command::new("sh");
    shell.args(["-c", "exec \"$0\" words.txt <."]);
    let said = said(shell.arg(from_root("keys")), b"wort\n", b"");
    let told = String::from_utf8(said.err).expect("text");
    assert_eq!(told, "keys: standard input cannot be read\n");
    assert_eq!((said.out, said.status), (vec![], 2));
}

#[test]
fn a_name_that_is_too_long_cannot_be_read() {
    let told = "keys: the list cannot be read: its name is too long\n";
    assert_eq!(told_of(&[&"w".repeat(5_000)]), told);
}

/// A word of one letter many times, and listed words of the same letter. The third has 1,001 readings in truth, the fourth far more.
#[test]
fn after_a_thousand_readings_there_may_be_more() {
    for (lengths, letters, readings, last) in [
        (&[1, 2, 12, 14][..], 15, 999, "END"),
        (&[1, 2, 12, 14, 15], 15, 1_000, "MORE"),
        (&[1, 5], 27, 1_000, "MORE"),
        (&[1, 2, 3], 64, 1_000, "MORE"),
    ] {
        let list: Vec<String> = lengths.iter().map(|n| "ß".repeat(*n)).collect();
        let said = agrees(lines(&list), "ß".repeat(letters));
        let shown = seen(&said.out);
        assert!(shown.ends_with(&format!("\n{last}\n\n")), "{lengths:?}");
        let ordinal = |line: &str| line.get(..5)?.trim().parse::<u32>().ok();
        let ordinals = shown.lines().filter_map(ordinal);
        assert!(ordinals.eq(1..=readings), "{lengths:?}");
        let told = format!("keys: words 1, readings {readings}, refused 0\n");
        assert_eq!(said.err, told.as_bytes());
    }
}

/// The search for the first word does not end within 65,536 calls of 1,000 steps. The reference, which has no such limit, is not asked.
#[test]
fn a_word_that_is_too_hard_is_left_unfinished() {
    let list: Vec<String> = (1..=8).map(|n| "a".repeat(n)).collect();
    let exam = format!("{}b\naa\n", "a".repeat(63));
    let said = said(script().arg(NAME), lines(&list).as_bytes(), exam.as_bytes());
    let shown = exam.replace("\naa\n", "\nREADINGS\nMORE\n\naa\n");
    let shown = shown + "READINGS\n    1 aa\n    2 a|a\nEND\n\n";
    assert_eq!(seen(&said.out), shown);
    assert_eq!(said.err, b"keys: words 2, readings 2, refused 0\n");
    assert_eq!(said.status, 0);
}

/// Compounds of the many German words, with their keys.
#[rustfmt::skip]
const MORE_COMPOUNDS: [(&str, &[&str]); 5] = [
    ("staubeckenrand", &["staubecken|rand", "staub|ecken|rand", "stau|becken|rand"]),
    ("musikertalent", &["musiker|talent", "musik|er|talent"]),
    ("wachsende", &["wachs|ende"]),
    ("nachttisch", &["nacht|tisch"]),
    ("druckertisch", &["drucker|tisch", "druck|er|tisch"]),
];

/// The words of an exam with their keys, which all sheets show to the end.
fn shown_keys(out: &[u8]) -> Vec<(String, Vec<Vec<u8>>)> {
    let text = String::from_utf8(out.to_vec()).expect("text");
    let answers = text.split_terminator("\n\n").map(|answer| {
        let (word, sheet) = answer.split_once('\n').expect("a sheet");
        let sheet = sheet::read(format!("{sheet}\n").as_bytes(), sheet::SMALL_LETTERS);
        let (keys, ended) = sheet.expect("a sheet");
        assert!(ended, "{word}");
        (word.to_lowercase(), keys)
    });
    answers.collect()
}

#[test]
fn german_compounds_have_all_their_keys() {
    let random = &mut Random::new(0x6E2A);
    let mut list = german::MANY.map(|word| capitals(random, word));
    random.shuffle(&mut list);
    let more = MORE_COMPOUNDS.map(|(word, keys)| (word, keys.len()));
    let compounds = [&german::COMPOUNDS[..], &more].concat();
    assert!(list.len() >= 60 && compounds.len() >= 20);
    let exam = compounds.iter().map(|(word, _)| capitals(random, word));
    let exam: Vec<String> = exam.collect();
    let shown = shown_keys(&agrees(lines(&list), lines(&exam)).out);
    assert_eq!(shown.len(), compounds.len());
    let letters = german::letters(&german::MANY);
    for ((word, count), (asked, keys)) in compounds.iter().zip(&shown) {
        assert_eq!((&asked[..], keys.len()), (*word, *count));
        assert_eq!(*keys, words::cuts(&letters, &tree::letters(word)), "{word}");
    }
    for (word, keys) in MORE_COMPOUNDS {
        let (_, shown) = shown.iter().find(|(asked, _)| asked == word).expect("it");
        assert!(
            shown
                .iter()
                .map(|key| tree::shown(key))
                .eq(keys.iter().copied())
        );
    }
}

/// Each character as a word.
fn apart(characters: &str) -> String {
    characters.chars().map(|c| format!("{c}\n")).collect()
}

/// These bytes are put between two letters, as many at a time as go into an exam; tells how many words have a sheet.
fn sheets_between(all: &[Vec<u8>]) -> usize {
    let mut sheets = 0;
    for some in all.chunks(9_000) {
        let exam = some.iter().map(|bytes| [b"a", &bytes[..], b"b\n"].concat());
        let exam: Vec<u8> = exam.flatten().collect();
        assert!(exam.len() <= LONGEST);
        let shown = seen(&agrees(apart(SMALL), exam).out);
        sheets += shown.lines().filter(|line| *line == "READINGS").count();
    }
    sheets
}

/// 61 letters and their capitals are letters; a line feed between two letters makes two words.
#[test]
fn no_other_character_is_a_letter() {
    let rare = (0x10000..0x110000).step_by(0x3F1);
    let characters = (0..0x10000).chain(rare).filter_map(char::from_u32);
    let all: Vec<Vec<u8>> = characters.map(|c| c.to_string().into()).collect();
    assert_eq!(sheets_between(&all), 2 * 61 + 2);
}

#[test]
fn any_two_bytes_agree() {
    let all: Vec<Vec<u8>> = (0..=u16::MAX).map(|two| two.to_be_bytes().into()).collect();
    assert!(sheets_between(&all) > 52 * 52);
}

/// Characters of three and four bytes, and what is nearly one.
#[test]
fn bytes_that_are_nearly_a_character_agree() {
    let mut all = Vec::new();
    for first in 0xE0..=0xFF {
        for second in [0x7F, 0x80, 0x8F, 0x90, 0x9F, 0xA0, 0xBF, 0xC0] {
            for third in [0x61, 0x7F, 0x80, 0xBF, 0xC0] {
                let three = vec![first, second, third];
                let four =
                    [0x61, 0x7F, 0x80, 0xBF, 0xC3].map(|last| [&three[..], &[last]].concat());
                all.extend(four);
                all.push(three);
            }
        }
    }
    assert_eq!(sheets_between(&all), 0);
}

#[test]
fn every_letter_has_its_capital() {
    let capitals = "ABCDEFGHIJKLMNOPQRSTUVWXYZÄÖÜẞÀÁÂÃÅÆÇÈÉÊËÌÍÎÏÐÑÒÓÔÕØÙÚÛÝÞŸŒŠŽ";
    for (list, exam) in [(capitals, SMALL), (SMALL, capitals)] {
        let keys = exam.chars().zip(SMALL.chars());
        let keys = keys.map(|(asked, c)| format!("{asked}\nREADINGS\n    1 {c}\nEND\n\n"));
        let shown = seen(&agrees(apart(list), apart(exam)).out);
        assert_eq!(shown, keys.collect::<String>());
    }
}

/// What is no letter: characters that are seen, control characters, and bytes that are no part of a character.
#[rustfmt::skip]
const BAD: [&[u8]; 28] = [
    b"3", b"-", b" ", b"\"", b"|", b"#", "×".as_bytes(), "µ".as_bytes(), "ª".as_bytes(), "ſ".as_bytes(), "Ć".as_bytes(), "€".as_bytes(),
    "\u{308}".as_bytes(), "\u{212A}".as_bytes(), "\u{FEFF}".as_bytes(), "😀".as_bytes(),
    b"\t", b"\r", b"\x00", b"\x07", b"\x7F", "\u{85}".as_bytes(),
    b"\xFF", b"\xC3", b"\x80", b"\xE2\x82", b"\xED\xA0\x80", b"\xC0\x80",
];

/// A number that stands for what is no letter, as 63 does.
const SPOILED: u8 = 62;

/// The letters that numbers 1 to 61 stand for. The first ones are often such that are easily taken for one another.
fn faces(random: &mut Random) -> Vec<char> {
    let mut letters: Vec<char> = SMALL.chars().collect();
    random.shuffle(&mut letters);
    let first = random.pick(&["aäb", "ßsz", "éœÿ", ""]);
    letters.sort_by_key(|c| !first.contains(*c));
    letters
}

/// A word of numbers in small letters and capitals.
fn written(random: &mut Random, faces: &[char], word: &[u8]) -> Vec<u8> {
    let few = *random.pick(&[1, 3, 1_000, 1_000]);
    let mut bytes = Vec::new();
    for number in word {
        match faces.get(usize::from(*number) - 1) {
            None => bytes.extend(*random.pick(&BAD)),
            Some(c) if random.one_in(few) => bytes.extend(capital(*c).to_string().bytes()),
            Some(c) => bytes.extend(c.to_string().bytes()),
        }
    }
    bytes
}

/// Words as a text, as an editor may leave it.
fn edited(random: &mut Random, words: &[Vec<u8>]) -> Vec<u8> {
    let blanks = ["", "", "", "", " ", "\t", " \t "];
    let end = *random.pick(&["\n", "\r\n"]);
    let mut text = if random.one_in(4) { MARK } else { "" }.as_bytes().to_vec();
    for word in words {
        if random.one_in(8) {
            let line = random.pick(&["", "#", "# a b", " \t#aa", " ", "\t"]);
            text.extend([line, end].concat().bytes());
        }
        text.extend(random.pick(&blanks).bytes());
        text.extend(word);
        text.extend([random.pick(&blanks), end].concat().bytes());
    }
    if random.one_in(3) {
        text.pop();
    }
    text
}

/// A word with what is no letter somewhere, or with letters too many.
fn spoiled(random: &mut Random, mut word: Vec<u8>) -> Vec<u8> {
    let many: Vec<u8> = word.iter().copied().cycle().take(66).collect();
    match random.below(6) {
        0 => many[..65].to_vec(),
        1 => many,
        2 => [&many[..64], &[SPOILED, 1]].concat(),
        _ => {
            word.insert(random.below(word.len() + 1), SPOILED);
            word
        }
    }
}

/// Whether the search for a word is short: few ways lead to each of its places.
fn is_easy(list: &[Vec<u8>], word: &[u8]) -> bool {
    let mut ways = vec![0_u64; word.len() + 1];
    ways[0] = 1;
    for at in 0..word.len() {
        for one in list.iter().filter(|one| word[at..].starts_with(one)) {
            ways[at + one.len()] = ways[at + one.len()].saturating_add(ways[at]);
        }
    }
    ways.iter().all(|ways| *ways < 2_000)
}

/// A word of an exam: listed words one after another, or nearly, or a bad word.
fn asked(random: &mut Random, list: &[Vec<u8>]) -> Vec<u8> {
    let most = *random.pick(&[8, 14, 64, 64]);
    let mut word = match list.is_empty() {
        true => lists::word(random, 3, 1, 5),
        false => lists::nearly_joined(random, list, most),
    };
    if !is_easy(list, &word) {
        word.truncate(11);
    }
    match random.one_in(8) {
        true => spoiled(random, word),
        false => word,
    }
}

/// A list of any words, of few short ones, or of words eight of which have 64 letters.
fn listed(random: &mut Random) -> Vec<Vec<u8>> {
    match random.below(10) {
        0..=2 => lists::any(random),
        3..=4 => vec![lists::word(random, 3, 8, 8), lists::word(random, 3, 8, 8)],
        _ => lists::few(random),
    }
}

/// The texts of a list, with repeats and now and then with a bad word, and of an exam.
fn drawn(random: &mut Random) -> (Vec<u8>, Vec<u8>) {
    let (mut list, faces) = (listed(random), faces(random));
    let exam: Vec<Vec<u8>> = (0..random.below(16))
        .map(|_| asked(random, &list))
        .collect();
    if !list.is_empty() {
        let repeats = (0..random.below(list.len() + 1)).map(|_| random.pick(&list).clone());
        let repeats: Vec<Vec<u8>> = repeats.collect();
        list.extend(repeats);
        if random.one_in(10) {
            let word = random.pick(&list).clone();
            list.push(spoiled(random, word));
        }
    }
    random.shuffle(&mut list);
    let [list, exam] = [list, exam].map(|words| {
        let words = words.iter().map(|word| written(random, &faces, word));
        let words: Vec<Vec<u8>> = words.collect();
        edited(random, &words)
    });
    (list, exam)
}

/// A case of the random tests.
fn case(number: u64) -> (Vec<u8>, Vec<u8>) {
    drawn(&mut Random::of_case(0x4E75, number))
}

fn has(text: &[u8], part: &str) -> bool {
    text.windows(part.len()).any(|some| some == part.as_bytes())
}

/// What can come up in a case, and whether it did.
#[rustfmt::skip]
fn kinds(list: &[u8], exam: &[u8], said: &Said) -> [(&'static str, bool); 22] {
    let Said { out, err, status } = said;
    let (taken, both) = (*status < 2, |part| has(list, part) && has(exam, part));
    let in_list = has(err, "keys: words.txt, line ");
    [
        ("a word without readings", has(out, &format!("READINGS{}\nEND", " ".repeat(64)))),
        ("a word with several", has(out, "\n    2 ")),
        ("more", has(out, "\nMORE")),
        ("a second line", has(out, "\n      ")),
        ("no letter", has(out, ", is no letter")),
        ("a byte", has(out, ", byte FF, ")),
        ("a control character", has(out, ", byte C2 85, ")),
        ("a letter too many", has(out, "is a letter too many")),
        ("none refused", *status == 0 && !out.is_empty()),
        ("no word", has(err, "keys: words 0")),
        ("a list with what is no letter", in_list && has(err, "is no letter")),
        ("a list with a letter too many", in_list && has(err, "is a letter too many")),
        ("a list with too many states", in_list && has(err, "over 256 states")),
        ("umlauts", taken && has(out, "|ä")),
        ("sharp s", taken && has(out, "|ß")),
        ("a capital sharp s", taken && both("ẞ")),
        ("carriage returns", taken && both("\r\n")),
        ("marks", taken && both(MARK)),
        ("comments", taken && both("#")),
        ("blanks", taken && both(" \t ")),
        ("a list without its last line feed", taken && !list.ends_with(b"\n")),
        ("an exam without its last line feed", taken && !exam.ends_with(b"\n")),
    ]
}

#[test]
fn random_lists_and_exams_agree() {
    let mut tally = BTreeMap::new();
    for number in 0..600 {
        let (list, exam) = case(number);
        let said = agrees(&list, &exam);
        for (kind, came_up) in kinds(&list, &exam, &said) {
            *tally.entry(kind).or_insert(0) += u32::from(came_up);
        }
    }
    assert!(tally.values().all(|seen| *seen >= 10), "{tally:?}");
}

#[test]
fn each_planted_fault_is_noticed() {
    let mut tally = Fault::ALL.map(|fault| (fault, 0));
    for number in 0..300 {
        let (list, exam) = case(number);
        let right = keys(NAME, &list, &exam);
        for (fault, noticed) in &mut tally {
            *noticed += u32::from(wrong(*fault, NAME, &list, &exam) != right);
        }
    }
    assert!(tally.iter().all(|(_, noticed)| *noticed >= 5), "{tally:?}");
}
