//! The program `keys`, written from its text alone: a list of words and the words of an exam in, the sheet of each exam word out. At
//! every place of a word every listed word is tried. And the same program with faults, which a test has to notice.
use std::collections::BTreeSet;

/// Bytes of a list, and of an exam.
pub const LONGEST: usize = 65_536;
/// Different beginnings of listed words, the empty one among them.
const STATES: usize = 256;
/// Letters of a word.
const LETTERS: usize = 64;
/// Readings of a sheet. The other limit, 65,536 calls of 1,000 steps, is not known here: words that come to it are tested by themselves.
const READINGS: usize = 1_000;
/// Characters of a sheet's line.
const COLUMNS: usize = 72;
/// Of these, letters.
const ROW: usize = 66;

/// The small letters.
pub const SMALL: &str = "abcdefghijklmnopqrstuvwxyzäöüßàáâãåæçèéêëìíîïðñòóôõøùúûýþÿœšž";

/// A word in small letters, or a reading, with bars between its words.
type Letters = Vec<char>;

/// What is said on standard output and on standard error, and the exit status of the script.
#[derive(Clone, Debug, PartialEq, Eq)]
pub struct Said {
    pub out: Vec<u8>,
    pub err: Vec<u8>,
    pub status: i32,
}

/// What a wrong program does.
#[derive(Clone, Copy, Debug, PartialEq, Eq)]
pub enum Fault {
    ShorterFirst,
    EndForMore,
    /// The last of several readings is not shown.
    ReadingDropped,
    /// What stands after the first line of a reading is not shown.
    RowDropped,
    /// Lines are filled up by their bytes.
    BytesFilled,
    /// Capitals are letters of their own.
    CapitalsKept,
    /// ä is read as a.
    UmlautFolded,
    /// A capital ß is no letter.
    SharpRefused,
    /// A carriage return is no blank.
    ReturnKept,
    /// The byte order mark is a part of the first line.
    MarkKept,
    CommentRead,
    /// A last line without its line feed is not looked at.
    LastLineLost,
    /// Lines are counted without comments and empty ones.
    WordsNumbered,
    /// Places in a word are counted in bytes.
    BytesNumbered,
    /// A control character is shown as it is.
    ControlShown,
    /// A word is taken that has a letter too many.
    LongTaken,
    /// Repeated words count among the different ones.
    RepeatsCounted,
    /// After a bad word no other one is looked at.
    RefusedLast,
}

impl Fault {
    pub const ALL: [Fault; 18] = [
        Fault::ShorterFirst,
        Fault::EndForMore,
        Fault::ReadingDropped,
        Fault::RowDropped,
        Fault::BytesFilled,
        Fault::CapitalsKept,
        Fault::UmlautFolded,
        Fault::SharpRefused,
        Fault::ReturnKept,
        Fault::MarkKept,
        Fault::CommentRead,
        Fault::LastLineLost,
        Fault::WordsNumbered,
        Fault::BytesNumbered,
        Fault::ControlShown,
        Fault::LongTaken,
        Fault::RepeatsCounted,
        Fault::RefusedLast,
    ];
}

/// A program with one of the faults, or with none.
#[derive(Clone, Copy)]
struct Program(Option<Fault>);

/// What the program says to a list, whose file has this name, and an exam.
pub fn keys(name: &str, list: &[u8], exam: &[u8]) -> Said {
    Program(None).run(name, list, exam)
}

/// What a wrong program says.
pub fn wrong(fault: Fault, name: &str, list: &[u8], exam: &[u8]) -> Said {
    Program(Some(fault)).run(name, list, exam)
}

/// The capital of a small letter.
pub fn capital(letter: char) -> char {
    match letter {
        'ß' => 'ẞ',
        _ => letter.to_uppercase().next().expect("a capital"),
    }
}

/// The characters of a word; bytes that are no part of one stand by themselves.
fn characters(word: &[u8]) -> impl Iterator<Item = Result<char, u8>> {
    word.utf8_chunks().flat_map(|chunk| {
        let bytes = chunk.invalid().iter();
        chunk.valid().chars().map(Ok).chain(bytes.copied().map(Err))
    })
}

/// A line with blanks up to so many characters.
fn filled(text: &str, columns: usize) -> String {
    format!("{text:<columns$}\n")
}

/// The whole lines within the longest list.
fn whole_lines(text: &[u8]) -> &[u8] {
    let front = &text[..LONGEST];
    let last = front.iter().rposition(|byte| *byte == b'\n');
    &front[..last.map_or(0, |at| at + 1)]
}

/// Where and by which limit a list is too long, and how many words fit.
fn too_long(limit: &str, words: usize) -> String {
    format!("the list is too long {limit}; words before it that fit: {words}")
}

impl Program {
    fn has(self, fault: Fault) -> bool {
        self.0 == Some(fault)
    }

    /// The small letter of a letter; none where a character is no letter.
    fn small(self, c: char) -> Option<char> {
        let letter = c.to_lowercase().next()?;
        let is_letter = SMALL.contains(letter) && (c == letter || c == capital(letter));
        match c {
            'ä' | 'Ä' if self.has(Fault::UmlautFolded) => Some('a'),
            'ẞ' if self.has(Fault::SharpRefused) => None,
            _ if self.has(Fault::CapitalsKept) => is_letter.then_some(c),
            _ => is_letter.then_some(letter),
        }
    }

    /// A character in quotes, or its bytes where it would not be seen.
    fn shown(self, character: Result<char, u8>) -> String {
        match character {
            Ok(c) if !c.is_control() || self.has(Fault::ControlShown) => format!("\"{c}\""),
            Ok(c) => {
                let digits = c.to_string().into_bytes();
                let digits = digits.iter().map(|byte| format!(" {byte:02X}"));
                format!("byte{}", digits.collect::<String>())
            }
            Err(byte) => format!("byte {byte:02X}"),
        }
    }

    /// A word in small letters, or what is wrong with it.
    fn spelled(self, word: &[u8]) -> Result<Letters, String> {
        let most = LETTERS + usize::from(self.has(Fault::LongTaken));
        let mut letters = Letters::new();
        for character in characters(word) {
            let before = match self.has(Fault::BytesNumbered) {
                true => letters.iter().map(|c| c.len_utf8()).sum(),
                false => letters.len(),
            };
            let wrong = match character.ok().and_then(|c| self.small(c)) {
                None => "no letter",
                Some(_) if letters.len() == most => "a letter too many: a word has at most 64",
                Some(letter) => {
                    letters.push(letter);
                    continue;
                }
            };
            let shown = self.shown(character);
            return Err(format!("character {}, {shown}, is {wrong}", before + 1));
        }
        Ok(letters)
    }

    /// A line without the blanks at its ends.
    fn trimmed(self, line: &[u8]) -> &[u8] {
        let is_blank = |c: &u8| b" \t".contains(c) || *c == b'\r' && !self.has(Fault::ReturnKept);
        let first = line.iter().position(|c| !is_blank(c));
        let last = line.iter().rposition(|c| !is_blank(c));
        first.zip(last).map_or(&[], |(a, b)| &line[a..=b])
    }

    /// The words of a text, each with the number of its line.
    fn words(self, text: &[u8]) -> Vec<(usize, &[u8])> {
        let mark = text.strip_prefix(b"\xEF\xBB\xBF");
        let text = mark.filter(|_| !self.has(Fault::MarkKept)).unwrap_or(text);
        let mut lines: Vec<&[u8]> = text.split(|c| *c == b'\n').collect();
        if self.has(Fault::LastLineLost) {
            lines.pop();
        }
        let lines = lines.into_iter().map(|line| self.trimmed(line));
        let mut words: Vec<(usize, &[u8])> = (1..).zip(lines).collect();
        let is_comment = |word: &[u8]| word.starts_with(b"#") && !self.has(Fault::CommentRead);
        words.retain(|(_, word)| !word.is_empty() && !is_comment(word));
        if self.has(Fault::WordsNumbered) {
            words.iter_mut().zip(1..).for_each(|(word, n)| word.0 = n);
        }
        words
    }

    /// The different words of a list, or what is told of it.
    fn listed(self, name: &str, text: &[u8]) -> Result<BTreeSet<Letters>, Vec<u8>> {
        let is_long = text.len() > LONGEST;
        let looked_at = if is_long { whole_lines(text) } else { text };
        let (mut list, mut states) = (BTreeSet::new(), BTreeSet::from([vec![]]));
        let mut repeats = 0;
        for (line, word) in self.words(looked_at) {
            let at = |fault: String| {
                let front = format!("keys: {name}, line {line}, \"").into_bytes();
                [&front, word, format!("\": {fault}\n").as_bytes()].concat()
            };
            let letters = self.spelled(word).map_err(at)?;
            states.extend((1..=letters.len()).map(|n| letters[..n].to_vec()));
            if states.len() > STATES {
                let long = too_long("with this word, over 256 states", list.len() + repeats);
                return Err(at(long));
            }
            let is_new = list.insert(letters);
            repeats += usize::from(!is_new && self.has(Fault::RepeatsCounted));
        }
        if is_long {
            let line = 1 + looked_at.iter().filter(|c| **c == b'\n').count();
            let long = too_long("here, over 65,536 bytes", list.len() + repeats);
            return Err(format!("keys: {name}, line {line}: {long}\n").into_bytes());
        }
        Ok(list)
    }

    /// Adds the ways to cut the rest of a word, each after the same front, until there are as many as a sheet has.
    fn cut(self, list: &BTreeSet<Letters>, front: &[char], rest: &[char], ways: &mut Vec<Letters>) {
        if rest.is_empty() {
            ways.push(front.to_vec());
        }
        let mut ends: Vec<usize> = (1..=rest.len()).collect();
        if !self.has(Fault::ShorterFirst) {
            ends.reverse();
        }
        for end in ends {
            let (word, rest) = rest.split_at(end);
            if ways.len() < READINGS && list.contains(word) {
                let bar: &[char] = if front.is_empty() { &[] } else { &['|'] };
                self.cut(list, &[front, bar, word].concat(), rest, ways);
            }
        }
    }

    /// A line of letters behind an ordinal or nothing.
    fn row(self, front: &str, letters: &[char]) -> String {
        let letters: String = letters.iter().collect();
        let missing = match self.has(Fault::BytesFilled) {
            true => letters.len() - letters.chars().count(),
            false => 0,
        };
        filled(&format!("{front:>5} {letters}"), COLUMNS - missing)
    }

    /// The sheet of some readings.
    fn sheet(self, readings: &[Letters]) -> String {
        let mut sheet = filled("READINGS", COLUMNS);
        for (ordinal, reading) in (1..).zip(readings) {
            let (first, rest) = reading.split_at(reading.len().min(ROW));
            sheet += &self.row(&format!("{ordinal}"), first);
            for letters in rest.chunks(ROW) {
                if !self.has(Fault::RowDropped) {
                    sheet += &self.row("", letters);
                }
            }
        }
        let ended = readings.len() < READINGS || self.has(Fault::EndForMore);
        sheet + &filled(if ended { "END" } else { "MORE" }, COLUMNS)
    }

    /// The sheets of an exam's words, and the last line.
    fn answered(self, list: &BTreeSet<Letters>, exam: &[u8]) -> Said {
        let (mut out, mut err) = (Vec::new(), String::new());
        let (mut words, mut shown, mut refused) = (0, 0, 0);
        for (line, word) in self.words(exam) {
            words += 1;
            out.extend([word, b"\n"].concat());
            match self.spelled(word) {
                Ok(letters) => {
                    let mut readings = Vec::new();
                    self.cut(list, &[], &letters, &mut readings);
                    if self.has(Fault::ReadingDropped) && readings.len() > 1 {
                        readings.pop();
                    }
                    shown += readings.len();
                    out.extend(self.sheet(&readings).bytes());
                }
                Err(fault) => {
                    refused += 1;
                    out.extend(format!("no key: {fault}\n").bytes());
                    err += &format!("keys: line {line}: {fault}\n");
                }
            }
            out.push(b'\n');
            if self.has(Fault::RefusedLast) && refused > 0 {
                break;
            }
        }
        err += &format!("keys: words {words}, readings {shown}, refused {refused}\n");
        Said {
            out,
            err: err.into(),
            status: i32::from(refused > 0),
        }
    }

    /// The list is judged before the exam.
    fn run(self, name: &str, list: &[u8], exam: &[u8]) -> Said {
        let failed = |err: Vec<u8>| Said {
            out: Vec::new(),
            err,
            status: 2,
        };
        match self.listed(name, list) {
            Err(fault) => failed(fault),
            Ok(_) if exam.len() > LONGEST => {
                failed(b"keys: standard input has over 65,536 bytes\n".to_vec())
            }
            Ok(list) => self.answered(&list, exam),
        }
    }
}
