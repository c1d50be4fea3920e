//! One sheet: the answer, and every byte that was lent; and the pages for which it is compared.
use super::page::{Fault, Page};
use super::tally::Tally;
use super::{about, gets, same};
use crate::answer::{Answer, DONE};
use crate::draw;
use crate::engine::{Sheet, Sheets};
use crate::lent::Lent;
use crate::model::Model;
use crate::random::Random;
use crate::sheet;

/// What stands in a destination before; no character of a sheet.
const STALE: u8 = 0xEE;

/// Numbers for a run that has ended; most would be 0 if they were cut short.
const ENDED: [u32; 7] = [1, 2, 3, 256, 65_536, 1 << 31, u32::MAX];

fn check(sheets: &impl Sheets, page: &Page, bytes: usize) -> Result<Answer, String> {
    let (lent, stale) = (page.lent(), vec![STALE; bytes]);
    let mut expected_bytes = stale.clone();
    let expected = Model.sheet(page.sheet(&lent), &mut expected_bytes);
    let mut readings = Lent::new(&lent, 0xAB);
    let mut faces = Lent::new(&page.faces, 0xAB);
    let mut destination = Lent::new(&stale, 0xAB);
    let handed = Sheet {
        readings: readings.lend(),
        faces: (&*faces.lend()).try_into().expect("63 faces"),
        ended: page.ended,
    };
    let answer = sheets.sheet(handed, destination.lend());
    same("answer", answer, expected)?;
    destination.expect("sheet", &expected_bytes)?;
    readings.expect("readings", &lent)?;
    faces.expect("faces", &page.faces)?;
    if answer.kind == DONE {
        let written = &destination.content()[..answer.length as usize];
        let read = sheet::read(written, &page.faces);
        let read = read.map(|(list, ended)| (sheet::packed(&list), ended));
        if read != Some((lent, page.ended != 0)) {
            return Err("another list or last word read back".to_string());
        }
    }
    Ok(answer)
}

/// Writes a sheet to a destination of so many bytes, with the model and with what is compared; what was written is read back.
pub fn compare(sheets: &impl Sheets, page: &Page, bytes: usize) -> Result<Answer, String> {
    check(sheets, page, bytes)
        .map_err(|difference| format!("{difference}, on {bytes} bytes for {page:?}"))
}

/// Written where the destination is as long as the sheet or longer, and refused with 24 where it is shorter.
fn written(sheets: &impl Sheets, page: &Page) -> Result<(), String> {
    let size = page.size();
    let enough = [size + 100, size + 1, size];
    let short = [size - 1, size - 73, size / 2, 1, 0];
    let call = |bytes| compare(sheets, page, bytes);
    gets(enough, Answer::done(size), call)?;
    gets(short, Answer::refused(24, 0), call)
}

/// Refused with 33, whatever the destination.
fn refused(sheets: &impl Sheets, page: &Page) -> Result<(), String> {
    let size = page.size();
    let destinations = [size + 100, size, size - 1, 146, 0];
    let call = |bytes| compare(sheets, page, bytes);
    gets(destinations, Answer::refused(33, 0), call)
}

/// Readings of lengths about a line's, and the longest; lists of none to 1,000 readings; what a run's end may be; and the last faces.
pub fn sizes(sheets: &impl Sheets) -> Result<(), String> {
    let lengths = [0, 1, 2, 65, 66, 67, 131, 132, 133, 197, 198, 199];
    let long = [
        263, 264, 265, 32_768, 65_471, 65_472, 65_473, 65_534, 65_535,
    ];
    for length in lengths.into_iter().chain(long) {
        written(sheets, &Page::of_lengths([length]))?;
        written(sheets, &Page::of_lengths([length, 0, length, 1]))?;
    }
    written(sheets, &Page::of_lengths(lengths))?;
    for count in [0, 1, 2, 9, 10, 11, 99, 100, 101, 999, 1_000] {
        for length in [0, 1, 66, 67] {
            written(sheets, &Page::of_lengths(vec![length; count]))?;
        }
    }
    let page = Page::of_lengths([3, 70]);
    for ended in ENDED.into_iter().chain([0]) {
        let page = page.clone();
        written(sheets, &Page { ended, ..page })?;
    }
    let faces = std::array::from_fn(|k| b'~' - k as u8);
    written(sheets, &Page { faces, ..page })
}

/// Each fault, each two together, each two faces that are equal, and each face with each character that is none.
pub fn faults(sheets: &impl Sheets) -> Result<(), String> {
    let page = Page::of_lengths([67, 5, 132]);
    written(sheets, &page)?;
    let with = |faults: &[Fault]| {
        let mut page = page.clone();
        faults.iter().for_each(|fault| fault.plant(&mut page));
        page
    };
    let faults = Fault::all(&page);
    for one in &faults {
        refused(sheets, &with(&[*one]))?;
        for other in faults.iter().filter(|other| *other != one) {
            refused(sheets, &with(&[*one, *other]))?;
        }
    }
    for one in 0..63 {
        for other in (0..63).filter(|other| *other != one) {
            refused(sheets, &with(&[Fault::Repeated(one, other)]))?;
        }
        for character in (0..33).chain(127..=255) {
            refused(sheets, &with(&[Fault::Face(one, character)]))?;
        }
    }
    for letter in (64..=255).chain([0]) {
        refused(sheets, &with(&[Fault::Letter(1, 2, letter)]))?;
    }
    last_reading(sheets)?;
    for count in [1_001, 1_002, 1_256, 2_000] {
        refused(sheets, &Page::of_lengths(vec![1; count]))?;
    }
    Ok(())
}

/// Faults of a last reading that is the 1,000th, or as long as one can be.
fn last_reading(sheets: &impl Sheets) -> Result<(), String> {
    for lengths in [vec![2; 1_000], vec![65_535], vec![1, 65_535]] {
        let page = Page::of_lengths(lengths);
        let last = page.list[page.list.len() - 1].len();
        let missing = [1, last, last + 1].map(Fault::Missing);
        let letters = [0, last - 1].map(|at| Fault::Letter(0, at, 64));
        for fault in missing.into_iter().chain(letters) {
            let mut page = page.clone();
            fault.plant(&mut page);
            refused(sheets, &page)?;
        }
    }
    Ok(())
}

/// A random list over random faces, with none to two faults, to a destination about as long as its sheet.
pub fn any(sheets: &impl Sheets, random: &mut Random, tally: &mut Tally) -> Result<(), String> {
    let mut page = Page {
        faces: draw::faces(random),
        ended: if random.one_in(2) {
            0
        } else {
            *random.pick(&ENDED)
        },
        ..Page::new(draw::readings(random))
    };
    for _ in 0..random.below(3) {
        spoil(random, &mut page);
    }
    let bytes = about(random, page.size());
    tally.add(compare(sheets, &page, bytes)?);
    Ok(())
}

/// One thing made bad, or nearly.
fn spoil(random: &mut Random, page: &mut Page) {
    match random.below(5) {
        0 => Fault::Repeated(random.below(63), random.below(63)).plant(page),
        1 => {
            let character = *random.pick(&[0, 10, 32, 33, 126, 127, 128, 255]);
            Fault::Face(random.below(63), character).plant(page);
        }
        2 => page.list.resize(random.within(999, 1_002), vec![]),
        3 => page.missing = random.below(page.lent().len().min(9) + 1),
        _ => {
            let reading = random.below(page.list.len().max(1));
            let length = page.list.get(reading).map_or(0, Vec::len);
            if length > 0 {
                let letter = *random.pick(&[0, 1, 63, 64, 128, 255]);
                page.list[reading][random.below(length)] = letter;
            }
        }
    }
}
