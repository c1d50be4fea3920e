//! The fixed series of cases that an engine is put to.
use super::tally::Tally;
use super::{cuts, damage, inverse, search, series, sheets, start, texts, words};
use crate::engine::{Engine, Sheets, Texts, Trees};

/// Starts and lists of calls on one run.
pub fn searches(engine: &impl Engine) -> Result<Tally, String> {
    series("searches", 0x5EA2C4, 17_000, |random, tally| {
        search::any(engine, random, tally)
    })
}

/// Starts on good and bad tables, tasks and words.
pub fn starts(engine: &impl Engine) -> Result<Tally, String> {
    series("starts", 0x57A275, 25_000, |random, tally| {
        start::any(engine, random, tally)
    })
}

/// Starts on tables with many idle arcs between few states.
pub fn knots(engine: &impl Engine) -> Result<Tally, String> {
    series("knots", 0x6B0275, 10_000, |random, tally| {
        start::knotted(engine, random, tally)
    })
}

/// Calls on places with damage.
pub fn damaged(engine: &impl Engine) -> Result<Tally, String> {
    series("damaged places", 0xDA3A6E, 30_000, |random, tally| {
        damage::any(engine, random, tally)
    })
}

/// Calls on any numbers.
pub fn arbitrary(engine: &impl Engine) -> Result<Tally, String> {
    series("arbitrary numbers", 0xA2B174, 20_000, |random, tally| {
        damage::arbitrary(engine, random, tally)
    })
}

/// All of them; nothing, or the first difference.
pub fn all(engine: &impl Engine) -> Result<(), String> {
    searches(engine)?;
    starts(engine)?;
    knots(engine)?;
    damaged(engine)?;
    arbitrary(engine)?;
    Ok(())
}

/// Texts of random tables, written and read back.
pub fn round_trips(texts: &impl Texts) -> Result<Tally, String> {
    series("round trips", 0x72147, 5_000, |random, tally| {
        texts::round_trip(texts, random, tally)
    })
}

/// Texts and tables with damage.
pub fn damaged_texts(texts: &impl Texts) -> Result<Tally, String> {
    series("damaged texts", 0x7E875, 40_000, |random, tally| {
        texts::damaged(texts, random, tally)
    })
}

/// All texts; nothing, or the first difference.
pub fn all_texts(texts: &impl Texts) -> Result<(), String> {
    round_trips(texts)?;
    damaged_texts(texts)?;
    Ok(())
}

/// Tables of random word lists, with and without flaws.
pub fn lists(trees: &impl Trees) -> Result<Tally, String> {
    series("lists", 0x11575, 20_000, |random, tally| {
        words::any(trees, random, tally)
    })
}

/// All word lists; nothing, or the first difference.
pub fn all_lists(trees: &impl Trees) -> Result<(), String> {
    words::sizes(trees)?;
    words::limits(trees)?;
    words::bad_words(trees)?;
    words::flaws(trees)?;
    words::cut_short(trees)?;
    words::places(trees)?;
    lists(trees)?;
    Ok(())
}

/// Words cut into those of random lists.
pub fn cuts(engine: &(impl Trees + Engine)) -> Result<Tally, String> {
    series("cuts", 0xC0755, 10_000, |random, tally| {
        cuts::any(engine, random, tally)
    })
}

/// Sheets of random lists, with and without faults.
pub fn sheets(sheets: &impl Sheets) -> Result<Tally, String> {
    series("sheets", 0x54EE7, 20_000, |random, tally| {
        sheets::any(sheets, random, tally)
    })
}

/// All sheets; nothing, or the first difference.
pub fn all_sheets(sheets: &impl Sheets) -> Result<(), String> {
    sheets::sizes(sheets)?;
    sheets::faults(sheets)?;
    self::sheets(sheets)?;
    Ok(())
}

/// Starts on good and bad tables, tasks and words, beside those on the inverse tables.
pub fn inverse_starts(engine: &impl Engine) -> Result<Tally, String> {
    series("inverse starts", 0x1F7E45, 10_000, |random, tally| {
        inverse::compare(engine, inverse::cells, |both| {
            start::any(both, random, tally)
        })
    })
}

/// Starts on tables with many idle arcs between few states, beside those on the inverse tables.
pub fn inverse_knots(engine: &impl Engine) -> Result<Tally, String> {
    series("inverse knots", 0x1F7E46, 3_000, |random, tally| {
        inverse::compare(engine, inverse::cells, |both| {
            start::knotted(both, random, tally)
        })
    })
}

/// Starts and lists of calls on one run, beside those on the inverse table.
pub fn inverse_searches(engine: &impl Engine) -> Result<Tally, String> {
    let seed = inverse::SEARCHES;
    series("inverse searches", seed, 5_000, |random, tally| {
        inverse::compare(engine, inverse::cells, |both| {
            search::any(both, random, tally)
        })
    })
}

/// Calls on places with damage, beside those on the inverse tables.
pub fn inverse_places(engine: &impl Engine) -> Result<Tally, String> {
    series("inverse places", 0x1F7E48, 10_000, |random, tally| {
        inverse::compare(engine, inverse::cells, |both| {
            damage::any(both, random, tally)
        })
    })
}

/// Tables with and without damage written, beside the inverse ones.
pub fn inverse_tables(texts: &impl Texts) -> Result<Tally, String> {
    series("inverse tables", 0x1F7E49, 4_000, |random, tally| {
        inverse::compare(texts, inverse::cells, |both| {
            texts::round_trip(both, random, tally)?;
            texts::damaged(both, random, tally)
        })
    })
}
