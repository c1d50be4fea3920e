//! The proved library's tables of word lists, cell by cell, and the cuts of words over them, in order.
use readings::limits::{MOST_WORD, TEXT_BYTES};
use readings_check::answer::{Answer, DONE, Run};
use readings_check::compare::tally::Cuts;
use readings_check::compare::{cuts, fixed, listed, words};
use readings_check::draw::lists;
use readings_check::engine::{Engine, Start, Texts, Trees};
use readings_check::german;
use readings_check::library::Library;
use readings_check::model::Model;
use readings_check::query::{ANALYSIS, MOST_CEILING};
use readings_check::random::Random;
use readings_check::tree;
use readings_check::twin::SOUND;
use readings_check::words as list;

fn agreed<T>(result: Result<T, String>) -> T {
    result.unwrap_or_else(|difference| panic!("{difference}"))
}

#[test]
fn sizes_agree() {
    agreed(words::sizes(&Library));
}

#[test]
fn limits_agree() {
    agreed(words::limits(&Library));
}

#[test]
fn bad_words_agree() {
    agreed(words::bad_words(&Library));
}

#[test]
fn letters_at_each_place_agree() {
    agreed(words::places(&Library));
}

#[test]
fn lists_cut_short_agree() {
    agreed(words::cut_short(&Library));
}

#[test]
fn flaws_agree() {
    agreed(words::flaws(&Library));
}

#[test]
fn random_lists_agree() {
    let tally = agreed(fixed::lists(&Library));
    tally.demand(1_000, &[DONE], &[24, 30, 31, 32]);
}

#[test]
fn random_cuts_agree() {
    let tally = agreed(fixed::cuts(&Library));
    tally.demand_cuts(1_000, &[Cuts::None, Cuts::One, Cuts::Few, Cuts::Many]);
}

/// The readings of a word over a list, shown with bars.
fn shown(engine: &(impl Trees + Engine), list: &[&str], word: &str) -> Vec<String> {
    let table = agreed(cuts::table(engine, &german::letters(list)));
    let readings = agreed(cuts::synthesis(engine, &table, &tree::letters(word)));
    readings
        .iter()
        .map(|reading| tree::shown(reading))
        .collect()
}

/// Cuts as a person sees them.
fn as_seen(engine: &(impl Trees + Engine)) {
    let eight = |word| shown(engine, &german::EIGHT, word);
    assert_eq!(eight("staubecken"), ["staub|ecken", "stau|becken"]);
    assert_eq!(eight("wachstube"), ["wachs|tube", "wach|stube"]);
    assert_eq!(eight("tubetube"), ["tube|tube"]);
    assert!(eight("").is_empty() && eight("staubeck").is_empty());
    let expected = ["staubecken|rand", "staub|ecken|rand", "stau|becken|rand"];
    let word = "staubeckenrand";
    assert_eq!(shown(engine, &german::MANY, word), expected);
    let expected = ["aaa", "aa|a", "a|aa", "a|a|a"];
    assert_eq!(shown(engine, &["a", "aa", "aaa"], "aaa"), expected);
    assert!(shown(engine, &[], "a").is_empty());
}

#[test]
fn the_library_cuts_as_a_person_sees() {
    as_seen(&Library);
}

#[test]
fn the_model_cuts_as_a_person_sees() {
    as_seen(&Model);
}

#[test]
fn the_twin_cuts_as_a_person_sees() {
    as_seen(&SOUND);
}

#[test]
fn compounds_are_cut_in_every_way() {
    let list = german::letters(&german::MANY);
    assert!(list.is_sorted() && tree::size(list.iter().map(Vec::as_slice)) == 210);
    for (word, count) in german::COMPOUNDS {
        let cut = agreed(cuts::compare(&Library, &list, &tree::letters(word)));
        assert_eq!(cut, count, "{word}");
    }
}

/// Compounds of every length up to 64 letters, most of which mean nothing.
#[test]
fn random_compounds_are_cut_in_every_way() {
    let list = german::letters(&german::MANY);
    let mut several = 0;
    for case in 0..2_000 {
        let random = &mut Random::of_case(0x6E27A, case);
        let letters = random.within(2, MOST_WORD);
        let word = lists::joined(random, &list, letters);
        several += usize::from(agreed(cuts::compare(&Library, &list, &word)) > 1);
    }
    assert!(several > 500, "only {several} in several ways");
}

/// The library writes such a table as text, so that it keeps the rules, and starts it in every task.
fn is_sound(cells: &[u16]) {
    let written = Library.write(cells, &mut [0; TEXT_BYTES]);
    assert_eq!(written.kind, DONE, "{cells:?}");
    for task in 1..=3 {
        let start = Start {
            table: cells,
            task,
            ceiling: MOST_CEILING,
            upper: &[],
            lower: &[],
        };
        let started = Library.start(start, &mut Run::default());
        assert_eq!(started.answer, Answer::done(0), "task {task}, {cells:?}");
    }
}

#[test]
fn every_table_keeps_the_rules_and_starts() {
    let held = [vec![], listed::short(255), listed::longest()];
    let german = [
        german::letters(&german::EIGHT),
        german::letters(&german::MANY),
    ];
    for list in held.iter().chain(&german) {
        is_sound(&agreed(cuts::table(&Library, list)));
    }
    let mut made = 0;
    for case in 0..5_000 {
        let drawn = lists::any(&mut Random::of_case(0x50_0D, case));
        if list::parse(&list::packed(&drawn)).is_ok() {
            is_sound(&agreed(cuts::table(&Library, &drawn)));
            made += 1;
        }
    }
    assert!(made > 2_000, "only {made} tables");
}

/// Analysis of a cut takes the marks out, in one way.
#[test]
fn a_cut_is_read_back() {
    let list = german::letters(&german::MANY);
    let table = agreed(cuts::table(&Library, &list));
    for (word, _) in german::COMPOUNDS {
        let word = tree::letters(word);
        let cuts = list::cuts(&list, &word).into_iter();
        for cut in cuts.filter(|cut| cut.len() <= MOST_WORD) {
            let start = Start {
                table: &table,
                task: ANALYSIS,
                ceiling: MOST_CEILING,
                upper: &[],
                lower: &cut,
            };
            assert_eq!(agreed(cuts::readings(&Library, start)), [&word[..]]);
        }
    }
}
