//! The proved library on random searches, starts and damaged places, against the model and the lister.
use readings_check::answer::{DONE, ENDED, FOUND, PAUSED};
use readings_check::compare::fixed;
use readings_check::compare::loops::Loops;
use readings_check::compare::rival::Rival;
use readings_check::compare::tally::Tally;
use readings_check::library::Library;

fn agreed(result: Result<Tally, String>) -> Tally {
    result.unwrap_or_else(|difference| panic!("{difference}"))
}

#[test]
fn searches_agree() {
    let tally = agreed(fixed::searches(&Library));
    tally.demand(1_000, &[DONE, FOUND, PAUSED, ENDED], &[12, 21, 22, 23]);
    tally.demand_loops(1_000, &[Loops::Apart]);
}

#[test]
fn starts_agree() {
    let tally = agreed(fixed::starts(&Library));
    tally.demand(500, &[DONE], &[10, 11, 12, 20, 39]);
    tally.demand_loops(400, &[Loops::Apart, Loops::Both, Loops::Barred]);
}

#[test]
fn knots_agree() {
    let tally = agreed(fixed::knots(&Library));
    tally.demand(1_000, &[DONE], &[12]);
    let rivals = [
        Rival::Longer,
        Rival::Later,
        Rival::Shorter,
        Rival::Higher,
        Rival::Turned,
    ];
    tally.demand_rivals(500, &rivals);
}

#[test]
fn damaged_places_agree() {
    let tally = agreed(fixed::damaged(&Library));
    tally.demand(300, &[FOUND, PAUSED, ENDED], &[10, 11, 20, 21, 22, 23, 39]);
}

#[test]
fn arbitrary_numbers_agree() {
    let tally = agreed(fixed::arbitrary(&Library));
    tally.demand(50, &[FOUND, PAUSED, ENDED], &[10, 11, 20, 21]);
}
