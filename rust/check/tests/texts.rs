//! The proved library on texts of tables, good, damaged and arbitrary.
use readings_check::answer::DONE;
use readings_check::compare::fixed;
use readings_check::compare::tally::Tally;
use readings_check::library::Library;

fn agreed(result: Result<Tally, String>) -> Tally {
    result.unwrap_or_else(|difference| panic!("{difference}"))
}

#[test]
fn round_trips_agree() {
    let tally = agreed(fixed::round_trips(&Library));
    tally.demand(1_000, &[DONE], &[24]);
}

#[test]
fn damaged_texts_agree() {
    let tally = agreed(fixed::damaged_texts(&Library));
    tally.demand(100, &[DONE], &[1, 2, 3, 4, 5, 6, 7, 9, 20, 24, 34]);
    tally.demand(20, &[], &[8]);
}
