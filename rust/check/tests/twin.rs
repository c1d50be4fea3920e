//! The comparison that the library is put to finds nothing in the benchmark's twin, and finds each planted fault.
use readings_check::answer::Answer;
use readings_check::compare::fixed;
use readings_check::engine::{Engine, Sheets, Texts, Trees};
use readings_check::text;
use readings_check::twin::{PLAIN, SOUND, Twin, fault};

/// A fault is noticed, and so is said of it.
fn found(engine: &impl Engine, said: &str) {
    let difference = fixed::all(engine).expect_err("the fault is not noticed");
    assert!(difference.contains(said), "noticed otherwise: {difference}");
}

/// A fault in tables of word lists is noticed, and so is said of it.
fn found_in_lists(trees: &impl Trees, said: &str) {
    let difference = fixed::all_lists(trees).expect_err("the fault is not noticed");
    assert!(difference.contains(said), "noticed otherwise: {difference}");
}

/// A fault in sheets is noticed, and so is said of it.
fn found_in_sheets(sheets: &impl Sheets, said: &str) {
    let difference = fixed::all_sheets(sheets).expect_err("the fault is not noticed");
    assert!(difference.contains(said), "noticed otherwise: {difference}");
}

fn agreed<T>(result: Result<T, String>) {
    if let Err(difference) = result {
        panic!("{difference}");
    }
}

#[test]
fn the_twin_agrees() {
    agreed(fixed::all(&SOUND));
}

#[test]
fn the_twin_agrees_on_lists() {
    agreed(fixed::all_lists(&SOUND));
}

#[test]
fn the_twin_agrees_on_cuts() {
    agreed(fixed::cuts(&SOUND));
}

#[test]
fn the_twin_agrees_on_sheets() {
    agreed(fixed::all_sheets(&SOUND));
}

#[test]
fn the_plain_twin_agrees() {
    agreed(fixed::all(&PLAIN));
}

#[test]
fn an_arc_counted_before_its_push_is_noticed() {
    found(&Twin::<{ fault::TRIED_EARLY }>, "stack: cell");
}

#[test]
fn accepting_with_letters_unread_is_noticed() {
    found(&Twin::<{ fault::UNREAD }>, "answer is Answer { kind: 1");
}

#[test]
fn the_allowance_before_the_end_is_noticed() {
    found(
        &Twin::<{ fault::ALLOWANCE_FIRST }>,
        "answer is Answer { kind: 2",
    );
}

#[test]
fn idle_cycles_of_the_wrong_task_are_noticed() {
    found(
        &Twin::<{ fault::RECOGNITION_CYCLES }>,
        "cycle is [7], expected [0, 16, 4, 15], rival Some(Shorter)",
    );
}

#[test]
fn a_frame_dropped_too_early_is_noticed() {
    found(
        &Twin::<{ fault::DROPPED_EARLY }>,
        "steps: 4, length: 0 }, expected Answer { kind: 3, number: 0, steps: 6, length: 0 }",
    );
}

#[test]
fn every_state_as_reached_is_noticed() {
    found(
        &Twin::<{ fault::ALL_REACHED }>,
        "expected Answer { kind: 0, number: 0, steps: 0, length: 0 }, loops Some(Apart)",
    );
}

#[test]
fn the_initial_states_alone_as_reached_are_noticed() {
    found(&Twin::<{ fault::INITIALS_REACHED }>, "rival Some(Higher)");
}

#[test]
fn reach_by_idle_arcs_alone_is_noticed() {
    found(
        &Twin::<{ fault::IDLE_REACHED }>,
        "cycle is [1], expected [0], rival Some(Higher), loops None",
    );
}

#[test]
fn a_cycle_that_is_not_reached_is_noticed() {
    found(
        &Twin::<{ fault::UNREACHED_TOLD }>,
        "rival None, loops Some(Both)",
    );
}

#[test]
fn reach_by_the_letters_of_the_words_is_noticed() {
    found(
        &Twin::<{ fault::WORD_REACHED }>,
        "expected Answer { kind: 4, number: 12, steps: 0, length: 0 }, loops Some(Barred)",
    );
}

#[test]
fn a_longer_cycle_is_noticed() {
    found(&Twin::<{ fault::DEPTH_FIRST }>, "rival Some(Longer)");
}

#[test]
fn a_cycle_from_a_higher_state_is_noticed() {
    found(&Twin::<{ fault::SHORTEST_OF_ALL }>, "rival Some(Shorter)");
}

#[test]
fn a_later_one_of_the_shortest_cycles_is_noticed() {
    found(&Twin::<{ fault::AS_LISTED }>, "rival Some(Later)");
}

#[test]
fn the_right_cycle_from_another_state_is_noticed() {
    found(&Twin::<{ fault::BEGUN_ELSEWHERE }>, "rival Some(Turned)");
}

#[test]
fn a_letter_of_a_class_not_written_is_noticed() {
    found(
        &Twin::<{ fault::CLASS_UNWRITTEN }>,
        "length: 0 }, expected Answer { kind: 1, number: 0, steps: 115, length: 17 }",
    );
}

#[test]
fn a_class_written_for_its_letter_is_noticed() {
    found(
        &Twin::<{ fault::CLASS_WRITTEN }>,
        "output: cell 0 is 70, expected 51",
    );
}

#[test]
fn two_letters_of_a_class_in_recognition_are_noticed() {
    found(
        &Twin::<{ fault::UNLIKE_IN_CLASS }>,
        "number: 22, steps: 4, length: 0 }, expected Answer { kind: 3",
    );
}

#[test]
fn a_0_as_a_letter_of_a_class_is_noticed() {
    found(
        &Twin::<{ fault::NOUGHT_IN_CLASS }>,
        "answer is Answer { kind: 2, number: 0, steps: 16, length: 0 }, expected Answer { kind: 3",
    );
}

#[test]
fn an_arc_that_meets_the_ceiling_left_out_is_noticed() {
    found(
        &Twin::<{ fault::CEILING_MISSED }>,
        "steps: 10, length: 0 }, expected Answer { kind: 3, number: 0, steps: 12, length: 0 }",
    );
}

#[test]
fn a_penalty_that_is_not_summed_is_noticed() {
    found(
        &Twin::<{ fault::UNSUMMED }>,
        "steps: 26, length: 9 }, expected Answer { kind: 1, number: 0, steps: 28, length: 9 }",
    );
}

#[test]
fn a_sum_lost_between_calls_is_noticed() {
    found(
        &Twin::<{ fault::SUM_LOST }>,
        "stack: cell 24 is 76, expected 304",
    );
}

#[test]
fn sums_that_are_not_looked_at_are_noticed() {
    found(
        &Twin::<{ fault::SUM_TRUSTED }>,
        "expected Answer { kind: 4, number: 21",
    );
}

#[test]
fn a_high_ceiling_after_the_place_is_noticed() {
    found(&Twin::<{ fault::CEILING_AFTER_PLACE }>, &refused(21, 39));
}

#[test]
fn a_high_ceiling_after_idle_cycles_is_noticed() {
    found(&Twin::<{ fault::CEILING_AFTER_CYCLES }>, &refused(12, 39));
}

#[test]
fn a_high_ceiling_before_bad_words_is_noticed() {
    found(&Twin::<{ fault::CEILING_BEFORE_WORDS }>, &refused(39, 10));
}

#[test]
fn a_high_ceiling_that_passes_is_noticed() {
    found(
        &Twin::<{ fault::CEILING_ANY }>,
        "expected Answer { kind: 4, number: 39",
    );
}

#[test]
fn arcs_that_differ_by_penalties_alone_are_noticed() {
    found(&Twin::<{ fault::PENALTY_COMPARED }>, &passed(0, 20));
}

#[test]
fn a_penalty_over_255_is_noticed() {
    found(&Twin::<{ fault::PENALTY_256 }>, &passed(0, 20));
}

#[test]
fn a_cycle_without_its_penalties_is_noticed() {
    found(&Twin::<{ fault::PENALTY_NOT_IDLE }>, &passed(0, 12));
}

/// A reader of texts that looks for the numbers of an arc in another order.
struct Misordered([u32; 5]);

impl Texts for Misordered {
    fn read(&self, text: &[u8], table: &mut [u16]) -> Answer {
        text::read_in(text, self.0, table)
    }

    fn write(&self, table: &[u16], text: &mut [u8]) -> Answer {
        text::write(table, text)
    }
}

/// A fault in reading texts is noticed, and so is said of it.
fn found_in_texts(texts: &impl Texts, said: &str) {
    let difference = fixed::all_texts(texts).expect_err("the fault is not noticed");
    assert!(difference.contains(said), "noticed otherwise: {difference}");
}

#[test]
fn a_fault_of_classes_before_the_limit_of_letters_is_noticed() {
    found_in_texts(&Misordered([4, 34, 5, 7, 8]), &refused(34, 5));
}

#[test]
fn a_fault_of_classes_after_the_order_of_sources_is_noticed() {
    found_in_texts(&Misordered([4, 5, 7, 34, 8]), &refused(7, 34));
}

/// A difference in the answers: what is told where another refusal is due.
fn refused(number: u32, due: u32) -> String {
    let answer = |number| Answer::refused(number, 0);
    format!("answer is {:?}, expected {:?}", answer(number), answer(due))
}

/// A difference in the answers: a table of so many cells where a refusal is due.
fn passed(cells: usize, due: u32) -> String {
    let (done, refused) = (Answer::done(cells), Answer::refused(due, 0));
    format!("answer is {done:?}, expected {refused:?}")
}

#[test]
fn a_cut_before_longer_words_is_noticed() {
    found_in_lists(
        &Twin::<{ fault::CUT_FIRST }>,
        "destination: cell 141 is 0, expected 1",
    );
    let difference = fixed::cuts(&Twin::<{ fault::CUT_FIRST }>).map(drop);
    assert!(difference.is_err_and(|said| said.contains("readings is")));
}

#[test]
fn a_cut_that_is_read_is_noticed() {
    found_in_lists(
        &Twin::<{ fault::CUT_READ }>,
        "destination: cell 140 is 63, expected 0",
    );
}

#[test]
fn the_root_as_an_end_is_noticed() {
    found_in_lists(&Twin::<{ fault::ROOT_AN_END }>, "on 233 cells for []");
}

#[test]
fn a_missed_beginning_of_another_word_is_noticed() {
    found_in_lists(
        &Twin::<{ fault::SHORTER_MISSED }>,
        "on 255 cells for [1, 1, 2, 1, 1]",
    );
}

#[test]
fn a_repeated_word_is_noticed() {
    found_in_lists(&Twin::<{ fault::REPEATED }>, &passed(849, 31));
}

#[test]
fn a_fall_in_the_order_is_noticed() {
    found_in_lists(&Twin::<{ fault::UNORDERED }>, &passed(1_175, 31));
}

#[test]
fn a_word_after_one_that_goes_on_from_it_is_noticed() {
    found_in_lists(&Twin::<{ fault::SHORTER_AFTER }>, &passed(855, 31));
}

#[test]
fn a_state_too_many_is_noticed() {
    found_in_lists(&Twin::<{ fault::STATES_257 }>, &passed(1_437, 32));
}

#[test]
fn a_state_too_few_is_noticed() {
    found_in_lists(
        &Twin::<{ fault::STATES_255 }>,
        "number: 32, steps: 0, length: 0 }, expected Answer { kind: 0, number: 0, steps: 0, length: 2938 }",
    );
}

#[test]
fn the_letter_of_a_cut_in_a_word_is_noticed() {
    found_in_lists(&Twin::<{ fault::LETTER_63 }>, "cells for [1, 63]");
}

#[test]
fn a_letter_that_is_none_is_noticed() {
    found_in_lists(&Twin::<{ fault::LETTER_0 }>, "cells for [1, 0]");
}

#[test]
fn a_word_of_65_letters_is_noticed() {
    found_in_lists(&Twin::<{ fault::WORD_OF_65 }>, &passed(464, 30));
}

#[test]
fn a_word_of_no_letters_is_noticed() {
    found_in_lists(&Twin::<{ fault::WORD_OF_0 }>, "cells for [0]");
}

#[test]
fn a_word_cut_short_and_taken_is_noticed() {
    found_in_lists(&Twin::<{ fault::CUT_TAKEN }>, &passed(1_170, 30));
}

#[test]
fn a_word_cut_short_and_left_out_is_noticed() {
    found_in_lists(&Twin::<{ fault::CUT_DROPPED }>, "cells for [1]");
}

#[test]
fn no_words_refused_is_noticed() {
    found_in_lists(&Twin::<{ fault::NONE_REFUSED }>, "on 233 cells for []");
}

#[test]
fn the_order_before_a_bad_word_is_noticed() {
    found_in_lists(&Twin::<{ fault::ORDER_FIRST }>, &refused(31, 30));
}

#[test]
fn the_states_before_the_order_are_noticed() {
    found_in_lists(&Twin::<{ fault::STATES_FIRST }>, &refused(32, 31));
}

#[test]
fn a_later_bad_word_before_a_fall_is_noticed() {
    found_in_lists(&Twin::<{ fault::BAD_FIRST }>, &refused(30, 31));
}

#[test]
fn the_states_after_all_words_are_noticed() {
    found_in_lists(&Twin::<{ fault::STATES_LAST }>, &refused(30, 32));
}

#[test]
fn a_short_destination_before_bad_words_is_noticed() {
    found_in_lists(&Twin::<{ fault::LIST_SHORT_FIRST }>, &refused(24, 32));
}

#[test]
fn a_cell_cleared_by_a_refusal_is_noticed() {
    found_in_lists(
        &Twin::<{ fault::REFUSED_TOUCHED }>,
        "destination: cell 0 is 0, expected 23130, on 3038 cells",
    );
}

#[test]
fn cells_in_a_short_destination_are_noticed() {
    found_in_lists(
        &Twin::<{ fault::SHORT_FILLED }>,
        "destination: cell 0 is 1, expected 23130, on 132 cells for []",
    );
}

#[test]
fn a_zero_after_the_table_is_noticed() {
    found_in_lists(
        &Twin::<{ fault::CELL_AFTER }>,
        "destination: cell 133 is 0, expected 23130, on 233 cells for []",
    );
}

/// A sheet that is written where 33 is due.
const PASSED: &str = "answer is Answer { kind: 0, number: 0, steps: 0, length: 511 }, \
                      expected Answer { kind: 4, number: 33";

#[test]
fn lines_of_73_characters_are_noticed() {
    found_in_sheets(
        &Twin::<{ fault::LONG_LINES }>,
        "length: 222 }, expected Answer { kind: 0, number: 0, steps: 0, length: 219 }",
    );
}

#[test]
fn lines_of_67_letters_are_noticed() {
    found_in_sheets(
        &Twin::<{ fault::LONG_ROWS }>,
        "sheet: cell 297 is 33, expected 32",
    );
}

#[test]
fn ordinals_on_the_left_are_noticed() {
    found_in_sheets(
        &Twin::<{ fault::LEFT_ALIGNED }>,
        "sheet: cell 73 is 49, expected 32",
    );
}

#[test]
fn ordinals_from_0_are_noticed() {
    found_in_sheets(
        &Twin::<{ fault::FROM_NOUGHT }>,
        "sheet: cell 77 is 48, expected 49",
    );
}

#[test]
fn an_end_that_is_none_is_noticed() {
    found_in_sheets(&Twin::<{ fault::ALWAYS_ENDED }>, "is 69, expected 77");
}

#[test]
fn an_end_told_by_1_alone_is_noticed() {
    found_in_sheets(&Twin::<{ fault::ONE_ENDED }>, "is 77, expected 69");
}

#[test]
fn an_empty_line_after_a_full_one_is_noticed() {
    found_in_sheets(
        &Twin::<{ fault::EMPTY_ROW }>,
        "length: 292 }, expected Answer { kind: 0, number: 0, steps: 0, length: 219 }",
    );
}

#[test]
fn a_length_with_its_low_byte_first_is_noticed() {
    found_in_sheets(
        &Twin::<{ fault::LOW_FIRST }>,
        "for readings [0, 0, 0, 0, 0, 0, 0, 1, 1]",
    );
}

#[test]
fn faces_that_repeat_are_noticed() {
    found_in_sheets(&Twin::<{ fault::FACES_REPEAT }>, PASSED);
}

#[test]
fn a_blank_as_a_face_is_noticed() {
    found_in_sheets(&Twin::<{ fault::BLANK_FACE }>, PASSED);
}

#[test]
fn a_reading_cut_short_and_shown_is_noticed() {
    found_in_sheets(&Twin::<{ fault::CUT_SHOWN }>, PASSED);
}

#[test]
fn a_reading_too_many_is_noticed() {
    found_in_sheets(&Twin::<{ fault::ONE_MORE }>, "for 1001 readings");
}

#[test]
fn a_letter_that_is_not_looked_at_is_noticed() {
    found_in_sheets(&Twin::<{ fault::LAST_LETTER }>, PASSED);
}

#[test]
fn a_short_destination_before_bad_faces_is_noticed() {
    found_in_sheets(
        &Twin::<{ fault::SHORT_FIRST }>,
        "number: 24, steps: 0, length: 0 }, expected Answer { kind: 4, number: 33",
    );
}

#[test]
fn lines_in_a_short_destination_are_noticed() {
    found_in_sheets(
        &Twin::<{ fault::WRITTEN_EARLY }>,
        "sheet: cell 0 is 82, expected 238",
    );
}

#[test]
fn a_zero_after_the_sheet_is_noticed() {
    found_in_sheets(
        &Twin::<{ fault::ZERO_AFTER }>,
        "sheet: cell 219 is 0, expected 238",
    );
}
