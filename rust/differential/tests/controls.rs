//! Controls: errors planted in the reference in the library's place, each of which the groups of the differential test
//! that it concerns have to find.

#[allow(dead_code)]
#[path = "differential/cards.rs"]
mod cards;
#[allow(dead_code)]
#[path = "differential/many.rs"]
mod many;
#[allow(dead_code)]
#[path = "differential/removals.rs"]
mod removals;
#[allow(dead_code)]
#[path = "differential/rings.rs"]
mod rings;
#[allow(dead_code)]
#[path = "differential/sheets.rs"]
mod sheets;

use differential::compare::Comparison;
use differential::planted::{
    cards as in_cards, found_by, many as in_tables, rings as in_rings, sheets as in_sheets, Group,
};
use differential::{edits as on_files, rings as on_rings, sheets as on_states};

#[test]
fn nothing_is_found_in_the_reference_itself() {
    let groups: [Group; 4] = [rings::distances, rings::takes, rings::commits, rings::wild_lives];
    for group in groups {
        let mut run = Comparison::new("itself", 7);
        run.rings = on_rings::REFERENCE;
        group(&mut run);
    }
    let groups: [Group; 3] = [sheets::every_length, sheets::random, sheets::access_words];
    for group in groups {
        let mut run = Comparison::new("itself", 7);
        run.sheets = on_states::REFERENCE;
        group(&mut run);
    }
    let groups: [Group; 5] =
        [cards::one_number, cards::any, many::any, many::two_faults, many::untrue_cards];
    for group in groups {
        let mut run = Comparison::new("itself", 7);
        run.edits = on_files::REFERENCE;
        group(&mut run);
    }
}

#[test]
fn cursors_too_far_apart_by_one_step() {
    found_by(&[rings::distances], in_rings::CURSORS_TOO_FAR_APART_BY_ONE_STEP);
}

#[test]
fn distances_whose_sum_wraps() {
    found_by(&[rings::distances], in_rings::DISTANCES_WHOSE_SUM_WRAPS);
}

#[test]
fn a_meeting_at_another_field() {
    found_by(&[rings::meetings, rings::damaged], in_rings::A_MEETING_AT_ANOTHER_FIELD);
}

#[test]
fn a_report_that_is_cut() {
    found_by(&[rings::valid, rings::lives], in_rings::A_REPORT_THAT_IS_CUT);
}

#[test]
fn a_ring_that_is_never_quite_full() {
    found_by(
        &[rings::reservations, rings::lives, rings::wild_lives],
        in_rings::A_RING_THAT_IS_NEVER_QUITE_FULL,
    );
}

#[test]
fn a_skip_that_is_not_counted() {
    found_by(
        &[rings::reservations, rings::lives, rings::wild_lives],
        in_rings::A_SKIP_THAT_IS_NOT_COUNTED,
    );
}

#[test]
fn half_that_is_refused() {
    found_by(&[rings::reservations, rings::wild_lives], in_rings::HALF_THAT_IS_REFUSED);
}

#[test]
fn a_skip_without_a_marker() {
    found_by(&[rings::fills, rings::lives], in_rings::A_SKIP_WITHOUT_A_MARKER);
}

#[test]
fn a_skip_that_is_cleared() {
    found_by(&[rings::fills, rings::lives], in_rings::A_SKIP_THAT_IS_CLEARED);
}

#[test]
fn padding_that_is_not_cleared() {
    found_by(
        &[rings::fills, rings::lives, rings::wild_lives],
        in_rings::PADDING_THAT_IS_NOT_CLEARED,
    );
}

#[test]
fn a_commit_before_its_turn() {
    found_by(&[rings::commits, rings::lives], in_rings::A_COMMIT_BEFORE_ITS_TURN);
}

#[test]
fn a_head_that_stays_before_the_skip() {
    found_by(&[rings::takes, rings::lives], in_rings::A_HEAD_THAT_STAYS_BEFORE_THE_SKIP);
}

#[test]
fn a_record_past_commit() {
    found_by(&[rings::takes, rings::wild_lives], in_rings::A_RECORD_PAST_COMMIT);
}

#[test]
fn a_place_that_counts_from_the_ring() {
    found_by(&[rings::takes, rings::lives], in_rings::A_PLACE_THAT_COUNTS_FROM_THE_RING);
}

#[test]
fn an_index_too_many() {
    found_by(&[sheets::every_field, sheets::random], in_sheets::AN_INDEX_TOO_MANY);
}

#[test]
fn a_segment_of_its_neighbour() {
    found_by(&[sheets::every_field, sheets::random], in_sheets::A_SEGMENT_OF_ITS_NEIGHBOUR);
}

#[test]
fn an_extension_that_is_always_there() {
    found_by(
        &[sheets::every_field, sheets::every_value, sheets::every_length],
        in_sheets::AN_EXTENSION_THAT_IS_ALWAYS_THERE,
    );
}

#[test]
fn a_state_that_is_not_judged() {
    found_by(&[sheets::every_value, sheets::random], in_sheets::A_STATE_THAT_IS_NOT_JUDGED);
}

#[test]
fn a_longer_state_that_is_not_asked() {
    found_by(
        &[sheets::every_value, sheets::every_length],
        in_sheets::A_LONGER_STATE_THAT_IS_NOT_ASKED,
    );
}

#[test]
fn room_before_the_values() {
    found_by(&[sheets::every_value], in_sheets::ROOM_BEFORE_THE_VALUES);
}

#[test]
fn a_value_that_is_cut() {
    found_by(
        &[sheets::every_field, sheets::every_width, sheets::random],
        in_sheets::A_VALUE_THAT_IS_CUT,
    );
}

#[test]
fn a_refused_value_that_stays() {
    found_by(
        &[sheets::every_field, sheets::every_value, sheets::random],
        in_sheets::A_REFUSED_VALUE_THAT_STAYS,
    );
}

#[test]
fn a_value_out_of_its_range() {
    found_by(&[sheets::every_value], in_sheets::A_VALUE_OUT_OF_ITS_RANGE);
}

#[test]
fn bytes_past_1191_that_are_cleared() {
    found_by(
        &[sheets::every_field, sheets::every_length, sheets::every_width],
        in_sheets::BYTES_PAST_1191_THAT_ARE_CLEARED,
    );
}

#[test]
fn an_mmu_limit_of_four_bytes() {
    found_by(&[sheets::every_field, sheets::every_width], in_sheets::AN_MMU_LIMIT_OF_FOUR_BYTES);
}

#[test]
fn an_mmu_set_that_does_nothing() {
    found_by(&[sheets::every_field, sheets::random], in_sheets::AN_MMU_SET_THAT_DOES_NOTHING);
}

#[test]
fn a_level_of_one_bit() {
    found_by(&[sheets::access_words], in_sheets::A_LEVEL_OF_ONE_BIT);
}

#[test]
fn a_rest_that_is_lost() {
    found_by(&[sheets::access_words], in_sheets::A_REST_THAT_IS_LOST);
}

#[test]
fn a_card_that_stays() {
    found_by(&[cards::shifts, cards::any, removals::on_any_file], in_cards::A_CARD_THAT_STAYS);
}

#[test]
fn a_card_that_a_refusal_empties() {
    found_by(
        &[cards::shifts, cards::any, removals::on_any_file],
        in_cards::A_CARD_THAT_A_REFUSAL_EMPTIES,
    );
}

#[test]
fn a_card_of_the_file_as_it_is() {
    found_by(&[cards::shifts, cards::any], in_cards::A_CARD_OF_THE_FILE_AS_IT_IS);
}

#[test]
fn a_number_that_stops_at_0() {
    found_by(&[cards::one_number, removals::on_any_file], in_cards::A_NUMBER_THAT_STOPS_AT_0);
}

#[test]
fn a_sum_that_wraps() {
    found_by(&[cards::one_number, cards::any, removals::on_any_file], in_cards::A_SUM_THAT_WRAPS);
}

#[test]
fn a_bound_that_is_asked_if_it_moves() {
    found_by(
        &[cards::one_number, cards::any, removals::on_any_file],
        in_cards::A_BOUND_THAT_IS_ASKED_IF_IT_MOVES,
    );
}

#[test]
fn a_length_below_a_header() {
    found_by(&[cards::one_number, removals::on_any_file], in_cards::A_LENGTH_BELOW_A_HEADER);
}

#[test]
fn a_card_before_room() {
    found_by(&[cards::shifts, removals::on_any_file], in_cards::A_CARD_BEFORE_ROOM);
}

#[test]
fn an_edit_that_writes_before_its_card() {
    found_by(
        &[cards::one_number, cards::any, removals::on_any_file],
        in_cards::AN_EDIT_THAT_WRITES_BEFORE_ITS_CARD,
    );
}

#[test]
fn an_index_from_1() {
    found_by(&[many::any, many::parts], in_tables::AN_INDEX_FROM_1);
}

#[test]
fn a_refusal_without_its_index() {
    found_by(&[many::any, many::parts, many::again], in_tables::A_REFUSAL_WITHOUT_ITS_INDEX);
}

#[test]
fn an_index_beside_a_taken_table() {
    found_by(
        &[many::any, many::every_order, many::rooms],
        in_tables::AN_INDEX_BESIDE_A_TAKEN_TABLE,
    );
}

#[test]
fn an_empty_part_at_the_end_that_is_outside() {
    found_by(&[many::any, many::parts], in_tables::AN_EMPTY_PART_AT_THE_END_THAT_IS_OUTSIDE);
}

#[test]
fn an_empty_part_beyond_the_end_that_is_inside() {
    found_by(&[many::any, many::parts], in_tables::AN_EMPTY_PART_BEYOND_THE_END_THAT_IS_INSIDE);
}

#[test]
fn an_end_that_wraps() {
    found_by(&[many::parts, many::two_faults], in_tables::AN_END_THAT_WRAPS);
}

#[test]
fn a_part_record_that_is_an_entry() {
    found_by(&[many::any, many::part_records], in_tables::A_PART_RECORD_THAT_IS_AN_ENTRY);
}

#[test]
fn a_key_again_in_the_table_that_is_dropped() {
    found_by(
        &[many::any, many::again, many::thousands],
        in_tables::A_KEY_AGAIN_IN_THE_TABLE_THAT_IS_DROPPED,
    );
}

#[test]
fn the_room_of_the_last_file_alone() {
    found_by(&[many::any, many::rooms], in_tables::THE_ROOM_OF_THE_LAST_FILE_ALONE);
}

#[test]
fn a_refused_table_that_writes() {
    found_by(&[many::any, many::again, many::rooms], in_tables::A_REFUSED_TABLE_THAT_WRITES);
}

#[test]
fn no_entry_and_no_canonical_form() {
    found_by(&[many::any, many::part_records], in_tables::NO_ENTRY_AND_NO_CANONICAL_FORM);
}

#[test]
fn a_limit_before_the_part() {
    found_by(&[many::any, many::parts], in_tables::A_LIMIT_BEFORE_THE_PART);
}

#[test]
fn a_part_before_the_file() {
    found_by(&[many::any, many::two_faults], in_tables::A_PART_BEFORE_THE_FILE);
}

#[test]
fn a_card_with_an_index() {
    found_by(&[many::any, many::untrue_cards], in_tables::A_CARD_WITH_AN_INDEX);
}
