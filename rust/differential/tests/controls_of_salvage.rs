//! Controls: errors planted in the reference's salvage in the library's place, each of which the groups of the differential
//! test that it concerns have to find.

#[allow(dead_code)]
#[path = "differential/salvage.rs"]
mod salvage;

use differential::compare::Comparison;
use differential::planted::salvage::*;
use differential::planted::{found_by, Group};

#[test]
fn nothing_is_found_in_the_reference_itself() {
    let groups: [Group; 3] = [salvage::every_cut, salvage::two_faults, salvage::rooms];
    for group in groups {
        let mut run = Comparison::new("itself", 7);
        run.salvage = reference::salvage;
        group(&mut run);
    }
}

#[test]
fn a_65th_that_is_many_though_it_is_cut() {
    found_by(&[salvage::crowded], A_65TH_THAT_IS_MANY_THOUGH_IT_IS_CUT);
}

#[test]
fn a_stop_that_has_one_header() {
    found_by(&[salvage::every_cut, salvage::every_byte], A_STOP_THAT_HAS_ONE_HEADER);
}

#[test]
fn neighbours_that_are_merged() {
    let groups: [Group; 3] = [salvage::two_faults, salvage::crowded, salvage::thousands];
    found_by(&groups, NEIGHBOURS_THAT_ARE_MERGED);
}

#[test]
fn a_loss_that_counts_for_twice() {
    found_by(&[salvage::joined, salvage::thousands], A_LOSS_THAT_COUNTS_FOR_TWICE);
}

#[test]
fn stray_bytes_that_are_passed_over() {
    found_by(&[salvage::every_cut, salvage::damaged], STRAY_BYTES_THAT_ARE_PASSED_OVER);
}

#[test]
fn starts_behind_the_header() {
    found_by(&[salvage::every_cut, salvage::every_extreme], STARTS_BEHIND_THE_HEADER);
}

#[test]
fn the_room_of_records_first() {
    found_by(&[salvage::rooms], THE_ROOM_OF_RECORDS_FIRST);
}

#[test]
fn a_file_written_without_its_records() {
    found_by(&[salvage::rooms, salvage::damaged], A_FILE_WRITTEN_WITHOUT_ITS_RECORDS);
}

#[test]
fn losses_counted_beside_a_refusal() {
    found_by(&[salvage::rooms, salvage::every_byte], LOSSES_COUNTED_BESIDE_A_REFUSAL);
}

#[test]
fn what_is_kept_in_the_order_of_the_file() {
    found_by(&[salvage::valid], WHAT_IS_KEPT_IN_THE_ORDER_OF_THE_FILE);
}
