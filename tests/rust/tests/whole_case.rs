//! Document 01's whole case, in both directions.

mod common;

use common::*;
use oul_tests::{check, locate, to_message, to_sheet, MESSAGE_LIMIT, SHEET_LIMIT};

#[test]
fn the_sheet_has_36_lines() {
    assert_eq!(SHEET.lines().count(), 36);
}

#[test]
fn the_sheet_is_written_as_the_message() {
    assert_eq!(to_message(SHEET.as_bytes(), MESSAGE_LIMIT), Ok(message()));
}

#[test]
fn the_message_is_written_as_the_sheet() {
    let sheet = to_sheet(&message(), SHEET_LIMIT);
    assert_eq!(sheet, Ok(SHEET.as_bytes().to_vec()));
}

#[test]
fn the_check_counts_one_specimen_one_order_two_results() {
    assert_eq!(check(&message()), Ok(COUNTS));
}

#[test]
fn the_patient_number_is_fetched() {
    let m = message();
    let stretch = locate(&m, 2, 3, 1).unwrap();
    assert_eq!(&m[stretch], b"P7");
}

#[test]
fn a_buffer_must_hold_the_whole_output() {
    let (m, sheet) = (message(), SHEET.as_bytes());
    let short = Err(refusal(45, 0, 0));
    assert_eq!(to_message(sheet, m.len()).as_ref(), Ok(&m));
    assert_eq!(to_message(sheet, m.len() - 1), short);
    assert_eq!(to_message(sheet, 0), short);
    assert_eq!(to_sheet(&m, sheet.len()).as_deref(), Ok(sheet));
    assert_eq!(to_sheet(&m, sheet.len() - 1), short);
    assert_eq!(to_sheet(&m, 0), short);
}

#[test]
fn sex_q_is_refused_at_segment_2_field_8() {
    refuses(&message_with("19700228|M", "19700228|Q"), 25, 2, 8);
}

#[test]
fn skipped_segments_are_not_numbered() {
    accepts(&message_with("PID|||P7", "ZZZ|a\nPID|||P7"));
    let m = message_with(
        "PID|||P7||Hara^Jun^^^^^L^I||19700228|M",
        "ZZZ|a\nPID|||P7||Hara^Jun^^^^^L^I||19700228|Q",
    );
    refuses(&m, 25, 2, 8);
}

#[test]
fn obx_in_place_of_orc_is_out_of_order() {
    refuses(&message_with("ORC|RE", "OBX|RE"), 15, 6, 0);
}
