//! Fetch: which stretch is given, and where an empty one lies.

mod common;

use common::*;
use oul_tests::{locate, Refusal};
use std::ops::Range;

/// The stretch as text and where it starts.
fn fetch(m: &[u8], ordinal: usize, field: usize, component: usize) -> (String, usize) {
    let Range { start, end } = locate(m, ordinal, field, component).unwrap();
    (String::from_utf8_lossy(&m[start..end]).into(), start)
}

fn refused(m: &[u8], ordinal: usize, field: usize, component: usize) -> Refusal {
    locate(m, ordinal, field, component).unwrap_err()
}

#[test]
fn read_and_unread_fields() {
    let m = message();
    for (ordinal, field, component, text) in [
        (1, 7, 1, "20240401093000"),
        (1, 9, 3, "OUL_R22"),
        (1, 20, 1, "ISO 2022-1994"),
        (2, 5, 1, "Hara"),
        (2, 5, 7, "L"),
        (4, 1, 1, "1"),
        (4, 4, 3, "JC10"),
        (7, 3, 2, "GOT"),
        (8, 11, 1, "X"),
    ] {
        assert_eq!(fetch(&m, ordinal, field, component).0, text);
    }
}

#[test]
fn the_delimiters_of_msh_are_undivided() {
    let m = message();
    assert_eq!(locate(&m, 1, 1, 1), Ok(3..4));
    assert_eq!(locate(&m, 1, 1, 2), Ok(4..4));
    assert_eq!(locate(&m, 1, 2, 1), Ok(4..8));
    assert_eq!(locate(&m, 1, 2, 2), Ok(8..8));
    assert_eq!(locate(&m, 1, 2, 9), Ok(8..8));
    assert_eq!(locate(&m, 1, 3, 1), Ok(9..9));
}

#[test]
fn the_stretch_is_still_escaped() {
    let m = message_with("|K0001|", r"|a\F\b|");
    assert_eq!(fetch(&m, 1, 10, 1).0, r"a\F\b");
}

#[test]
fn the_first_repetition_is_shown() {
    let m = message_with("|Hara^Jun^^^^^L^I|", "|K^k^^^^^L^P~Hara^Jun^^^^^L^I|");
    assert_eq!(fetch(&m, 2, 5, 1).0, "K");
    assert_eq!(fetch(&m, 2, 5, 8).0, "P");
    let m = message_with("PV1||O", "PV1|a^b~c^d^e|O");
    assert_eq!(fetch(&m, 3, 1, 2).0, "b");
    assert_eq!(fetch(&m, 3, 1, 3).0, "");
    assert_eq!(fetch(&message(), 1, 18, 1).0, "");
}

#[test]
fn separators_inside_kanji_do_not_part() {
    let m = message_with("PV1||O", "PV1|\x1B$B|^~~\x1B(B^b|O");
    assert_eq!(fetch(&m, 3, 1, 1).0, "\x1B$B|^~~\x1B(B");
    assert_eq!(fetch(&m, 3, 1, 2).0, "b");
}

#[test]
fn a_missing_field_lies_at_the_end_of_its_segment() {
    let m = message();
    let end = m.windows(6).position(|window| window == b"PV1||O").unwrap() + 6;
    assert_eq!(m[end], b'\r');
    for (field, component) in [(3, 1), (3, 2), (99, 1), (usize::MAX, usize::MAX)] {
        assert_eq!(locate(&m, 3, field, component), Ok(end..end));
    }
}

#[test]
fn a_missing_component_lies_at_the_end_of_the_first_repetition() {
    let m = message_with("PV1||O", "PV1|ab^c~d^e^f|O");
    let start = m.windows(4).position(|window| window == b"PV1|").unwrap() + 4;
    assert_eq!(locate(&m, 3, 1, 2), Ok(start + 3..start + 4));
    assert_eq!(locate(&m, 3, 1, 3), Ok(start + 4..start + 4));
    assert_eq!(locate(&m, 3, 2, 7), Ok(start + 12..start + 12));
}

#[test]
fn ordinals_count_known_segments() {
    let m = message_with("PV1||O", "ZZZ|a\nPV1||O\nNTE|b");
    assert_eq!(fetch(&m, 3, 2, 1).0, "O");
    assert_eq!(fetch(&m, 4, 1, 1).0, "1");
}

#[test]
fn the_check_comes_first_then_31_then_30() {
    let bad = message_with("19700228|M", "19700228|Q");
    assert_eq!(refused(&bad, 0, 0, 0), refusal(25, 2, 8));
    let m = message();
    assert_eq!(refused(&m, 0, 0, 1), refusal(31, 0, 0));
    assert_eq!(refused(&m, 99, 1, 0), refusal(31, 0, 0));
    assert_eq!(refused(&m, 0, 1, 1), refusal(30, 0, 0));
    assert_eq!(refused(&m, 9, 1, 1), refusal(30, 0, 0));
    assert_eq!(refused(&m, usize::MAX, 1, 1), refusal(30, 0, 0));
}
