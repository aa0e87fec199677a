//! The text of a part: what is unescaped, what is refused, and in which order.

mod common;

use common::*;
use oul_tests::{part_text, Refusal, SEGMENT_LIMIT};

/// The whole case with this PV1-1, which isn't read; PV1 is the third known segment.
fn message_with_visit(field: &str) -> Vec<u8> {
    message_with("PV1||O", &format!("PV1|{field}|O"))
}

/// The text of a component of PV1-1.
fn text_of(field: &str, component: usize) -> Result<String, Refusal> {
    let text = part_text(&message_with_visit(field), 3, 1, component, SEGMENT_LIMIT);
    text.map(|text| String::from_utf8(text).unwrap())
}

#[track_caller]
fn gives(field: &str, text: &str) {
    assert_eq!(text_of(field, 1).as_deref(), Ok(text), "{field:?}");
}

fn refused(m: &[u8], ordinal: usize, field: usize, component: usize, room: usize) -> Refusal {
    part_text(m, ordinal, field, component, room).unwrap_err()
}

#[test]
fn the_five_escapes_stand_for_the_delimiters() {
    gives(r"a\F\b\S\c\T\d\R\e\E\f", r"a|b^c&d~e\f");
    gives(r"\F\\F\", "||");
    gives(r"\E\F\E\", r"\F\");
    gives("plain text", "plain text");
    gives("\"\"", "\"\"");
}

#[test]
fn a_read_part_has_its_text_too() {
    let m = message_with("|P7|", r"|P\F\7|");
    assert_eq!(part_text(&m, 2, 3, 1, 20), Ok(b"P|7".to_vec()));
    assert_eq!(part_text(&m, 7, 3, 2, 20), Ok(b"GOT".to_vec()));
}

#[test]
fn the_delimiters_of_the_message_count() {
    let m = String::from_utf8(message_with("PV1||O", "PV1|a@F@@T@@E@\\F\\|O")).unwrap();
    let swapped = m.replace(r"MSH|^~\&|", r"MSH|^~@&|").into_bytes();
    assert_eq!(part_text(&swapped, 3, 1, 1, 99), Ok(br"a|&@\F\".to_vec()));
}

#[test]
fn kanji_in_shifts_never_acts() {
    for kanji in [
        "\x1B$BF|K\\\x1B(B",
        "\x1B$B\\F\\S\\T&&||^^~~\\\\\x1B(B",
        "\x1B$B\x1B(B",
        "a\x1B$B\\F\\!\x1B(B",
    ] {
        gives(kanji, kanji);
        gives(&format!(r"\S\{kanji}\T\"), &format!("^{kanji}&"));
    }
}

#[test]
fn a_bad_escape_or_a_subcomponent_is_refused_with_its_place() {
    for bad in [
        r"\Q\",
        r"\f\",
        r"\\",
        r"\",
        r"\F",
        r"a\F\\",
        r"\FF\",
        r"\F\S\",
        "a&b",
        "&",
        r"\T\&",
        "\\\x1B$B\x1B(B\\",
        "\\F\x1B$B\\\\\x1B(B",
    ] {
        assert_eq!(text_of(bad, 1), Err(refusal(23, 3, 1)), "{bad:?}");
    }
    assert_eq!(text_of(r"a^\Q\^c", 2), Err(refusal(23, 3, 1)));
}

#[test]
fn only_the_part_itself_is_looked_at() {
    assert_eq!(text_of(r"a&^b^\Q\~\c", 2).as_deref(), Ok("b"));
    assert_eq!(text_of(r"a~\Q\^&", 1).as_deref(), Ok("a"));
    assert_eq!(text_of(r"a~\Q\^&", 2).as_deref(), Ok(""));
}

#[test]
fn the_delimiters_of_msh() {
    let m = message();
    assert_eq!(part_text(&m, 1, 1, 1, 1), Ok(b"|".to_vec()));
    assert_eq!(refused(&m, 1, 2, 1, 99), refusal(23, 1, 2));
    for (field, component) in [(1, 2), (2, 2), (18, 1), (3, 1)] {
        assert_eq!(part_text(&m, 1, field, component, 0), Ok(Vec::new()));
    }
}

#[test]
fn an_absent_part_has_no_byte() {
    for (field, component) in [(1, 1), (2, 2), (3, 1), (99, 1), (usize::MAX, usize::MAX)] {
        assert_eq!(
            part_text(&message(), 3, field, component, 0),
            Ok(Vec::new())
        );
    }
}

#[test]
fn the_room_is_for_the_text_and_not_for_the_part() {
    let m = message_with_visit(r"\F\\S\\T\");
    assert_eq!(part_text(&m, 3, 1, 1, 3), Ok(b"|^&".to_vec()));
    for room in 0..3 {
        assert_eq!(refused(&m, 3, 1, 1, room), refusal(45, 0, 0));
    }
}

#[test]
fn the_longest_part() {
    let escapes = (SEGMENT_LIMIT - "PV1||O".len()) / 3;
    let m = message_with_visit(&r"\R\".repeat(escapes));
    assert_eq!(part_text(&m, 3, 1, 1, escapes), Ok(vec![b'~'; escapes]));
    assert_eq!(refused(&m, 3, 1, 1, escapes - 1), refusal(45, 0, 0));
    let letters = SEGMENT_LIMIT - "PV1||O".len();
    let m = message_with_visit(&"x".repeat(letters));
    assert_eq!(part_text(&m, 3, 1, 1, letters), Ok(vec![b'x'; letters]));
}

#[test]
fn the_check_then_31_then_30_then_23_then_45() {
    let bad = message_with("PV1||O", r"PV1|\Q\|Q");
    assert_eq!(refused(&bad, 0, 0, 0, 0), refusal(25, 3, 2));
    let m = message_with_visit(r"\Q\");
    assert_eq!(refused(&m, 0, 0, 1, 0), refusal(31, 0, 0));
    assert_eq!(refused(&m, 9, 1, 0, 0), refusal(31, 0, 0));
    assert_eq!(refused(&m, 0, 1, 1, 0), refusal(30, 0, 0));
    assert_eq!(refused(&m, 9, 1, 1, 0), refusal(30, 0, 0));
    assert_eq!(refused(&m, 3, 1, 1, 0), refusal(23, 3, 1));
    assert_eq!(refused(&m, 3, 2, 1, 0), refusal(45, 0, 0));
}
