//! The edges that document 01 lists, and those of its rules for messages.

mod common;

use common::*;
use oul_tests::{check, to_sheet, SHEET_LIMIT};

const KANJI: &str = "\x1B$BF|K\\\x1B(B";
const EMPTY_SHIFT: &str = "\x1B$B\x1B(B";

// Bytes, header, segments, order

#[test]
fn the_header_comes_before_all_else_but_the_length() {
    refuses(b"", 11, 0, 0);
    refuses(br"MSH||~\&|", 11, 0, 0);
    refuses(br"MSH|^~\&", 11, 0, 0);
    refuses(&message_with(r"MSH|^~\&|", r"MSH|^~\&^"), 11, 0, 0);
    refuses(br"MSH|^~\&|", 13, 0, 0);
    refuses(b"MSH|^~\\&|\r", 15, 2, 0);
    refuses(&vec![b'x'; 32_768], 11, 0, 0);
    refuses(&vec![b'x'; 32_769], 10, 0, 0);
}

#[test]
fn a_message_has_at_most_32768_bytes() {
    let of_length = |length: usize| {
        let mut m = message();
        while m.len() < length {
            let segment = (length - m.len()).min(4_000);
            m.extend(b"ZZZ|");
            m.extend(vec![b'a'; segment - 5]);
            m.push(b'\r');
        }
        m
    };
    let (full, over) = (of_length(32_768), of_length(32_769));
    assert_eq!((full.len(), over.len()), (32_768, 32_769));
    accepts(&full);
    refuses(&over, 10, 0, 0);
}

#[test]
fn bytes_and_shifts() {
    let with_visit = |text: &str| message_with("PV1||O", &format!("PV1|{text}|O"));
    accepts(&with_visit(KANJI));
    accepts(&with_visit(EMPTY_SHIFT));
    for bad in [
        "\x1B(B",
        "\x1B$B",
        "\x1B$BF",
        "\x1B$BF\x1B(B",
        "\x1B$B\x1B$B\x1B(B",
        "\x1B$BF \x1B(B",
        "\x1B$B\r\r\x1B(B",
        "\x1B$@F|\x1B(B",
        "\x7F",
        "\t",
        "\u{80}",
    ] {
        refuses(&with_visit(bad), 12, 0, 0);
    }
}

#[test]
fn the_byte_rule_comes_before_the_segment_rules() {
    let mut m = message();
    m.extend(b"zz|\x7F");
    refuses(&m, 12, 0, 0);
    m.pop();
    refuses(&m, 13, 0, 0);
}

#[test]
fn segment_names() {
    for good in ["ZZZ", "ZZZ|", "Z00", "A9Z|x"] {
        accepts(&message_with("PV1||O", &format!("PV1||O\n{good}")));
    }
    for bad in ["", "ZZ", "ZZz", "9ZZ", "ZZZ^a", "ZZZZ", "Z Z", "|"] {
        refuses(&message_with("PV1||O", &format!("PV1||O\n{bad}")), 13, 0, 0);
    }
}

#[test]
fn the_last_segment_ends_too() {
    let mut m = message();
    m.pop();
    refuses(&m, 13, 0, 0);
}

#[test]
fn a_segment_has_at_most_4096_bytes() {
    let long =
        |length: usize| message_with("PV1||O", &format!("PV1||O|{}", "a".repeat(length - 7)));
    accepts(&long(4_096));
    refuses(&long(4_097), 13, 0, 0);
}

#[test]
fn a_message_has_at_most_512_segments() {
    let with =
        |count: usize| message_with("PV1||O\n", &format!("PV1||O\n{}", "ZZZ\n".repeat(count)));
    accepts(&with(504));
    refuses(&with(505), 14, 0, 0);
    let mut ill_named = with(505);
    ill_named.extend(b"zzz\r");
    refuses(&ill_named, 13, 0, 0);
}

#[test]
fn segments_come_in_order() {
    refuses(&message_with("PV1||O\n", ""), 15, 3, 0);
    refuses(&message_with("PV1||O\n", "PV1||O\nPV1||O\n"), 15, 4, 0);
    refuses(&message_with("PV1||O\n", "MSH||O\n"), 15, 3, 0);
    refuses(&message_with("SPM|1|", "OBR|1|"), 15, 4, 0);
    for (kept, segment) in [(1, 2), (2, 3), (3, 4), (4, 5), (5, 6), (6, 7)] {
        let whole = message();
        let ends = whole.iter().enumerate().filter(|(_, &byte)| byte == b'\r');
        let end = ends.map(|(at, _)| at + 1).nth(kept - 1).unwrap();
        refuses(&whole[..end], 15, segment, 0);
    }
}

#[test]
fn the_order_is_judged_before_any_field() {
    let m = message_with("19700228|M\nPV1||O", "19700228|Q\nZV1||O");
    refuses(&m, 15, 3, 0);
}

#[test]
fn specimens_orders_and_results_repeat() {
    let more = "X\nOBR||000000000000043||E000^^99003\nORC|RE|000000000000043\n\
                OBX|1|ST|A^^JC10||a||||||F\nSPM|2|||024^^JC10|||||||||||||20240401081500\n\
                OBR||000000000000042||E000^^99003\nORC|RE|000000000000042\n\
                OBX|1|ST|A^^JC10||a||||||F\n";
    let counts = check(&message_with("X\n", more)).unwrap();
    assert_eq!((counts.specimens, counts.orders, counts.results), (2, 3, 4));
}

#[test]
fn other_delimiters() {
    let other = |byte: u8| match byte {
        b'|' => b'*',
        b'^' => b'%',
        b'~' => b'|',
        b'\\' => b';',
        b'&' => b'^',
        byte => byte,
    };
    let m: Vec<u8> = message().into_iter().map(other).collect();
    accepts(&m);
    assert_eq!(to_sheet(&m, SHEET_LIMIT), to_sheet(&message(), SHEET_LIMIT));
}

// Components

#[test]
fn components_are_split_before_they_are_unescaped() {
    let m = message_with("|K0001|", r"|K\F\\S\\T\\R\\E\1|");
    accepts(&m);
    let sheet = String::from_utf8(to_sheet(&m, SHEET_LIMIT).unwrap()).unwrap();
    assert!(sheet.contains("control=K|^&~\\1\n"));
}

#[test]
fn bars_and_escapes_inside_kanji_are_none() {
    let m = message_with("|K0001|", &format!("|{KANJI}|"));
    accepts(&m);
    let sheet = to_sheet(&m, SHEET_LIMIT).unwrap();
    let line = format!("control={KANJI}\n").into_bytes();
    assert!(sheet.windows(line.len()).any(|window| window == line));
}

#[test]
fn bad_escapes_and_subcomponents() {
    for bad in [
        r"\Q\",
        r"\f\",
        r"\\",
        r"\F",
        r"a\",
        "\\\x1B$B\x1B(B\\",
        "a&b",
        r"\F\&",
    ] {
        refuses(&message_with("|K0001|", &format!("|{bad}|")), 23, 1, 10);
    }
}

#[test]
fn double_quotes_are_refused_in_read_components_only() {
    refuses(&message_with("|K0001|", "|\"\"|"), 21, 1, 10);
    refuses(&message_with("^GOT^", "^\"\"^"), 21, 7, 3);
    accepts(&message_with("|K0001|", "|\"\" |"));
    accepts(&message_with("PV1||O", "PV1|\"\"|O^\"\""));
}

#[test]
fn repetitions_of_read_fields_are_refused() {
    refuses(&message_with("|K0001|", "|K0001~|"), 22, 1, 10);
    refuses(&message_with("|K0001|", "|~K0001|"), 22, 1, 10);
    refuses(&message_with("|K0001|", "|K0001^x~y|"), 22, 1, 10);
    accepts(&message_with("|K0001|", "|K0001^x^y|"));
    accepts(&message_with("PV1||O", r"PV1|a~b^\Q\&|O"));
    accepts(&message_with("|K0001|", "|\x1B$BF~\x1B(B|"));
}

#[test]
fn a_repetition_is_judged_in_its_field_turn() {
    let m = message_with("|K0001|T|", "||T~P|");
    refuses(&m, 20, 1, 10);
    let m = message_with("|K0001|", "|\"\"~|");
    refuses(&m, 22, 1, 10);
}

#[test]
fn components_are_judged_by_number() {
    refuses(&message_with("|023^^JC10|", "|02^^\"\"|"), 25, 4, 4);
    refuses(&message_with("|023^^JC10|", "|\"\"^^JC9|"), 21, 4, 4);
    refuses(&message_with("|023^^JC10|", "|023^^|"), 20, 4, 4);
    refuses(&message_with("|023^^JC10|", "|023|"), 20, 4, 4);
}

#[test]
fn unread_components_are_never_judged() {
    for unread in ["x", "&", "\"\"", r"\Q\", r"\", "\x1B$B^~\x1B(B"] {
        let specimen = format!("|023^{unread}^JC10^{unread}|");
        accepts(&message_with("|023^^JC10|", &specimen));
    }
}

#[test]
fn fixed_words_are_required() {
    for (old, new, segment, field) in [
        ("|OUL^R22^OUL_R22|", "||", 1, 9),
        ("|OUL^R22^OUL_R22|", "|OUL^^OUL_R22|", 1, 9),
        ("|OUL^R22^OUL_R22|", "|OUL^R22|", 1, 9),
        ("|2.5|", "||", 1, 12),
        ("^^99003", "", 5, 4),
        ("ORC|RE", "ORC|", 6, 1),
        ("^GOT^JC10", "^GOT^", 7, 3),
    ] {
        refuses(&message_with(old, new), 20, segment, field);
    }
}

#[test]
fn missing_and_empty_are_the_same() {
    refuses(&message_with("|19700228|M", "|19700228|"), 20, 2, 8);
    refuses(&message_with("|19700228|M", "|19700228"), 20, 2, 8);
    refuses(&message_with("|19700228|M", ""), 20, 2, 8);
    refuses(&message_with("PV1||O", "PV1"), 20, 3, 2);
    accepts(&message_with("|19700228|M", "||M"));
}

#[test]
fn text_lengths_count_unescaped_bytes_and_shift_bytes() {
    let control = |text: &str| message_with("|K0001|", &format!("|{text}|"));
    accepts(&control(&"a".repeat(20)));
    refuses(&control(&"a".repeat(21)), 24, 1, 10);
    accepts(&control(&r"\F\".repeat(20)));
    refuses(&control(&r"\F\".repeat(21)), 24, 1, 10);
    accepts(&control(EMPTY_SHIFT));
    accepts(&control(&format!("{}{EMPTY_SHIFT}", "a".repeat(14))));
    refuses(
        &control(&format!("{}{EMPTY_SHIFT}", "a".repeat(15))),
        24,
        1,
        10,
    );
    accepts(&message_with("^GOT^", &format!("^{}^", "a".repeat(48))));
    refuses(
        &message_with("^GOT^", &format!("^{}^", "a".repeat(49))),
        24,
        7,
        3,
    );
    accepts(&message_with("^GOT^", "^^"));
}

#[test]
fn a_code_that_is_too_long_breaks_its_value_rule() {
    refuses(&message_with("|E000^", "|E00000000^"), 25, 5, 4);
    refuses(&message_with("||19700228|", "||197002280|"), 25, 2, 7);
    refuses(&message_with("OBR||0", "OBR||00"), 25, 5, 2);
    refuses(
        &message_with("|3B0350000023272^", "|3B0350000023272AAB^"),
        25,
        7,
        3,
    );
}

#[test]
fn the_character_set_gives_25_only() {
    for bad in [
        "",
        "ISO IR87",
        "~ISO IR87~",
        "~ISO IR87^",
        "~~ISO IR87",
        "\"\"",
        r"\R\ISO IR87",
    ] {
        refuses(&message_with("|~ISO IR87|", &format!("|{bad}|")), 25, 1, 18);
    }
    refuses(&message_with("|~ISO IR87||ISO 2022-1994", ""), 25, 1, 18);
}

#[test]
fn orc_repeats_the_order_number() {
    let orc = |number: &str| message_with("ORC|RE|000000000000042", &format!("ORC|RE|{number}"));
    refuses(&orc("000000000000043"), 27, 6, 2);
    refuses(&orc("00000000000042"), 25, 6, 2);
    refuses(&orc(""), 20, 6, 2);
}

// PID-5

fn names(field: &str) -> Vec<u8> {
    message_with("|Hara^Jun^^^^^L^I|", &format!("|{field}|"))
}

#[test]
fn names_are_found_by_their_marks() {
    let m = names("x^y~K^k^^^^^L^P~A^b^^^^^^I~\"\"^&^^^^^^I");
    accepts(&m);
    let sheet = String::from_utf8(to_sheet(&m, SHEET_LIMIT).unwrap()).unwrap();
    assert!(sheet.contains("family=A\ngiven=b\nkanafamily=K\nkanagiven=k\n"));
}

#[test]
fn a_kanji_name_is_required() {
    for bad in [
        "",
        "A^b",
        "A^b^^^^^^P",
        "A^b^^^^^^I&",
        "A^b^^^^^^\"\"",
        r"\Q\^b^^^^^^P",
    ] {
        refuses(&names(bad), 20, 2, 5);
    }
}

#[test]
fn kanji_is_judged_before_kana() {
    refuses(&names("\"\"^^^^^^^P~^b^^^^^^I"), 20, 2, 5);
    refuses(&names("^k^^^^^^P~A^\"\"^^^^^^I"), 21, 2, 5);
    refuses(&names("A^^^^^^^I~^k^^^^^^P"), 20, 2, 5);
    refuses(&names(r"A^^^^^^^I~K^\Q\^^^^^^P"), 23, 2, 5);
    refuses(&names(&format!("{}^^^^^^^I", "a".repeat(49))), 24, 2, 5);
    accepts(&names(&format!(
        "{0}^{0}^^^^^^I~{0}^{0}^^^^^^P",
        "a".repeat(48)
    )));
}

// OBX-5

fn result(value_type: &str, value: &str, status: &str) -> Result<(), (u8, usize)> {
    check(&message_with_result(value_type, value, status))
        .map(|counts| assert_eq!(counts, COUNTS))
        .map_err(|refusal| {
            assert_eq!(refusal.place, 7);
            (refusal.number, refusal.field)
        })
}

#[test]
fn numbers() {
    for good in ["-0", "01.20", ".5", "5.", "+1", "1234567890123456"] {
        assert_eq!(result("NM", good, "F"), Ok(()), "{good}");
    }
    for bad in [".", "<12", "1e3", "+", "1.2.3", " 1", r"\F\"] {
        assert_eq!(result("NM", bad, "F"), Err((25, 5)), "{bad}");
    }
    assert_eq!(result("NM", "12345678901234567", "F"), Err((24, 5)));
    assert_eq!(result("NM", "abcdefghijklmnopq", "F"), Err((24, 5)));
    assert_eq!(result("NM", "\"\"", "F"), Err((21, 5)));
}

#[test]
fn texts() {
    assert_eq!(result("ST", &"a".repeat(200), "F"), Ok(()));
    assert_eq!(result("ST", &"a".repeat(201), "F"), Err((24, 5)));
    assert_eq!(result("ST", &r"\F\".repeat(200), "F"), Ok(()));
    assert_eq!(result("ST", EMPTY_SHIFT, "F"), Ok(()));
    assert_eq!(result("ST", " ", "F"), Ok(()));
    assert_eq!(result("ST", "a&b", "F"), Err((23, 5)));
}

#[test]
fn structured_numbers() {
    for good in [
        "^100^-^200",
        "^2^+",
        "^2^+^",
        ">^1",
        "<>^1^:^128",
        "^1^:^128",
        "^1",
    ] {
        assert_eq!(result("SN", good, "F"), Ok(()), "{good}");
    }
    for (bad, number) in [
        ("^1^^2", 25),
        ("^1^:^128^x", 23),
        ("^1^:^128^", 23),
        ("x^1", 25),
        ("x^^", 25),
        ("^^*", 20),
        (">", 20),
        ("^^-^1", 20),
        ("^1^x", 25),
        ("^1^^\"\"", 21),
        ("^1^^&", 23),
        ("^1^^12345678901234567", 24),
        ("^1^-^x", 25),
        ("\"\"^1", 21),
        ("^\"\"", 21),
        ("^1~", 22),
        ("^1^:^128^x~", 22),
    ] {
        assert_eq!(result("SN", bad, "F"), Err((number, 5)), "{bad}");
    }
    assert_eq!(result("SN", ">", "X"), Err((20, 5)));
}

#[test]
fn a_component_too_many() {
    for value_type in ["NM", "ST"] {
        for bad in ["1^", "^", "\"\"^1", "1^2"] {
            assert_eq!(result(value_type, bad, "F"), Err((23, 5)), "{bad}");
            assert_eq!(result(value_type, bad, "X"), Err((23, 5)), "{bad}");
        }
    }
}

#[test]
fn value_against_status() {
    for status in ["F", "P", "C"] {
        for (value_type, value) in [("NM", "1"), ("ST", "a"), ("SN", ">^1")] {
            assert_eq!(result(value_type, value, status), Ok(()));
            assert_eq!(result(value_type, "", status), Err((26, 11)));
        }
        assert_eq!(result("SN", "^^^", status), Err((26, 11)));
    }
    for status in ["I", "X"] {
        for (value_type, value) in [("NM", "1"), ("ST", "a"), ("SN", "^1")] {
            assert_eq!(result(value_type, value, status), Err((26, 11)));
            assert_eq!(result(value_type, "", status), Ok(()));
        }
        assert_eq!(result("SN", "^^^", status), Ok(()));
    }
    assert_eq!(result("NM", "", ""), Err((20, 11)));
    assert_eq!(result("NM", "", "Z"), Err((25, 11)));
}

#[test]
fn an_empty_value_is_judged_after_the_fields_behind_it() {
    let m = message_with("||31|U/L||N|||F", "|||U/L||Z|||F");
    refuses(&m, 25, 7, 8);
    let m = message_with("||31|U/L||N|||F", "|||U&L||Z|||F");
    refuses(&m, 23, 7, 6);
}

#[test]
fn an_excluded_result_keeps_its_place() {
    let m = message_with_result("NM", "", "X");
    let sheet = String::from_utf8(to_sheet(&m, SHEET_LIMIT).unwrap()).unwrap();
    assert!(sheet.contains("name=GOT\ntype=NM\ncompare=\nvalue=\n"));
    assert!(sheet.contains("name=GPT\ntype=NM\ncompare=\nvalue=\n"));
}

#[test]
fn dates() {
    let birth = |date: &str| message_with("||19700228|", &format!("||{date}|"));
    accepts(&birth("20240229"));
    accepts(&birth("20000229"));
    refuses(&birth("20230229"), 25, 2, 7);
    refuses(&birth("21000228"), 25, 2, 7);
}
