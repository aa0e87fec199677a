//! The rules of the sheet, and how it is written as a message.

mod common;

use common::*;
use oul_tests::{to_message, to_sheet, MESSAGE_LIMIT, SHEET_LIMIT};

/// The segments of the message that a sheet is written as.
fn segments(sheet: &[u8]) -> Vec<String> {
    let m = to_message(sheet, MESSAGE_LIMIT).unwrap();
    assert_eq!(to_sheet(&m, SHEET_LIMIT).as_deref(), Ok(sheet));
    let m = String::from_utf8(m).unwrap();
    m.split_terminator('\r').map(String::from).collect()
}

#[test]
fn bytes_of_a_sheet() {
    refuses_sheet(&vec![b'x'; 65_537], 40, 0);
    refuses_sheet(&vec![b'x'; 65_536], 41, 0);
    refuses_sheet(&SHEET.as_bytes()[..SHEET.len() - 1], 41, 0);
    refuses_sheet(&sheet_with("family=Hara\n", "family=Hara\r\n"), 41, 0);
    refuses_sheet(&sheet_with("=Hara\n", "=\x1B$BF\n"), 41, 0);
    refuses_sheet(&sheet_with("=Hara\n", "=\x1B$B\n\n\x1B(B\n"), 41, 0);
    accepts_sheet(&sheet_with("=Hara\n", "=\x1B$BF|\x1B(B\n"));
}

#[test]
fn keys() {
    refuses_sheet(b"", 42, 1);
    refuses_sheet(b"\n", 42, 1);
    refuses_sheet(b"version=1\n", 42, 2);
    refuses_sheet(b"version\n", 42, 1);
    refuses_sheet(&sheet_with("mode=T\n", "Mode=T\n"), 42, 2);
    refuses_sheet(&sheet_with("mode=T\n", " mode=T\n"), 42, 2);
    refuses_sheet(&sheet_with("mode=T\n", "mode =T\n"), 42, 2);
    refuses_sheet(&sheet_with("class=O\n", "class=O\nclass=O\n"), 42, 13);
    refuses_sheet(&sheet_with("status=X\n", "status=X\nversion=1\n"), 42, 37);
    refuses_sheet(&sheet_with("status=X\n", "status=X\n\n"), 42, 37);
    refuses_sheet(&sheet_with("status=X\n", ""), 42, 36);
}

#[test]
fn an_early_end_is_judged_after_all_lines() {
    let lines: Vec<&str> = SHEET.split_inclusive('\n').collect();
    for kept in 0..36 {
        let sheet = lines[..kept].concat();
        match kept {
            26 => accepts_sheet(sheet.as_bytes()),
            _ => refuses_sheet(sheet.as_bytes(), 42, kept + 1),
        }
    }
}

#[test]
fn lines_are_judged_one_by_one() {
    let sheet = sheet_with(
        "mode=T\nsent=20240401093000\n",
        "mode=Q\nwhen=20240401093000\n",
    );
    refuses_sheet(&sheet, 43, 2);
    let sheet = sheet_with("mode=T\nsent=20240401093000\n", "mood=Q\nsent=\n");
    refuses_sheet(&sheet, 42, 2);
}

#[test]
fn values_take_the_rules_of_the_read_places() {
    for (old, new, line) in [
        ("version=1\n", "version=2\n", 1),
        ("version=1\n", "version=\n", 1),
        ("mode=T\n", "mode=\n", 2),
        ("sent=20240401093000\n", "sent=20240401\n", 3),
        ("control=K0001\n", "control=\n", 4),
        ("control=K0001\n", "control=123456789012345678901\n", 4),
        ("patient=P7\n", "patient=\"\"\n", 5),
        ("\nfamily=Hara\n", "\nfamily=\n", 6),
        ("given=Jun\n", "given=\"\"\n", 7),
        ("kanagiven=\n", "kanagiven=k\n", 9),
        ("birth=19700228\n", "birth=19700229\n", 10),
        ("sex=M\n", "sex=Q\n", 11),
        ("class=O\n", "class=E\n", 12),
        ("specimen=023\n", "specimen=23\n", 13),
        ("collected=20240401081500\n", "collected=\n", 14),
        ("order=000000000000042\n", "order=42\n", 15),
        ("group=E000\n", "group=e000\n", 16),
        ("item=3B0350000023272\n", "item=\n", 17),
        ("name=GOT\n", "name=\"\"\n", 18),
        ("flag=N\n", "flag=n\n", 25),
        ("status=F\n", "status=\n", 26),
    ] {
        refuses_sheet(&sheet_with(old, new), 43, line);
    }
    accepts_sheet(&sheet_with("birth=19700228\n", "birth=\n"));
    accepts_sheet(&sheet_with("control=K0001\n", "control==\n"));
}

#[test]
fn parts_of_a_value_fit_one_another() {
    for (value_type, value, status) in [
        ("NM", ["", "1", "", ""], "F"),
        ("ST", ["", "a=b", "", ""], "P"),
        ("SN", [">=", "1", "", ""], "C"),
        ("SN", ["", "2", "+", ""], "F"),
        ("SN", ["", "1", ":", "128"], "F"),
        ("SN", ["", "", "", ""], "I"),
        ("ST", ["", "", "", ""], "X"),
    ] {
        accepts_sheet(&sheet_with_result(value_type, value, status));
    }
    for (value_type, value, status, line) in [
        ("TX", ["", "1", "", ""], "F", 19),
        ("NM", [">", "1", "", ""], "F", 20),
        ("NM", ["", "x", "", ""], "F", 21),
        ("NM", ["", "12345678901234567", "", ""], "F", 21),
        ("ST", ["", "a", "-", ""], "F", 22),
        ("ST", ["", "a", "", "1"], "F", 23),
        ("SN", ["", "1", "", "2"], "F", 23),
        ("SN", [">", "", "", ""], "F", 23),
        ("SN", ["", "", "-", ""], "X", 23),
        ("SN", ["", "", "-", "1"], "X", 23),
        ("SN", ["x", "1", "", ""], "F", 20),
        ("SN", ["", "1", "x", ""], "F", 22),
        ("NM", ["", "", "", ""], "F", 26),
        ("SN", ["", "", "", ""], "C", 26),
        ("NM", ["", "1", "", ""], "X", 26),
        ("SN", ["", "1", "", ""], "I", 26),
    ] {
        refuses_sheet(&sheet_with_result(value_type, value, status), 43, line);
    }
}

#[test]
fn an_sn_has_all_its_separators_or_none() {
    for (value, status, field) in [
        (["", "2", "+", ""], "F", "^2^+^"),
        ([">", "2", "", ""], "F", ">^2^^"),
        (["", "1", ":", "128"], "F", "^1^:^128"),
        (["", "", "", ""], "X", ""),
    ] {
        let sheet = sheet_with_result("SN", value, status);
        let segment = format!("OBX|1|SN|3B0350000023272^GOT^JC10||{field}|U/L||N|||{status}");
        assert_eq!(segments(&sheet)[6], segment);
    }
}

#[test]
fn a_kana_name_is_a_second_repetition() {
    let sheet = sheet_with("kanafamily=\nkanagiven=\n", "kanafamily=K\nkanagiven=k\n");
    let segment = "PID|||P7||Hara^Jun^^^^^L^I~K^k^^^^^L^P||19700228|M";
    assert_eq!(segments(&sheet)[1], segment);
    let sheet = sheet_with("kanafamily=\n", "kanafamily=K\n");
    let segment = "PID|||P7||Hara^Jun^^^^^L^I~K^^^^^^L^P||19700228|M";
    assert_eq!(segments(&sheet)[1], segment);
}

#[test]
fn delimiters_in_texts_are_escaped() {
    let sheet = sheet_with("patient=P7\n", "patient=|^~\\&\\F\\\n");
    let segment = r"PID|||\F\\S\\R\\E\\T\\E\F\E\||Hara^Jun^^^^^L^I||19700228|M";
    assert_eq!(segments(&sheet)[1], segment);
    let sheet = sheet_with("patient=P7\n", "patient=\x1B$B|\\\x1B(B|\n");
    let segment = "PID|||\x1B$B|\\\x1B(B\\F\\||Hara^Jun^^^^^L^I||19700228|M";
    assert_eq!(segments(&sheet)[1], segment);
}

#[test]
fn results_are_counted_anew_in_each_order() {
    let order = "order=000000000000043\ngroup=A\nitem=A\nname=\ntype=NM\ncompare=\nvalue=\n\
                 join=\nsecond=\nunit=\nflag=\nstatus=I\n";
    let specimen = format!("specimen=024\ncollected=20240401081500\n{order}");
    let sheet = sheet_with("status=X\n", &format!("status=X\n{order}{specimen}"));
    let starts: Vec<String> = segments(&sheet)
        .into_iter()
        .filter(|segment| segment.starts_with("SPM") || segment.starts_with("OBX"))
        .map(|segment| segment.chars().take(5).collect())
        .collect();
    assert_eq!(
        starts,
        ["SPM|1", "OBX|1", "OBX|2", "OBX|1", "SPM|2", "OBX|1"]
    );
}

/// The whole case's sheet with so many more results of type ST, each of this value.
fn sheet_with_texts(count: usize, value: &str) -> Vec<u8> {
    let text = format!(
        "item=A\nname=\ntype=ST\ncompare=\nvalue={value}\njoin=\nsecond=\nunit=\nflag=\nstatus=F\n"
    );
    format!("{SHEET}{}", text.repeat(count)).into_bytes()
}

#[test]
fn the_message_has_at_most_512_segments() {
    accepts_sheet(&sheet_with_texts(504, "a"));
    refuses_sheet(&sheet_with_texts(505, "a"), 44, 0);
}

#[test]
fn the_message_has_at_most_32768_bytes() {
    let full = (0..=200).find_map(|length| {
        let mut sheet = sheet_with_texts(142, &"a".repeat(200));
        let last = sheet_with_texts(1, &"a".repeat(length));
        sheet.extend(&last[SHEET.len()..]);
        let written = to_message(&sheet, MESSAGE_LIMIT).ok()?;
        (written.len() == MESSAGE_LIMIT).then_some((sheet, length))
    });
    let (mut sheet, length) = full.expect("some length fills the message");
    accepts_sheet(&sheet);
    assert!(length < 200);
    let end = sheet.len() - "\njoin=\nsecond=\nunit=\nflag=\nstatus=F\n".len();
    sheet.insert(end, b'a');
    refuses_sheet(&sheet, 44, 0);
    assert_eq!(to_message(&sheet, 0), Err(refusal(44, 0, 0)));
}

#[test]
fn a_refusal_for_lines_comes_before_44_and_45() {
    let mut sheet = sheet_with_texts(505, "a");
    sheet.extend(b"item=\n");
    refuses_sheet(&sheet, 43, 36 + 505 * 10 + 1);
    assert_eq!(to_message(b"", 0), Err(refusal(42, 1, 0)));
}
