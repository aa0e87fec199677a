//! The commercial centre's file: edges of document 02, Req 01, and of its settled points.

use oul_tests::refusal::number;
use oul_tests::{csv_count, csv_next, csv_sheet, csv_spot, Given, Next, Refusal, Sheets};

const VERSION: &str = r#""Ver1.00","45","20140318""#;
const HEADING: &str = r#""No","Name""#;

/// A row of one result; the columns that are named here are filled.
struct Row([String; 45]);

impl Row {
    fn new() -> Self {
        let mut row = Self(std::array::from_fn(|_| String::new()));
        for (column, value) in [
            (7, "1"),
            (8, "P7"),
            (9, "Hara Jun"),
            (11, "19700228"),
            (12, "1"),
            (20, "42"),
            (21, "2"),
            (24, "20240401081500"),
            (25, "023"),
            (29, "GOT"),
            (30, "E000"),
            (31, "3B035"),
            (34, "F"),
            (35, "31"),
            (37, "U/L"),
            (41, "N"),
        ] {
            row.0[column - 1] = value.into();
        }
        row
    }

    fn with(mut self, column: usize, value: &str) -> Self {
        self.0[column - 1] = value.into();
        self
    }

    fn line(&self) -> String {
        format!("\"{}\"", self.0.join("\",\""))
    }
}

fn file_of(rows: &[Row]) -> Vec<u8> {
    let mut lines = vec![VERSION.to_string(), HEADING.to_string()];
    lines.extend(rows.iter().map(Row::line));
    (lines.join("\r\n") + "\r\n").into()
}

fn given() -> Given {
    Given {
        mode: b"T".to_vec(),
        sent: b"20240401093000".to_vec(),
        control: b"K1".to_vec(),
    }
}

fn sheet(file: &[u8], which: usize) -> Result<String, Refusal> {
    csv_sheet(file, which, &given(), 65_536).map(|sheet| String::from_utf8(sheet).unwrap())
}

fn next(file: &[u8], at: usize) -> Next {
    csv_next(file, at, &given(), 65_536)
}

fn refused(number: u8) -> Refusal {
    Refusal::of_whole(number)
}

/// The lines of a sheet that begin a specimen, an order or a result.
fn outline(file: &[u8]) -> Vec<String> {
    let sheet = sheet(file, 1).unwrap();
    let shown = ["specimen=", "order=", "item="];
    let lines = sheet.lines();
    lines
        .filter(|line| shown.iter().any(|key| line.starts_with(key)))
        .map(String::from)
        .collect()
}

#[test]
fn one_row_makes_one_sheet() {
    let file = file_of(&[Row::new()]);
    let first_row = VERSION.len() + HEADING.len() + 4;
    assert_eq!(
        csv_count(&file),
        Ok(Sheets {
            count: 1,
            first_row
        })
    );
    let expected = "version=1\nmode=T\nsent=20240401093000\ncontrol=K1\npatient=P7\nfamily=Hara\n\
                    given=Jun\nkanafamily=\nkanagiven=\nbirth=19700228\nsex=M\nclass=O\n\
                    specimen=023\ncollected=20240401081500\norder=000000000000042\ngroup=E000\n\
                    item=3B035\nname=GOT\ntype=NM\ncompare=\nvalue=31\njoin=\nsecond=\nunit=U/L\n\
                    flag=N\nstatus=F\n";
    assert_eq!(sheet(&file, 1).as_deref(), Ok(expected));
    for which in [0, 2, usize::MAX] {
        assert_eq!(sheet(&file, which), Err(refused(30)));
    }
    assert_eq!(csv_spot(&file), 0);
}

#[test]
fn a_file_without_a_row_has_no_sheet() {
    for end in ["", "\r\n"] {
        let file = format!("{VERSION}\r\n{HEADING}{end}");
        let first_row = file.len();
        let sheets = csv_count(file.as_bytes());
        assert_eq!(
            sheets,
            Ok(Sheets {
                count: 0,
                first_row
            })
        );
        assert_eq!(sheet(file.as_bytes(), 1), Err(refused(30)));
    }
}

/// The lines of a file, its refusal, and the line where it is met.
#[test]
fn a_refusal_of_the_file_has_a_line() {
    let version = || VERSION.to_string();
    let row = || Row::new().line();
    let number = |number: &str| Row::new().with(7, number).line();
    let differs = || Row::new().with(11, "").line();
    let tab = || Row::new().with(45, "\t").line();
    let short = || row().replace(",\"N\",", ",");
    for (lines, refusal, line) in [
        (vec![], Some(51), 1),
        (vec![version()], Some(51), 2),
        (vec!["\"a\"".to_string(), row(), row()], Some(51), 1),
        (vec!["\"a\",\"6\"".to_string(), row()], Some(51), 1),
        (vec![version(), row(), row(), short(), row()], Some(51), 4),
        (vec![version(), short(), row(), row()], None, 0),
        (vec![version(), row(), row(), tab(), tab()], Some(52), 4),
        (vec![version(), tab(), row()], Some(52), 2),
        (vec![VERSION.replace('V', "\t"), tab()], Some(52), 1),
        (vec![version(), row(), row(), row(), differs()], Some(53), 5),
        (
            vec![version(), row(), row(), number("2"), row()],
            Some(54),
            5,
        ),
        (
            vec![version(), row(), row(), number("2"), differs()],
            Some(53),
            5,
        ),
        (
            vec![
                version(),
                row(),
                row(),
                number("2"),
                number(""),
                number("2"),
                row(),
            ],
            Some(54),
            6,
        ),
    ] {
        let file = lines.join("\r\n");
        assert_eq!(
            csv_count(file.as_bytes()).err(),
            refusal.map(refused),
            "{file}"
        );
        assert_eq!(csv_spot(file.as_bytes()), line, "{file}");
        // an empty line at the end comes before them all
        let broken = file + "\r\n\r\n";
        assert_eq!(csv_count(broken.as_bytes()), Err(refused(50)));
        assert_eq!(csv_spot(broken.as_bytes()), lines.len() + 1);
    }
}

#[test]
fn cr_lf_inside_quotes_ends_no_line() {
    let broken = Row::new().with(45, "a\r\nb").line();
    let lines = [
        VERSION,
        HEADING,
        &Row::new().line(),
        &broken,
        &Row::new().line(),
    ];
    let file = lines.join("\r\n");
    assert_eq!(csv_count(file.as_bytes()), Err(refused(52)));
    assert_eq!(csv_spot(file.as_bytes()), 4);
    let file = file + " ";
    assert_eq!(csv_count(file.as_bytes()), Err(refused(50)));
    assert_eq!(csv_spot(file.as_bytes()), 5);
}

#[test]
fn rows_join_by_the_keys_of_the_row_before() {
    let row = |specimen: &str, order: &str, item: &str| {
        Row::new().with(25, specimen).with(20, order).with(31, item)
    };
    let file = file_of(&[
        row("023", "42", "A"),
        row("023", "000000000000042", "B"),
        row("023", "43", "C"),
        row("019", "43", "D"),
        row("023", "43", "E"),
    ]);
    let expected = [
        "specimen=023",
        "order=000000000000042",
        "item=A",
        "item=B",
        "order=000000000000043",
        "item=C",
        "specimen=019",
        "order=000000000000043",
        "item=D",
        "specimen=023",
        "order=000000000000043",
        "item=E",
    ];
    assert_eq!(outline(&file), expected);
}

#[test]
fn numbers_are_compared_as_bytes() {
    let numbers = ["1", "01", "", "1 ", "\"\"1"];
    let rows = numbers.map(|number| Row::new().with(7, number).with(8, &format!("P{number}")));
    let file = file_of(&rows);
    assert_eq!(csv_count(&file).unwrap().count, numbers.len());
    for (which, number) in (1..).zip(numbers) {
        let patient = format!("\npatient=P{}\n", number.replace("\"\"", "\""));
        assert!(sheet(&file, which).unwrap().contains(&patient));
    }
}

#[test]
fn header_keys_are_compared_after_conversion() {
    let alike = [
        Row::new().with(9, "Hara"),
        Row::new().with(9, "Hara ").with(12, "M"),
        Row::new().with(9, "Hara").with(21, "O"),
    ];
    assert_eq!(csv_count(&file_of(&alike)).unwrap().count, 1);
    for (column, value) in [
        (8, "P8"),
        (9, "Hara"),
        (9, "Ha Jun"),
        (10, "H"),
        (11, ""),
        (12, "2"),
        (21, "1"),
    ] {
        let file = file_of(&[Row::new(), Row::new().with(column, value)]);
        assert_eq!(csv_count(&file), Err(refused(53)), "{column}");
        assert_eq!(sheet(&file, 1), Err(refused(53)), "{column}");
    }
}

#[test]
fn the_next_sheet_begins_behind_the_last_one() {
    let number = |number: &str| Row::new().with(7, number);
    let file = file_of(&[number("1"), number("1"), number("2"), number("1")]);
    assert_eq!(csv_count(&file), Err(refused(54)));
    let line = Row::new().line().len() + 2;
    let first = VERSION.len() + HEADING.len() + 4;
    let mut at = first;
    for rows in [2, 1, 1] {
        let Next { sheet, behind } = next(&file, at);
        let sheet = String::from_utf8(sheet.unwrap()).unwrap();
        assert_eq!(sheet.matches("\nitem=").count(), rows);
        at += rows * line;
        assert_eq!(behind, at);
    }
    assert_eq!(at, file.len());
    for at in [at, at + 1, usize::MAX] {
        let nothing = Next {
            sheet: Err(refused(number::NO_SUCH_ORDINAL)),
            behind: file.len(),
        };
        assert_eq!(next(&file, at), nothing);
    }
}

#[test]
fn a_place_amid_a_line_is_read_afresh() {
    let file = b"\"a\",\"b\"\r\n\"c\" \r\n\"d\"";
    let answer = |at: usize| {
        let next = next(file, at);
        (next.sheet.unwrap_err(), next.behind)
    };
    let blank_patient = Refusal::at_line(number::SHEET_VALUE, 5);
    // the two lines have a blank number; the third breaks the quoting and is not taken
    assert_eq!(answer(0), (blank_patient, 9));
    assert_eq!(answer(1), (refused(50), file.len()));
    // `","` is an item, behind which `b` stands
    assert_eq!(answer(2), (refused(50), file.len()));
    assert_eq!(answer(4), (blank_patient, 9));
    assert_eq!(answer(9), (refused(50), file.len()));
    assert_eq!(answer(15), (blank_patient, file.len()));
    assert_eq!(answer(18), (refused(30), file.len()));
}

#[test]
fn the_next_sheet_is_refused_for_its_own_rows_alone() {
    let broken = "\"x\" ,";
    let rows = |rows: &[Row]| {
        rows.iter()
            .map(|row| row.line() + "\r\n")
            .collect::<String>()
    };
    let good = rows(&[Row::new()]);
    for (file, number, place, behind) in [
        (good.clone() + broken, 0, 0, good.len()),
        (
            good.clone() + &rows(&[Row::new().with(7, "2").with(45, "\t")]),
            0,
            0,
            good.len(),
        ),
        (rows(&[Row::new(), Row::new().with(45, "\t")]), 52, 0, 0),
        (
            rows(&[Row::new().with(8, "P8"), Row::new().with(45, "\t")]),
            52,
            0,
            0,
        ),
        (rows(&[Row::new(), Row::new().with(8, "P8")]), 53, 0, 0),
        (rows(&[Row::new(), Row::new().with(34, "D")]), 43, 36, 0),
    ] {
        let behind = match behind {
            0 => file.len(),
            behind => behind,
        };
        let next = next(file.as_bytes(), 0);
        assert_eq!(next.behind, behind, "{file}");
        let refusal = next.sheet.err();
        let expected = (number > 0).then_some(Refusal::at_line(number, place));
        assert_eq!(refusal, expected, "{file}");
    }
}

#[test]
fn the_room_decides_last() {
    let file = file_of(&[Row::new()]);
    let length = sheet(&file, 1).unwrap().len();
    let first = csv_count(&file).unwrap().first_row;
    assert!(csv_sheet(&file, 1, &given(), length).is_ok());
    assert_eq!(csv_sheet(&file, 1, &given(), length - 1), Err(refused(45)));
    let next = csv_next(&file, first, &given(), length - 1);
    assert_eq!((next.sheet, next.behind), (Err(refused(45)), file.len()));
    let bad = Given {
        mode: b"X".to_vec(),
        ..given()
    };
    assert_eq!(csv_sheet(&file, 1, &bad, 0), Err(Refusal::at_line(43, 2)));
}
