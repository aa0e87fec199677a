//! The commercial centre's file that is timed: 45 columns, one result a number or one to eight.

use oul_tests::unpaired;

/// A result: item code, its own code, name, unit, value, form, flag and status. Kanji stands here as
/// in a sheet.
#[rustfmt::skip]
const RESULTS: [[&str; 8]; 8] = [
    ["3B035000002327201", "0001", "AST(GOT)", "U/L", "31", "", "N", "F"],
    ["3B045000002327201", "0002", "ALT(GPT)", "U/L", "128", "", "H", "F"],
    ["3B090000002327101", "0003", "\x1B$B&C\x1B(B-GTP", "U/L", "18.5", "", "", "F"],
    ["3F050000002327101", "0007", "\x1B$BAm%3%l%9%F%m!<%k\x1B(B", "mg/dL", "203", "", "H", "F"],
    ["5C070000002302311", "0112", "CRP", "mg/dL", "0.04", "E", "", "F"],
    ["5D130000002305211", "0204", "CA19-9", "U/mL", "2.0", "L", "", "F"],
    ["5F016141002302311", "0310", "HBs\x1B$B9386\x1B(B", "", "(-)\x1B$B1\"@-\x1B(B", "", "", "F"],
    ["2A990000001930901", "0400", "\x1B$B7l1UA|\x1B(B", "", "", "B", "", "X"],
];

/// Family names, given names, and kana names.
const FAMILIES: [&str; 4] = [
    "\x1B$B;3ED\x1B(B",
    "\x1B$B:4F#\x1B(B",
    "\x1B$BNkLZ\x1B(B",
    "Hara",
];
const GIVEN: [&str; 4] = [
    "\x1B$BB@O:\x1B(B",
    "\x1B$B2V;R\x1B(B",
    "\x1B$B0lO:\x1B(B",
    "Jun",
];
const KANA: [&str; 4] = [
    "\x1B$B%d%^%@\x1B(B \x1B$B%?%m%&\x1B(B",
    "\x1B$B%5%H%&\x1B(B \x1B$B%O%J%3\x1B(B",
    "\x1B$B%9%:%-\x1B(B \x1B$B%$%A%m%&\x1B(B",
    "",
];

/// The text of the n-th result number.
pub type Number = fn(usize) -> String;

/// 1, 2, 3 and so on.
pub fn in_turn(n: usize) -> String {
    n.to_string()
}

/// Ten digits that tell nothing of those before; no two are alike, for each step can be undone.
pub fn in_no_order(n: usize) -> String {
    let mut mixed = n as u32;
    for _ in 0..3 {
        mixed = mixed.wrapping_mul(2_654_435_769);
        mixed ^= mixed >> 15;
    }
    format!("{mixed:010}")
}

/// A file of so many bytes at most, with as many results as go into it: one to so many a number.
pub fn file(bytes: usize, number_text: Number, results: usize) -> Vec<u8> {
    let mut file = Vec::new();
    write_line(&["Ver1.00", "45", "20140318"], &mut file);
    write_line(
        &(1..=45).map(|n| format!("No.{n}")).collect::<Vec<_>>(),
        &mut file,
    );
    for number in 1.. {
        for result in 0..1 + number * 7 % results {
            let before = file.len();
            write_line(&row(number, &number_text(number), result), &mut file);
            if file.len() > bytes {
                file.truncate(before);
                return file;
            }
        }
    }
    unreachable!("there is always another number")
}

/// A row: its columns are filled as the commercial centre fills them. Most kinds of results are numbers,
/// some have a form, one is a text, and one has no value.
fn row(number: usize, number_text: &str, result: usize) -> [String; 45] {
    let [item, own, name, unit, value, form, flag, status] =
        RESULTS[(number + result) % RESULTS.len()];
    let person = number % FAMILIES.len();
    let blood = result % 8 < 5;
    let order = format!("{}", 20_240_401_000_000_usize + number);
    let patient = format!("{:010}", number * 7919 % 1_000_000_007);
    let kanji_name = format!("{} {}", FAMILIES[person], GIVEN[number / 4 % GIVEN.len()]);
    let mut row = std::array::from_fn(|_| String::new());
    for (column, text) in [
        (1, "9312345678"),
        (2, "\x1B$B6&F18!::%;%s%?!<\x1B(B"),
        (3, "1310112345"),
        (4, "\x1B$BEl5~Fb2I%/%j%K%C%/\x1B(B"),
        (5, "01"),
        (6, "\x1B$B0e;UB@O:\x1B(B"),
        (7, number_text),
        (8, &patient),
        (9, &kanji_name),
        (10, KANA[person]),
        (11, "19700228"),
        (12, ["1", "2"][number % 2]),
        (13, "1"),
        (14, "167.2"),
        (15, "56"),
        (20, &order),
        (21, "2"),
        (22, "20240401080000"),
        (24, "20240401081500"),
        (25, if blood { "023" } else { "001" }),
        (26, "\x1B$B6uJ\";~:N7l\x1B(B"),
        (28, own),
        (29, name),
        (30, if blood { "3B" } else { "1A" }),
        (31, item),
        (32, "160022510"),
        (33, "20240401"),
        (34, status),
        (35, value),
        (36, form),
        (37, unit),
        (38, "1"),
        (39, "10"),
        (40, "40"),
        (41, flag),
        (43, ["", "\x1B$B:F8!:Q\x1B(B"][number % 2]),
    ] {
        row[column - 1] = text.to_string();
    }
    row
}

fn write_line(items: &[impl AsRef<str>], file: &mut Vec<u8>) {
    for (column, item) in items.iter().enumerate() {
        if column > 0 {
            file.push(b',');
        }
        file.push(b'"');
        file.extend(shift_jis(item.as_ref()));
        file.push(b'"');
    }
    file.extend(b"\r\n");
}

/// A text of a sheet, without a quote, as the file has it.
fn shift_jis(text: &str) -> Vec<u8> {
    let mut bytes = Vec::new();
    let mut rest = text.as_bytes();
    while let Some((&byte, after)) = rest.split_first() {
        match rest.strip_prefix(b"\x1B$B") {
            Some(pairs) => {
                let end = pairs
                    .iter()
                    .position(|&byte| byte == 0x1B)
                    .expect("a return");
                let pairs_in = pairs[..end].chunks_exact(2);
                bytes.extend(pairs_in.flat_map(|pair| unpaired([pair[0], pair[1]])));
                rest = &pairs[end + 3..];
            }
            None => {
                bytes.push(byte);
                rest = after;
            }
        }
    }
    bytes
}
