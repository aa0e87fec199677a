//! What is timed: a typical message, full ones of small segments and of kanji, and parts of a
//! full one.

use oul_tests::{to_message, MESSAGE_LIMIT};

/// Some laboratory items: code, name and unit.
const ITEMS: [(&str, &str, &str); 6] = [
    ("3B0350000023272", "GOT", "U/L"),
    ("3B0450000023272", "GPT", "U/L"),
    ("3B0900000023271", "\x1B$B&C\x1B(B-GTP", "U/L"),
    ("3C0150000023271", "\x1B$BG\";@\x1B(B", "mg/dL"),
    ("3F0500000023271", "\x1B$BAm%3%l%9%F%m!<%k\x1B(B", "mg/dL"),
    ("2A0200000019301", "WBC", "10*3/uL"),
];

/// A message of about 2 KB: one order of 30 results, with a kanji and a kana name.
pub fn typical() -> Vec<u8> {
    message(|n| {
        let (item, name, unit) = ITEMS[n % ITEMS.len()];
        let value = format!("{}.{}", 3 + n * 7 % 200, n % 10);
        let flag = ["N", "", "H", "L"][n % 4];
        (n < 30).then(|| result(item, name, "NM", &value, unit, flag))
    })
    .expect("a good sheet")
}

/// Just so many bytes at most, with small results.
pub fn small_segments(bytes: usize) -> Vec<u8> {
    full(bytes, |n| {
        let (item, name, unit) = ITEMS[n % 2];
        let name = format!("{name} {:09}", n * 7919);
        result(item, &name, "NM", &format!("{}", n % 1000), unit, "N")
    })
}

/// Just so many bytes at most, with texts of kanji.
pub fn kanji(bytes: usize) -> Vec<u8> {
    full(bytes, |n| {
        let (item, ..) = ITEMS[n % ITEMS.len()];
        let text = "F|K\\8l".repeat(32);
        let text = format!("\x1B$B{text}\x1B(B");
        result(item, "\x1B$B=j8+\x1B(B", "ST", &text, "", "")
    })
}

/// As many results as go into so many bytes, and into 512 segments.
fn full(bytes: usize, result: impl Fn(usize) -> String) -> Vec<u8> {
    const SEGMENTS_BEFORE: usize = 6;
    let of = |count: usize| message(|n| (n < count).then(|| result(n)));
    let fits = |&count: &usize| of(count).is_some_and(|m| m.len() <= bytes);
    let counts: Vec<usize> = (1..=512 - SEGMENTS_BEFORE).collect();
    of(counts.partition_point(fits)).expect("room for one result")
}

/// None where the message would be too long.
fn message(result: impl Fn(usize) -> Option<String>) -> Option<Vec<u8>> {
    let mut sheet = "version=1\nmode=P\nsent=20240401093000\ncontrol=K0001\npatient=0000123456\n\
                     family=\x1B$B;3ED\x1B(B\ngiven=\x1B$BB@O:\x1B(B\n\
                     kanafamily=\x1B$B%d%^%@\x1B(B\nkanagiven=\x1B$B%?%m%&\x1B(B\n\
                     birth=19700228\nsex=M\nclass=O\nspecimen=023\ncollected=20240401081500\n\
                     order=000000000000042\ngroup=E000\n"
        .to_string();
    sheet.extend((0..).map_while(result));
    to_message(sheet.as_bytes(), MESSAGE_LIMIT).ok()
}

fn result(item: &str, name: &str, kind: &str, value: &str, unit: &str, flag: &str) -> String {
    format!(
        "item={item}\nname={name}\ntype={kind}\ncompare=\nvalue={value}\njoin=\nsecond=\n\
         unit={unit}\nflag={flag}\nstatus=F\n"
    )
}
