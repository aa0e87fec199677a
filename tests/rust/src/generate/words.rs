//! Plain values for the read places: good ones, and such as nearly are.

use super::random::Random;
use crate::delimiters::ADMITTED;
use crate::shift::{TO_ONE_BYTE, TO_TWO_BYTE};
use std::ops::RangeInclusive;

pub const MODES: &[&str] = &["P", "T", "D"];
pub const SEXES: &[&str] = &["M", "F", "O", "U"];
pub const CLASSES: &[&str] = &["I", "O"];
pub const FLAGS: &[&str] = &["", "", "L", "H", "LL", "HH", "N", "A"];
const COMPARATORS: &[&str] = &["", "", ">", "<", ">=", "<=", "=", "<>"];
const JOINERS: &[&str] = &["", "-", "+", "/", ".", ":"];

/// The last days of all months, and the first day of all.
#[rustfmt::skip]
const LAST_DAYS: &[&str] = &[
    "19000101", "20240131", "20240229", "20000229", "20230228", "19000228", "20240331", "20240430",
    "20240531", "20240630", "20240731", "20240831", "20240930", "20241031", "20241130", "20991231",
];

/// Values that are wrong in most places, and right or nearly right in some.
#[rustfmt::skip]
const NEARLY: &[&str] = &[
    "", " ", "Q", "p", "m", "i", "P ", " F", "MM", "1", "2", "2.4", "2.50", "OUL", "R21", "R22 ",
    "OUL_R2", "JC9", "JC10", "jc10", "99003", "99004", "RE", "NW", "nm", "NM", "SN", "ST", "TX",
    "X", "HHH", "LH", "12", "1234", "e000", "E00000000", "E0000000", "3B0350000023272AAB", "_",
    "20240229", "20230229", "20000229", "21000228", "19000229", "18991231", "20991231", "20240431",
    "20240631", "20240931", "20241131", "20240132", "20241232", "20240230", "20240001",
    "20241301", "20240100", "2024022", "202402291", "20240401240000", "20240401236000",
    "20240401235960", "20240401235959", "202404010930", "20240401093000.0", "00000000000042",
    "000000000000042", "0000000000000042", "-0", "01.20", ".5", "5.", "+", "-", ".", "+.", "<12",
    "1e3", "1.2.3", "--1", "1 ", "1,5", "\"\"", "\"\"\"", "\"", "ISO IR87",
    "\x1B$B$\"\x1B(B",
];

/// A result's type, its value in four parts (NM and ST fill the second only) and its status.
pub struct Outcome {
    pub value_type: &'static str,
    pub parts: [Vec<u8>; 4],
    pub status: &'static str,
}

/// An outcome that keeps every rule.
pub fn outcome(random: &mut Random) -> Outcome {
    let value_type = random.pick(&["NM", "NM", "SN", "ST"]);
    if random.one_in(4) {
        return Outcome {
            value_type,
            parts: Default::default(),
            status: random.pick(&["I", "X"]),
        };
    }
    let mut parts: [Vec<u8>; 4] = Default::default();
    parts[1] = match value_type {
        "ST" => text(random, 1..=60),
        _ => number(random),
    };
    if value_type == "SN" {
        parts[0] = word(random, COMPARATORS);
        parts[2] = word(random, JOINERS);
        if !parts[2].is_empty() && !random.one_in(3) {
            parts[3] = number(random);
        }
    }
    Outcome {
        value_type,
        parts,
        status: random.pick(&["F", "P", "C"]),
    }
}

/// An outcome whose parts are drawn one by one, so that they rarely fit one another.
pub fn odd_outcome(random: &mut Random) -> Outcome {
    let bad_comparators = ["><", "x", "*", "\"\"", ">>", "|", "> "];
    let bad_joiners = ["x", "--", "*", "\"\"", "^", "~", " "];
    let value_type = random.pick(&["NM", "SN", "SN", "SN", "ST"]);
    let beside = value_type == "SN" || random.one_in(4);
    let mut parts = [
        odd_word(random, COMPARATORS, &bad_comparators),
        odd_number(random),
        odd_word(random, JOINERS, &bad_joiners),
        odd_number(random),
    ];
    for companion in [0, 2, 3] {
        if !beside || random.one_in(2) {
            parts[companion].clear();
        }
    }
    Outcome {
        value_type,
        parts,
        status: random.pick(&["F", "P", "C", "I", "X"]),
    }
}

fn odd_word(random: &mut Random, good: &[&str], bad: &[&str]) -> Vec<u8> {
    let words = if random.one_in(8) { bad } else { good };
    word(random, words)
}

fn odd_number(random: &mut Random) -> Vec<u8> {
    match random.below(8) {
        0..=2 => Vec::new(),
        3..=5 => number(random),
        6 => nearly(random),
        _ => number_of(random, 17),
    }
}

/// A value that is wrong in most places.
pub fn nearly(random: &mut Random) -> Vec<u8> {
    word(random, NEARLY)
}

pub fn word(random: &mut Random, words: &[&str]) -> Vec<u8> {
    random.pick(words).into()
}

pub fn digits(random: &mut Random, count: usize) -> Vec<u8> {
    (0..count).map(|_| random.pick(b"0123456789")).collect()
}

/// One up to `limit` capitals or digits.
pub fn code(random: &mut Random, limit: usize) -> Vec<u8> {
    let length = random.within(1..=limit);
    (0..length)
        .map(|_| random.pick(b"ABCDEFGHIJKLMNOPQRSTUVWXYZ0123456789"))
        .collect()
}

pub fn date(random: &mut Random) -> Vec<u8> {
    if random.one_in(4) {
        return word(random, LAST_DAYS);
    }
    let (year, month, day) = (
        random.within(1900..=2099),
        random.within(1..=12),
        random.within(1..=28),
    );
    format!("{year}{month:02}{day:02}").into()
}

pub fn time(random: &mut Random) -> Vec<u8> {
    let mut time = date(random);
    let (hour, minute, second) = if random.one_in(6) {
        (23, 59, 59)
    } else {
        (random.below(24), random.below(60), random.below(60))
    };
    time.extend(format!("{hour:02}{minute:02}{second:02}").bytes());
    time
}

/// A number of at most 16 bytes.
pub fn number(random: &mut Random) -> Vec<u8> {
    match random.below(6) {
        0 => word(random, &["-0", "01.20", ".5", "5.", "+1", "-.0"]),
        1 => number_of(random, 16),
        _ => {
            let length = random.within(1..=6);
            number_of(random, length)
        }
    }
}

/// A number of just so many bytes, at least one.
pub fn number_of(random: &mut Random, length: usize) -> Vec<u8> {
    let mut number = digits(random, length);
    if length > 1 && random.one_in(3) {
        number[0] = random.pick(b"+-");
    }
    if length > 2 && random.one_in(2) {
        let point = random.within(1..=length - 1);
        number[point] = b'.';
    }
    number
}

/// A text whose length, shift bytes counted, lies within the range.
pub fn text(random: &mut Random, lengths: RangeInclusive<usize>) -> Vec<u8> {
    let length = random.within(lengths);
    text_of(random, length)
}

/// A text of just so many bytes, and not `""`.
pub fn text_of(random: &mut Random, length: usize) -> Vec<u8> {
    let mut text = Vec::new();
    while text.len() < length {
        let left = length - text.len();
        if left >= 6 && random.one_in(10) {
            let pairs = random.within(0..=(left - 6).min(12) / 2);
            text.extend(kanji(random, pairs));
        } else {
            text.push(letter(random));
        }
    }
    if text == b"\"\"" {
        text[0] = b'|';
    }
    text
}

/// A byte of one-byte mode, often one that may be a delimiter.
pub fn letter(random: &mut Random) -> u8 {
    match random.below(8) {
        0 | 1 => random.pick(ADMITTED),
        2 => random.within(0x20..=0x7E) as u8,
        _ => random.pick(b"ABCDEFGHIJKLMNOPQRSTUVWXYZabcdefghijklmnopqrstuvwxyz0123456789 .-/="),
    }
}

/// So many pairs in two-byte mode, with the shifts around them. Both bytes of a pair are often
/// such as would be delimiters in one-byte mode, or the bytes of a shift.
pub fn kanji(random: &mut Random, pairs: usize) -> Vec<u8> {
    let mut kanji = TO_TWO_BYTE.to_vec();
    for _ in 0..2 * pairs {
        kanji.push(if random.one_in(2) {
            random.pick(b"|\\^~&|\\^~&!#%*;?@$(BFSTRE\"")
        } else {
            random.within(0x21..=0x7E) as u8
        });
    }
    kanji.extend(TO_ONE_BYTE);
    kanji
}
