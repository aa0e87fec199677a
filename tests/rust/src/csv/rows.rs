//! Which column feeds which key (01.13 to 01.18).

use super::lines::Line;
use super::Given;
use crate::rules::is_nm;

/// The column that says which sheet a row belongs to.
const NUMBER: usize = 7;
/// An order number has so many digits, zeros in front.
const ORDER_DIGITS: usize = 15;

/// The lines of a sheet that a row gives. A converted text holds no 0A, so lines are equal just
/// where their keys are.
pub struct Row<'f> {
    /// As it stands in the file: numbers are compared as bytes (01.19).
    pub number: &'f [u8],
    /// From patient to class.
    pub header: Vec<u8>,
    pub specimen: Vec<u8>,
    pub order: Vec<u8>,
    pub result: Vec<u8>,
}

impl<'f> Row<'f> {
    /// The row of a line whose items read so when they are converted.
    pub fn of(line: &Line<'f>, texts: &[Vec<u8>]) -> Self {
        let column = |number: usize| texts.get(number - 1).map_or(b"" as &[u8], |text| text);
        Self {
            number: number(line),
            header: header(column),
            specimen: lines(&[("specimen", column(25)), ("collected", column(24))]),
            order: lines(&[("order", &order(column(20))), ("group", column(30))]),
            result: result(column),
        }
    }
}

/// The number of a line: a missing one is blank.
pub fn number<'f>(line: &Line<'f>) -> &'f [u8] {
    line.column(NUMBER)
}

/// The lines that stand before those of the rows.
pub fn opening(given: &Given) -> Vec<u8> {
    lines(&[
        ("version", b"1"),
        ("mode", &given.mode),
        ("sent", &given.sent),
        ("control", &given.control),
    ])
}

fn header<'t>(column: impl Fn(usize) -> &'t [u8]) -> Vec<u8> {
    let (family, given) = cut(column(9));
    let (kana_family, kana_given) = cut(column(10));
    lines(&[
        ("patient", column(8)),
        ("family", family),
        ("given", given),
        ("kanafamily", kana_family),
        ("kanagiven", kana_given),
        ("birth", column(11)),
        ("sex", sex(column(12))),
        ("class", class(column(21))),
    ])
}

fn result<'t>(column: impl Fn(usize) -> &'t [u8]) -> Vec<u8> {
    let (value, form) = (column(35), column(36));
    lines(&[
        ("item", column(31)),
        ("name", column(29)),
        ("type", value_type(value, form)),
        ("compare", compare(form)),
        ("value", value),
        ("join", b""),
        ("second", b""),
        ("unit", column(37)),
        ("flag", column(41)),
        ("status", column(34)),
    ])
}

fn lines(entries: &[(&str, &[u8])]) -> Vec<u8> {
    let mut lines = Vec::new();
    for (key, value) in entries {
        lines.extend_from_slice(key.as_bytes());
        lines.push(b'=');
        lines.extend_from_slice(value);
        lines.push(b'\n');
    }
    lines
}

/// Cut at the first blank, which goes; without one all is family. No pair has a byte 20.
fn cut(name: &[u8]) -> (&[u8], &[u8]) {
    match name.iter().position(|&byte| byte == b' ') {
        Some(blank) => (&name[..blank], &name[blank + 1..]),
        None => (name, b""),
    }
}

fn sex(code: &[u8]) -> &[u8] {
    match code {
        b"1" => b"M",
        b"2" => b"F",
        b"3" => b"O",
        _ => code,
    }
}

fn class(code: &[u8]) -> &[u8] {
    match code {
        b"1" => b"I",
        b"2" => b"O",
        _ => code,
    }
}

/// One to fifteen digits are filled up with zeros in front.
fn order(number: &[u8]) -> Vec<u8> {
    let is_filled_up = (1..=ORDER_DIGITS).contains(&number.len());
    if !is_filled_up || !number.iter().all(u8::is_ascii_digit) {
        return number.to_vec();
    }
    let zeros = &[b'0'; ORDER_DIGITS][number.len()..];
    [zeros, number].concat()
}

/// The form B says that there is no result.
fn has_form(form: &[u8]) -> bool {
    !matches!(form, b"" | b"B")
}

fn compare(form: &[u8]) -> &[u8] {
    match form {
        b"U" => b">=",
        b"E" => b"<=",
        b"L" => b"<",
        b"O" => b">",
        b"B" => b"",
        _ => form,
    }
}

/// A blank value is ST, and so is what is no NM, such as seventeen digits (01.14).
fn value_type(value: &[u8], form: &[u8]) -> &'static [u8] {
    match (has_form(form), is_nm(value)) {
        (true, _) => b"SN",
        (false, true) => b"NM",
        (false, false) => b"ST",
    }
}
