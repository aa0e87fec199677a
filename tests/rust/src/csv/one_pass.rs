//! All sheets of a file in one pass, as a program would make them that is written for speed: the
//! items stay where they lie, a hash set knows the numbers, and each sheet is a vector. The library
//! is timed beside it.

use super::{column_count, csv_count, pair, Given};
use crate::rules::is_nm;
use crate::sheet_reader::judge_sheet;
use crate::shift::{TO_ONE_BYTE, TO_TWO_BYTE};
use crate::Refusal;
use std::collections::HashSet;

/// No later column feeds a key.
const READ_COLUMNS: usize = 41;
const NUMBER: usize = 7;
const HEADER: [usize; 6] = [8, 9, 10, 11, 12, 21];
const SPECIMEN: [usize; 2] = [25, 24];
const ORDER: [usize; 2] = [20, 30];

/// A sheet of a file, or the sheet's own refusal.
pub type Sheet = Result<Vec<u8>, Refusal>;

/// Every sheet of a file, or the file's refusal. Which one that is, is looked for only where there is
/// one.
pub fn csv_sheets(file: &[u8], given: &Given) -> Result<Vec<Sheet>, Refusal> {
    match sheets_of_good(file, given) {
        Some(sheets) => Ok(sheets),
        None => csv_count(file).map(|_| unreachable!("the file breaks a rule")),
    }
}

/// None where the file breaks one of its rules.
fn sheets_of_good(file: &[u8], given: &Given) -> Option<Vec<Sheet>> {
    let (mut row, mut before) = (Row::default(), Row::default());
    let mut rest = row.read(file)?;
    let columns = column_count(row.item(2).raw)?;
    rest = row.read(rest)?;
    let mut numbers = HashSet::new();
    let mut sheets = Vec::new();
    let mut sheet = Vec::new();
    while !rest.is_empty() {
        rest = row.read(rest)?;
        if row.count != columns {
            return None;
        }
        let number = row.item(NUMBER).raw;
        let goes_on = !sheet.is_empty() && number == before.item(NUMBER).raw;
        if goes_on {
            if !row.agrees(&before, &HEADER, write_header) {
                return None;
            }
        } else {
            if !numbers.insert(number) {
                return None;
            }
            finish(&mut sheet, &mut sheets);
            write_opening(given, &mut sheet);
            write_header(&row, &mut sheet);
        }
        let joins_specimen = goes_on && row.agrees(&before, &SPECIMEN, write_specimen);
        let joins_order = joins_specimen && row.agrees(&before, &ORDER, write_order);
        if !joins_specimen {
            write_specimen(&row, &mut sheet);
        }
        if !joins_order {
            write_order(&row, &mut sheet);
        }
        write_result(&row, &mut sheet);
        std::mem::swap(&mut row, &mut before);
    }
    finish(&mut sheet, &mut sheets);
    Some(sheets)
}

/// Judges a sheet that is written.
fn finish(sheet: &mut Vec<u8>, sheets: &mut Vec<Sheet>) {
    if !sheet.is_empty() {
        let sheet = std::mem::take(sheet);
        sheets.push(judge_sheet(&sheet).map(|()| sheet));
    }
}

/// What stands between the quotes of an item.
#[derive(Clone, Copy, Default)]
struct Item<'f> {
    raw: &'f [u8],
    /// Whether it has neither a pair nor a quote, so that it is its own conversion.
    plain: bool,
}

struct Row<'f> {
    items: [Item<'f>; READ_COLUMNS],
    count: usize,
}

impl Default for Row<'_> {
    fn default() -> Self {
        Self {
            items: [Item::default(); READ_COLUMNS],
            count: 0,
        }
    }
}

impl<'f> Row<'f> {
    /// Reads the line at the start of `rest`, and gives what follows it; none where it breaks the
    /// quoting or has a byte that cannot be converted.
    fn read(&mut self, mut rest: &'f [u8]) -> Option<&'f [u8]> {
        self.count = 0;
        loop {
            let item = Item::read(rest)?;
            if let Some(place) = self.items.get_mut(self.count) {
                *place = item;
            }
            self.count += 1;
            rest = &rest[item.raw.len() + 2..];
            match rest {
                [b',', after @ ..] => rest = after,
                [b'\r', b'\n', after @ ..] => return Some(after),
                [] => return Some(rest),
                _ => return None,
            }
        }
    }

    /// A column, counted from 1; one past the end is blank.
    fn item(&self, column: usize) -> Item<'f> {
        match column <= self.count {
            true => self.items[column - 1],
            false => Item::default(),
        }
    }

    /// Whether two rows have equal keys in these columns: mostly their bytes are equal, too.
    fn agrees(&self, other: &Self, columns: &[usize], write: fn(&Row, &mut Vec<u8>)) -> bool {
        let equal = |&column: &usize| self.item(column).raw == other.item(column).raw;
        columns.iter().all(equal) || {
            let (mut one, mut two) = (Vec::new(), Vec::new());
            write(self, &mut one);
            write(other, &mut two);
            one == two
        }
    }
}

impl<'f> Item<'f> {
    fn read(rest: &'f [u8]) -> Option<Self> {
        let inside = rest.strip_prefix(b"\"")?;
        let mut plain = true;
        let mut end = 0;
        loop {
            match inside[end..] {
                [b'"', b'"', ..] => {
                    plain = false;
                    end += 2;
                }
                [b'"', ..] => {
                    let raw = &inside[..end];
                    return Some(Self { raw, plain });
                }
                [0x20..=0x7E, ..] => end += 1,
                [lead, trail, ..] => {
                    pair(lead, trail)?;
                    plain = false;
                    end += 2;
                }
                _ => return None,
            }
        }
    }

    /// Cut at the first blank, which goes.
    fn cut(self) -> (Self, Self) {
        let at = self.raw.iter().position(|&byte| byte == b' ');
        let (front, behind) = match at {
            Some(at) => (&self.raw[..at], &self.raw[at + 1..]),
            None => (self.raw, &[][..]),
        };
        (
            Self { raw: front, ..self },
            Self {
                raw: behind,
                ..self
            },
        )
    }

    fn write(self, sheet: &mut Vec<u8>) {
        if self.plain {
            sheet.extend_from_slice(self.raw);
            return;
        }
        let mut shifted = false;
        let mut rest = self.raw;
        while let [byte, after @ ..] = rest {
            let is_pair = *byte > 0x7E;
            if is_pair != shifted {
                sheet.extend(if is_pair { TO_TWO_BYTE } else { TO_ONE_BYTE });
                shifted = is_pair;
            }
            if is_pair {
                sheet.extend(pair(*byte, after[0]).into_iter().flatten());
            } else {
                sheet.push(*byte);
            }
            let step = usize::from(is_pair || *byte == b'"');
            rest = &after[step..];
        }
        if shifted {
            sheet.extend(TO_ONE_BYTE);
        }
    }
}

fn line(key: &str, item: Item, sheet: &mut Vec<u8>) {
    sheet.extend_from_slice(key.as_bytes());
    item.write(sheet);
    sheet.push(b'\n');
}

/// A line whose value needs no conversion.
fn plain_line(key: &str, value: &[u8], sheet: &mut Vec<u8>) {
    sheet.extend_from_slice(key.as_bytes());
    sheet.extend_from_slice(value);
    sheet.push(b'\n');
}

fn write_opening(given: &Given, sheet: &mut Vec<u8>) {
    plain_line("version=", b"1", sheet);
    plain_line("mode=", &given.mode, sheet);
    plain_line("sent=", &given.sent, sheet);
    plain_line("control=", &given.control, sheet);
}

fn write_header(row: &Row, sheet: &mut Vec<u8>) {
    let (family, given) = row.item(9).cut();
    let (kana_family, kana_given) = row.item(10).cut();
    line("patient=", row.item(8), sheet);
    line("family=", family, sheet);
    line("given=", given, sheet);
    line("kanafamily=", kana_family, sheet);
    line("kanagiven=", kana_given, sheet);
    line("birth=", row.item(11), sheet);
    match row.item(12).raw {
        b"1" => plain_line("sex=", b"M", sheet),
        b"2" => plain_line("sex=", b"F", sheet),
        b"3" => plain_line("sex=", b"O", sheet),
        _ => line("sex=", row.item(12), sheet),
    }
    match row.item(21).raw {
        b"1" => plain_line("class=", b"I", sheet),
        b"2" => plain_line("class=", b"O", sheet),
        _ => line("class=", row.item(21), sheet),
    }
}

fn write_specimen(row: &Row, sheet: &mut Vec<u8>) {
    line("specimen=", row.item(25), sheet);
    line("collected=", row.item(24), sheet);
}

fn write_order(row: &Row, sheet: &mut Vec<u8>) {
    const ZEROS: &[u8; 15] = b"000000000000000";
    let order = row.item(20);
    let is_number = (1..=15).contains(&order.raw.len()) && order.raw.iter().all(u8::is_ascii_digit);
    sheet.extend_from_slice(b"order=");
    if is_number {
        sheet.extend_from_slice(&ZEROS[order.raw.len()..]);
    }
    order.write(sheet);
    sheet.push(b'\n');
    line("group=", row.item(30), sheet);
}

fn write_result(row: &Row, sheet: &mut Vec<u8>) {
    let (value, form) = (row.item(35), row.item(36));
    line("item=", row.item(31), sheet);
    line("name=", row.item(29), sheet);
    let value_type = match form.raw {
        b"" | b"B" if is_nm(value.raw) => b"NM",
        b"" | b"B" => b"ST",
        _ => b"SN",
    };
    plain_line("type=", value_type, sheet);
    match form.raw {
        b"U" => plain_line("compare=", b">=", sheet),
        b"E" => plain_line("compare=", b"<=", sheet),
        b"L" => plain_line("compare=", b"<", sheet),
        b"O" => plain_line("compare=", b">", sheet),
        b"B" => plain_line("compare=", b"", sheet),
        _ => line("compare=", form, sheet),
    }
    line("value=", value, sheet);
    sheet.extend_from_slice(b"join=\nsecond=\n");
    line("unit=", row.item(37), sheet);
    line("flag=", row.item(41), sheet);
    line("status=", row.item(34), sheet);
}
