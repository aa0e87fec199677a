//! The commercial centre's result file: document 02, Req 01, with its settled points 01.1 to
//! 01.24.
//!
//! The calls follow these papers word by word: each of the refusals 50 to 54 has a function of its
//! own, which looks at the whole file before the next does.

mod kanji;
mod lines;
mod one_pass;
mod rows;

use crate::refusal::{number, Refusal};
use crate::sheet_reader::judge_sheet;
use crate::within_room;
use lines::{lines, Line};
use rows::Row;
use std::collections::{HashMap, HashSet};

pub use kanji::{pair, unpaired};
pub use one_pass::{csv_sheets, Sheet};

/// The version line and the heading line stand before the rows (01.4).
const LINES_BEFORE_ROWS: usize = 2;
/// The number that says which sheet a row belongs to stands in column 7, so no file has fewer.
const FEWEST_COLUMNS: usize = 7;

/// The values of the keys that no column feeds; the caller gives them for each sheet anew (01.15).
#[derive(Clone, Debug, Default, PartialEq, Eq)]
pub struct Given {
    pub mode: Vec<u8>,
    pub sent: Vec<u8>,
    pub control: Vec<u8>,
}

/// What a good file holds.
#[derive(Clone, Copy, Debug, PartialEq, Eq)]
pub struct Sheets {
    pub count: usize,
    /// Where the first row begins, counted from 0; the file's length where there is none.
    pub first_row: usize,
}

/// What stands at a place of a file.
#[derive(Clone, Debug, PartialEq, Eq)]
pub struct Next {
    pub sheet: Result<Vec<u8>, Refusal>,
    /// The place behind the rows that were taken; the file's length where none were.
    pub behind: usize,
}

/// Counts the sheets of a file that keeps every rule (01.23).
pub fn csv_count(file: &[u8]) -> Result<Sheets, Refusal> {
    let read = read_file(file)?;
    Ok(Sheets {
        count: read.runs().count(),
        first_row: read.first_row,
    })
}

/// Writes the sheet with this number, counted from 1, in at most `room` bytes. The file's refusals
/// come first, then 30 where there is no such sheet, then the sheet's own and 45 (01.23).
pub fn csv_sheet(
    file: &[u8],
    which: usize,
    given: &Given,
    room: usize,
) -> Result<Vec<u8>, Refusal> {
    let read = read_file(file)?;
    let run = which
        .checked_sub(1)
        .and_then(|before| read.runs().nth(before));
    let run = run.ok_or(Refusal::of_whole(number::NO_SUCH_ORDINAL))?;
    good_sheet(run, given, room)
}

/// Writes the sheet of the rows that begin at a place of any bytes: the first ones that adjoin and
/// share their number. Nothing is known of what stands before, so the quoting is read afresh, and
/// rows may have any number of columns.
///
/// 50 where the line at the place breaks the quoting, 30 where there is none; else 52 and 53 over
/// these rows, then the sheet's own and 45. A later line that breaks the quoting ends the rows.
pub fn csv_next(file: &[u8], at: usize, given: &Given, room: usize) -> Next {
    let rest = file.get(at..).unwrap_or_default();
    let adjoining = match adjoining_lines(rest) {
        Ok(adjoining) => adjoining,
        Err(number) => {
            return Next {
                sheet: Err(Refusal::of_whole(number)),
                behind: file.len(),
            }
        }
    };
    let behind = at + adjoining.iter().map(|line| line.size).sum::<usize>();
    let sheet = sheet_of_lines(&adjoining, given, room);
    Next { sheet, behind }
}

/// The line, counted from 1, at which the first of 50 to 54 that the file breaks is met; 0 where it
/// breaks none. CR LF inside quotes ends no line.
pub fn csv_spot(file: &[u8]) -> usize {
    read_file(file).err().map_or(0, |fault| fault.line)
}

/// A rule of the file that is broken, and the line where this is seen.
#[derive(Clone, Copy, Debug, PartialEq, Eq)]
struct Fault {
    number: u8,
    line: usize,
}

/// A file's refusal names no place (00.1).
impl From<Fault> for Refusal {
    fn from(fault: Fault) -> Self {
        Self::of_whole(fault.number)
    }
}

/// The rows of a file that keeps every rule.
struct File<'f> {
    rows: Vec<Row<'f>>,
    first_row: usize,
}

impl<'f> File<'f> {
    /// The rows of each sheet. No number returns, so they adjoin, and the sheets come in the order
    /// in which their numbers first appear (01.19).
    fn runs(&self) -> impl Iterator<Item = &[Row<'f>]> {
        self.rows.chunk_by(|row, next| row.number == next.number)
    }
}

/// Judges 50, 51, 52, 53 and 54, each over the whole file before the next (01.12).
fn read_file(file: &[u8]) -> Result<File<'_>, Fault> {
    let lines = well_quoted(file)?;
    judge_columns(&lines)?;
    let texts = converted(&lines).map_err(|line| Fault {
        number: number::CSV_BYTES,
        line,
    })?;
    let (before_rows, row_lines) = lines.split_at(LINES_BEFORE_ROWS);
    let rows = rows(row_lines, &texts[LINES_BEFORE_ROWS..]);
    judge_headers(&rows)?;
    judge_numbers(&rows)?;
    Ok(File {
        rows,
        first_row: before_rows.iter().map(|line| line.size).sum(),
    })
}

/// 50: the first line that breaks the quoting.
fn well_quoted(file: &[u8]) -> Result<Vec<Line<'_>>, Fault> {
    let mut read = Vec::new();
    for line in lines(file) {
        let line = line.ok_or(Fault {
            number: number::CSV_QUOTING,
            line: read.len() + 1,
        })?;
        read.push(line);
    }
    Ok(read)
}

/// 51: no version line or heading line, a column count there that is not a number from 7 up, or a
/// row with another count. The heading may have any number of items (01.6).
fn judge_columns(lines: &[Line]) -> Result<(), Fault> {
    let fault = |line| Fault {
        number: number::CSV_COLUMNS,
        line,
    };
    let [version, _heading, rows @ ..] = lines else {
        return Err(fault(lines.len() + 1));
    };
    let count = column_count(version.column(2)).ok_or(fault(1))?;
    let other = rows.iter().position(|row| row.items.len() != count);
    other.map_or(Ok(()), |row| Err(fault(line_of_row(row))))
}

/// One or more digits that mean 7 or more, leading zeros allowed. It must not wrap (01.5): a count
/// past all that a row can have stays past it.
fn column_count(item: &[u8]) -> Option<usize> {
    if item.is_empty() || !item.iter().all(u8::is_ascii_digit) {
        return None;
    }
    let count = item.iter().fold(0, |count: usize, digit| {
        count
            .saturating_mul(10)
            .saturating_add(usize::from(digit - b'0'))
    });
    (count >= FEWEST_COLUMNS).then_some(count)
}

/// 52: every item is converted, those of the version line, the heading and dropped columns too
/// (01.9). Else the first line, counted from 1, with one that cannot be.
fn converted(lines: &[Line]) -> Result<Vec<Vec<Vec<u8>>>, usize> {
    (1..)
        .zip(lines)
        .map(|(number, line)| line.converted().ok_or(number))
        .collect()
}

/// The rows of lines, whose items read so when they are converted.
fn rows<'f>(lines: &[Line<'f>], texts: &[Vec<Vec<u8>>]) -> Vec<Row<'f>> {
    let pairs = lines.iter().zip(texts);
    pairs.map(|(line, texts)| Row::of(line, texts)).collect()
}

/// 53: the first row that differs in a header key from the first row with its number, wherever
/// they stand (01.20).
fn judge_headers(rows: &[Row]) -> Result<(), Fault> {
    let mut first_headers = HashMap::new();
    for (at, row) in rows.iter().enumerate() {
        let first = first_headers.entry(row.number).or_insert(&row.header);
        if *first != &row.header {
            return Err(Fault {
                number: number::CSV_HEADER_DIFFERS,
                line: line_of_row(at),
            });
        }
    }
    Ok(())
}

/// 54: the first row whose number differs from the row before's and equals an earlier row's
/// (01.21).
fn judge_numbers(rows: &[Row]) -> Result<(), Fault> {
    let mut earlier = HashSet::new();
    let mut before = None;
    for (at, row) in rows.iter().enumerate() {
        if before != Some(row.number) && !earlier.insert(row.number) {
            return Err(Fault {
                number: number::CSV_NUMBER_RETURNS,
                line: line_of_row(at),
            });
        }
        before = Some(row.number);
    }
    Ok(())
}

/// The line of a row, which is counted from 0.
fn line_of_row(row: usize) -> usize {
    row + LINES_BEFORE_ROWS + 1
}

/// The lines at the start of `rest` that share their number; 50 or 30 where there is none.
fn adjoining_lines(rest: &[u8]) -> Result<Vec<Line<'_>>, u8> {
    let mut lines = lines(rest);
    let first = match lines.next() {
        Some(Some(line)) => line,
        Some(None) => return Err(number::CSV_QUOTING),
        None => return Err(number::NO_SUCH_ORDINAL),
    };
    let number = rows::number(&first);
    let mut adjoining = vec![first];
    adjoining.extend(
        lines
            .map_while(|line| line)
            .take_while(|line| rows::number(line) == number),
    );
    Ok(adjoining)
}

/// 52, then 53, then the sheet's own.
fn sheet_of_lines(lines: &[Line], given: &Given, room: usize) -> Result<Vec<u8>, Refusal> {
    let texts = converted(lines).map_err(|_| Refusal::of_whole(number::CSV_BYTES))?;
    let rows = rows(lines, &texts);
    if rows.iter().any(|row| row.header != rows[0].header) {
        return Err(Refusal::of_whole(number::CSV_HEADER_DIFFERS));
    }
    good_sheet(&rows, given, room)
}

/// The sheet of these rows, judged as any sheet is (01.16).
fn good_sheet(rows: &[Row], given: &Given, room: usize) -> Result<Vec<u8>, Refusal> {
    let sheet = sheet(rows, given);
    judge_sheet(&sheet)?;
    within_room(sheet, room)
}

/// A row whose specimen keys equal the row before's joins its specimen, and one whose order keys do
/// too joins its order; equal order keys below another specimen start an order (01.22).
fn sheet(rows: &[Row], given: &Given) -> Vec<u8> {
    let mut sheet = rows::opening(given);
    let mut before: Option<&Row> = None;
    for row in rows {
        let joins_specimen = before.is_some_and(|before| before.specimen == row.specimen);
        let joins_order = joins_specimen && before.is_some_and(|before| before.order == row.order);
        if before.is_none() {
            sheet.extend(&row.header);
        }
        if !joins_specimen {
            sheet.extend(&row.specimen);
        }
        if !joins_order {
            sheet.extend(&row.order);
        }
        sheet.extend(&row.result);
        before = Some(row);
    }
    sheet
}

#[cfg(test)]
mod tests {
    use super::*;

    #[test]
    fn the_column_count_is_digits_that_mean_seven_or_more() {
        for (item, count) in [("7", 7), ("45", 45), ("0000000000000000000000045", 45)] {
            assert_eq!(column_count(item.as_bytes()), Some(count));
        }
        for item in [
            "", "0", "6", "+45", "-45", " 45", "45 ", "45.", "4e1", "\"\"",
        ] {
            assert_eq!(column_count(item.as_bytes()), None, "{item}");
        }
    }

    #[test]
    fn a_column_count_does_not_wrap() {
        for item in ["18446744073709551623", "99999999999999999999999999999999"] {
            assert_eq!(column_count(item.as_bytes()), Some(usize::MAX));
        }
    }
}
