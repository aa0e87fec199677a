//! The commercial centre's CSV file: all rows with one result number make a sheet.

use crate::{accepted, face, Refusal};

/// The values of the sheet's keys that no column of a file has.
#[derive(Clone, Copy, Debug, Default, PartialEq, Eq, Hash)]
pub struct Given<'a> {
    /// `mode=`, such as `P`.
    pub mode: &'a [u8],
    /// `sent=`, such as `20240401093000`.
    pub sent: &'a [u8],
    /// `control=`: another one for each sheet.
    pub control: &'a [u8],
}

/// What a file holds that keeps every rule of a file.
#[derive(Clone, Copy, Debug, PartialEq, Eq, Hash)]
pub struct Sheets {
    /// How many sheets there are.
    pub count: usize,
    /// Where the first row starts, counted from 0; the file's length where there is none.
    pub first_row: usize,
}

/// What [`csv_next`] found at a place of a file.
#[derive(Clone, Copy, Debug, PartialEq, Eq, Hash)]
pub struct Next {
    /// The length of the sheet, or why there is none.
    pub sheet: Result<usize, Refusal>,
    /// The place behind its rows, where the next sheet starts; the file's length where there are
    /// no rows.
    pub behind: usize,
}

/// Counts the sheets of a file. Refusals 50 to 54, which name no place; [`csv_spot`] tells the
/// line.
///
/// ```
/// let file = b"\"1.00\",\"45\",\"20140318\"\r\n\"heading\"\r\n";
/// assert_eq!(oul::csv_count(file)?, oul::Sheets { count: 0, first_row: 35 });
/// # Ok::<(), oul::Refusal>(())
/// ```
pub fn csv_count(file: &[u8]) -> Result<Sheets, Refusal> {
    let [count, first_row, _] = accepted(face::csv_count(file))?;
    Ok(Sheets { count, first_row })
}

/// Writes one sheet of a file, counted from 1, over the front of `out`, and gives its length; the
/// bytes past it stay. Refusals 50 to 54, then 30 where there is no such sheet, then 40 to 43 with
/// the line of the sheet, then 45 where `out` is too short.
pub fn csv_sheet(
    file: &[u8],
    which: usize,
    given: Given<'_>,
    out: &mut [u8],
) -> Result<usize, Refusal> {
    accepted(face::csv_sheet(file, which, given, out)).map(|[length, ..]| length)
}

/// Writes the sheet whose rows start at a place of a file in the same way, and tells the place
/// behind them. It takes any place of any bytes.
///
/// Refusals 50 where the line at the place is badly quoted, 30 where there is none; 52 and 53 of
/// these rows; then 40 to 43 and 45.
///
/// A file in one go, each sheet as its message:
///
/// ```
/// let file = include_bytes!("../../tests/outside/004-csv-v4-full-width.csv");
/// let (mut sheet, mut message) = ([0; oul::SHEET_MAX], [0; oul::MESSAGE_MAX]);
/// let sheets = oul::csv_count(file)?;
/// let mut at = sheets.first_row;
/// for number in 1..=sheets.count {
///     let control = format!("K{number}");
///     let given = oul::Given { mode: b"P", sent: b"20140215162345", control: control.as_bytes() };
///     let next = oul::csv_next(file, at, given, &mut sheet);
///     let length = oul::to_message(&sheet[..next.sheet?], &mut message)?;
///     assert_eq!(oul::check(&message[..length])?.results, 3);
///     at = next.behind;
/// }
/// assert_eq!(at, file.len());
/// # Ok::<(), oul::Refusal>(())
/// ```
pub fn csv_next(file: &[u8], at: usize, given: Given<'_>, out: &mut [u8]) -> Next {
    let (answer, told) = face::csv_next(file, at, given, out);
    Next {
        sheet: accepted((answer, told)).map(|[length, ..]| length),
        behind: told[2],
    }
}

/// Tells in which line, counted from 1, a file is refused by 50 to 54. None where it isn't.
///
/// ```
/// let file = b"\"1.00\",\"45\",\"20140318\"\r\n\"heading\"\n";
/// assert_eq!(oul::csv_count(file).unwrap_err().number, oul::number::QUOTING);
/// assert_eq!(oul::csv_spot(file), Some(2));
/// ```
pub fn csv_spot(file: &[u8]) -> Option<usize> {
    match face::csv_spot(file) {
        (_, [0, ..]) => None,
        (_, [line, ..]) => Some(line),
    }
}
