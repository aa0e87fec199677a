//! The specimen result message OUL^R22 of HL7 v2.5, over a proved library: [`check`] a message,
//! [`fetch`] a part of it or its [`part_text`], turn it [`to_sheet`] and back [`to_message`]; and go
//! through the sheets of a commercial centre's CSV file by [`csv_count`] and [`csv_next`].
//!
//! Every call takes any bytes, ends, takes no memory and keeps no state. It gives what was asked
//! for, or the one [`Refusal`] that is met first; a refusal leaves a lent buffer as it was.
//!
//! ```
//! let message = include_bytes!("../../tests/outside/01-whole-case.msg");
//! let counts = oul::check(message)?;
//! assert_eq!((counts.specimens, counts.orders, counts.results), (1, 1, 2));
//! assert_eq!(oul::fetch(message, 2, 3, 1)?, b"P7"); // PID-3
//!
//! let mut sheet = [0; oul::SHEET_MAX];
//! let length = oul::to_sheet(message, &mut sheet)?;
//! let mut again = [0; oul::MESSAGE_MAX];
//! let length = oul::to_message(&sheet[..length], &mut again)?;
//! assert_eq!(again[..length], message[..]);
//! # Ok::<(), oul::Refusal>(())
//! ```

#![deny(unsafe_code)]
#![warn(missing_docs)]

mod csv;
mod face;
mod refusal;

pub use csv::{csv_count, csv_next, csv_sheet, csv_spot, Given, Next, Sheets};
pub use refusal::{number, Refusal};

use std::ops::Range;

/// The most bytes of a message: a buffer that holds any.
pub const MESSAGE_MAX: usize = 32_768;
/// The most bytes of a sheet: a buffer that holds any.
pub const SHEET_MAX: usize = 65_536;

/// What an accepted message holds.
#[derive(Clone, Copy, Debug, PartialEq, Eq, Hash)]
pub struct Counts {
    /// How many SPM there are.
    pub specimens: usize,
    /// How many OBR there are.
    pub orders: usize,
    /// How many OBX there are.
    pub results: usize,
}

/// A place in a text. Both count from 1; a message's segments are its lines, of all names.
#[derive(Clone, Copy, Debug, PartialEq, Eq, Hash)]
pub struct Spot {
    /// The line.
    pub line: usize,
    /// The byte, counted from the start of the text.
    pub byte: usize,
}

/// Checks a message. Refusals 10 to 27.
///
/// ```
/// let refusal = oul::check(b"").unwrap_err();
/// assert_eq!(refusal.number, oul::number::HEADER);
/// ```
pub fn check(message: &[u8]) -> Result<Counts, Refusal> {
    let [specimens, orders, results] = accepted(face::check(message))?;
    Ok(Counts {
        specimens,
        orders,
        results,
    })
}

/// Finds a component of a field of the known segment with this ordinal; all three count from 1.
///
/// The part is still escaped and lies in the first repetition; an absent one is empty. The
/// check's refusals first, then 31, then 30.
pub fn locate(
    message: &[u8],
    ordinal: usize,
    field: usize,
    component: usize,
) -> Result<Range<usize>, Refusal> {
    accepted(face::locate(message, ordinal, field, component)).map(stretch)
}

/// The bytes that [`locate`] finds.
///
/// ```
/// let message = include_bytes!("../../tests/outside/01-whole-case.msg");
/// assert_eq!(oul::fetch(message, 8, 3, 2)?, b"GPT"); // OBX-3, component 2
/// let refusal = oul::fetch(message, 9, 3, 2).unwrap_err();
/// assert_eq!(refusal.number, oul::number::NO_ORDINAL);
/// # Ok::<(), oul::Refusal>(())
/// ```
pub fn fetch(
    message: &[u8],
    ordinal: usize,
    field: usize,
    component: usize,
) -> Result<&[u8], Refusal> {
    locate(message, ordinal, field, component).map(|part| &message[part])
}

/// Writes the text of the part that [`locate`] finds, without its escapes, over the front of `out`,
/// and gives its length; the bytes past it stay. 4,096 bytes hold any text.
///
/// The refusals of [`locate`] first; then 23 with the segment and the field, where the part has a
/// bare subcomponent separator or a bad escape, as a part that the check does not read may and
/// MSH-2 always does; then 45 where `out` is too short.
///
/// ```
/// let message = include_str!("../../tests/outside/01-whole-case.msg").replace("|P7|", r"|P\F\7|");
/// let mut out = [b'.'; 5];
/// assert_eq!(oul::part_text(message.as_bytes(), 2, 3, 1, &mut out)?, 3);
/// assert_eq!(out, *b"P|7..");
/// let refusal = oul::part_text(message.as_bytes(), 1, 2, 1, &mut out).unwrap_err();
/// assert_eq!(refusal.to_string(), "refused with 23, segment 1, field 2");
/// # Ok::<(), oul::Refusal>(())
/// ```
pub fn part_text(
    message: &[u8],
    ordinal: usize,
    field: usize,
    component: usize,
    out: &mut [u8],
) -> Result<usize, Refusal> {
    let answer = face::part_text(message, ordinal, field, component, out);
    accepted(answer).map(|[length, ..]| length)
}

/// Writes the sheet of a message over the front of `out`, and gives its length; the bytes past it
/// stay. The check's refusals first, then 45 where `out` is too short.
pub fn to_sheet(message: &[u8], out: &mut [u8]) -> Result<usize, Refusal> {
    accepted(face::to_sheet(message, out)).map(|[length, ..]| length)
}

/// Writes the message of a sheet over the front of `out`, and gives its length; the bytes past it
/// stay. Refusals 40 to 45.
///
/// ```
/// let mut out = [7; 3];
/// let refusal = oul::to_message(b"version=2\n", &mut out).unwrap_err();
/// assert_eq!(refusal.to_string(), "refused with 43, line 1");
/// assert_eq!(out, [7; 3]);
/// ```
pub fn to_message(sheet: &[u8], out: &mut [u8]) -> Result<usize, Refusal> {
    accepted(face::to_message(sheet, out)).map(|[length, ..]| length)
}

/// Finds the known segment with this ordinal, which counts from 1, in any bytes, checked or not,
/// without its 0D. Its name is its first three bytes. None where there is no such segment.
///
/// ```
/// let message = b"MSH|1\rZZZ|2\rPID|3\r";
/// assert_eq!(oul::segment(message, 2), Some(12..17));
/// assert_eq!(oul::segment(message, 3), None);
/// ```
pub fn segment(message: &[u8], ordinal: usize) -> Option<Range<usize>> {
    accepted(face::segment(message, ordinal)).ok().map(stretch)
}

/// Tells where a text breaks the rule of the refusal 12, 13 or 41 that it was given. None for any
/// other number, and for a text of more than [`SHEET_MAX`] bytes.
///
/// ```
/// let message = b"MSH|^~\\&|\rPID|\x80\r";
/// let refusal = oul::check(message).unwrap_err();
/// let spot = oul::spot(message, refusal.number);
/// assert_eq!(spot, Some(oul::Spot { line: 2, byte: 15 }));
/// ```
pub fn spot(text: &[u8], number: u8) -> Option<Spot> {
    match face::spot(text, number.into()) {
        (_, [0, ..]) => None,
        (_, [line, byte, _]) => Some(Spot { line, byte }),
    }
}

/// What was told, or the refusal; no number of a refusal is above 54.
fn accepted((answer, told): face::Answer) -> Result<[usize; 3], Refusal> {
    match answer {
        0 => Ok(told),
        number => Err(Refusal {
            number: number as u8,
            place: told[0],
            field: told[1],
        }),
    }
}

fn stretch([start, length, _]: [usize; 3]) -> Range<usize> {
    start..start + length
}
