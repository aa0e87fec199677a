//! Why an input is refused, and where.

use std::error::Error;
use std::fmt;

/// The one refusal that is met first.
#[derive(Clone, Copy, Debug, PartialEq, Eq, Hash)]
pub struct Refusal {
    /// One of [`number`]; `docs/USER.md` says what to do about each.
    pub number: u8,
    /// The known segment, counted from 1, or the line of a sheet; 0 where none is named.
    pub place: usize,
    /// 0 where none is named.
    pub field: usize,
}

impl Refusal {
    /// Whether a sheet was refused, so that the place is a line.
    fn is_of_a_sheet(&self) -> bool {
        (number::SHEET_TOO_LONG..=number::OVERFLOW).contains(&self.number)
    }
}

/// ```
/// let refusal = oul::Refusal { number: oul::number::VALUE, place: 2, field: 8 };
/// assert_eq!(refusal.to_string(), "refused with 25, segment 2, field 8");
/// ```
impl fmt::Display for Refusal {
    fn fmt(&self, out: &mut fmt::Formatter<'_>) -> fmt::Result {
        write!(out, "refused with {}", self.number)?;
        match self.place {
            0 => (),
            line if self.is_of_a_sheet() => write!(out, ", line {line}")?,
            segment => write!(out, ", segment {segment}")?,
        }
        match self.field {
            0 => Ok(()),
            field => write!(out, ", field {field}"),
        }
    }
}

impl Error for Refusal {}

/// The numbers by name, as in `include/oul.h`.
pub mod number {
    /// The message is longer than [`MESSAGE_MAX`](crate::MESSAGE_MAX).
    pub const TOO_LONG: u8 = 10;
    /// The first nine bytes are no header; an empty message.
    pub const HEADER: u8 = 11;
    /// A byte or a shift; [`spot`](crate::spot) tells where.
    pub const BYTES: u8 = 12;
    /// No final 0D, a segment too long, or a bad name; [`spot`](crate::spot) tells where.
    pub const SEGMENT: u8 = 13;
    /// More than 512 segments.
    pub const TOO_MANY: u8 = 14;
    /// A segment out of order, or missing at the end.
    pub const ORDER: u8 = 15;
    /// Required, but empty.
    pub const MISSING: u8 = 20;
    /// Exactly `""`.
    pub const NULL: u8 = 21;
    /// A repetition where one value is read.
    pub const REPEATED: u8 = 22;
    /// A bare subcomponent separator, a bad escape, or a component too many.
    pub const ESCAPE: u8 = 23;
    /// A text or a number too long.
    pub const LONG: u8 = 24;
    /// Any other rule of a value.
    pub const VALUE: u8 = 25;
    /// The value against the status.
    pub const STATUS: u8 = 26;
    /// ORC-2 differs from OBR-2.
    pub const DIFFERS: u8 = 27;
    /// No known segment, or no sheet, has this ordinal.
    pub const NO_ORDINAL: u8 = 30;
    /// Field or component 0.
    pub const ZERO: u8 = 31;
    /// The sheet is longer than [`SHEET_MAX`](crate::SHEET_MAX).
    pub const SHEET_TOO_LONG: u8 = 40;
    /// A byte or a shift of a sheet, or no final 0A; [`spot`](crate::spot) tells where.
    pub const SHEET_BYTES: u8 = 41;
    /// A wrong or missing key.
    pub const KEY: u8 = 42;
    /// A line's value breaks its rule.
    pub const LINE_VALUE: u8 = 43;
    /// What [`LINE_VALUE`] was called up to version 1.2.
    pub const LINE: u8 = LINE_VALUE;
    /// The message would pass [`MESSAGE_MAX`](crate::MESSAGE_MAX) bytes or 512 segments.
    pub const OVERFLOW: u8 = 44;
    /// The lent buffer is too short.
    pub const ROOM: u8 = 45;
    /// An item of a file that is not quoted as it must be, or a line that does not end in CR LF;
    /// [`csv_spot`](crate::csv_spot) tells in which line, as for the four below.
    pub const QUOTING: u8 = 50;
    /// No version or heading line, a bad column count, or a row with another count.
    pub const COLUMNS: u8 = 51;
    /// A byte that can't be converted, as half-width kana.
    pub const UNCONVERTED: u8 = 52;
    /// A patient key or the class differs among the rows of one result number.
    pub const HEADER_DIFFERS: u8 = 53;
    /// A result number that comes back after another.
    pub const RETURNS: u8 = 54;
}
