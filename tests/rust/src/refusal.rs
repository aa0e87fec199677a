//! The refusal that a call gives in place of an answer.

use std::fmt;

/// Why a call refused its input, and where.
///
/// `place` is a segment for a message and a line for a sheet; `place` and `field` are 0 where the
/// papers name none.
#[derive(Clone, Copy, Debug, PartialEq, Eq, Hash)]
pub struct Refusal {
    pub number: u8,
    pub place: usize,
    pub field: usize,
}

impl Refusal {
    /// A refusal of the whole input: it names no place.
    pub const fn of_whole(number: u8) -> Self {
        Self::at_field(number, 0, 0)
    }

    /// Number 15 names a segment only.
    pub const fn at_segment(number: u8, segment: usize) -> Self {
        Self::at_field(number, segment, 0)
    }

    /// Numbers 20 to 27 name a segment and a field.
    pub const fn at_field(number: u8, segment: usize, field: usize) -> Self {
        Self {
            number,
            place: segment,
            field,
        }
    }

    /// A sheet's refusal carries the line in place of the segment.
    pub const fn at_line(number: u8, line: usize) -> Self {
        Self::at_field(number, line, 0)
    }
}

impl fmt::Display for Refusal {
    fn fmt(&self, out: &mut fmt::Formatter<'_>) -> fmt::Result {
        write!(out, "refused {} {} {}", self.number, self.place, self.field)
    }
}

impl std::error::Error for Refusal {}

/// The papers' numbers by name.
pub mod number {
    pub const MESSAGE_TOO_LONG: u8 = 10;
    pub const HEADER: u8 = 11;
    pub const MESSAGE_BYTES: u8 = 12;
    pub const SEGMENT_FORM: u8 = 13;
    pub const TOO_MANY_SEGMENTS: u8 = 14;
    pub const SEGMENT_ORDER: u8 = 15;

    pub const REQUIRED_EMPTY: u8 = 20;
    pub const DOUBLE_QUOTES: u8 = 21;
    pub const REPETITION: u8 = 22;
    pub const COMPONENT_FORM: u8 = 23;
    pub const VALUE_TOO_LONG: u8 = 24;
    pub const VALUE_RULE: u8 = 25;
    pub const VALUE_AGAINST_STATUS: u8 = 26;
    pub const ORDER_NUMBERS_DIFFER: u8 = 27;

    pub const NO_SUCH_ORDINAL: u8 = 30;
    pub const FIELD_OR_COMPONENT_ZERO: u8 = 31;

    pub const SHEET_TOO_LONG: u8 = 40;
    pub const SHEET_BYTES: u8 = 41;
    pub const SHEET_KEY: u8 = 42;
    pub const SHEET_VALUE: u8 = 43;
    pub const MESSAGE_WOULD_PASS_LIMITS: u8 = 44;
    pub const BUFFER_TOO_SHORT: u8 = 45;

    pub const CSV_QUOTING: u8 = 50;
    pub const CSV_COLUMNS: u8 = 51;
    pub const CSV_BYTES: u8 = 52;
    pub const CSV_HEADER_DIFFERS: u8 = 53;
    pub const CSV_NUMBER_RETURNS: u8 = 54;

    /// Every number there is, in rising order.
    pub const ALL: [u8; 27] = [
        10, 11, 12, 13, 14, 15, 20, 21, 22, 23, 24, 25, 26, 27, 30, 31, 40, 41, 42, 43, 44, 45, 50,
        51, 52, 53, 54,
    ];
}
