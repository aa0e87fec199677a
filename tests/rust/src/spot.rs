//! The place at which a text breaks the rule of refusal 12, 13 or 41. Document 01 names none for
//! these; the line and the byte are what a person looks for.

use crate::refusal::number;
use crate::segments::{start_of_bad_segment, SEGMENT_END};
use crate::shift::kept_bytes;
use crate::SHEET_LIMIT;

/// The byte that ends a line of a sheet.
const LINE_END: u8 = 0x0A;

/// A place in a text. Both count from 1; a line of a message is a segment of any name.
#[derive(Clone, Copy, Debug, PartialEq, Eq)]
pub struct Spot {
    pub line: usize,
    pub byte: usize,
}

/// Where `text` breaks the rule of the refusal with this number: none for another number, and for
/// a text that is too long to be either message or sheet.
pub fn spot(text: &[u8], refusal: usize) -> Option<Spot> {
    if text.len() > SHEET_LIMIT {
        return None;
    }
    match u8::try_from(refusal).ok()? {
        number::MESSAGE_BYTES => Some(place(text, kept_bytes(text, SEGMENT_END), SEGMENT_END)),
        number::SEGMENT_FORM => Some(place(text, start_of_bad_segment(text), SEGMENT_END)),
        number::SHEET_BYTES => Some(place(text, kept_bytes(text, LINE_END), LINE_END)),
        _ => None,
    }
}

fn place(text: &[u8], before: usize, line_end: u8) -> Spot {
    let lines = text[..before].iter().filter(|&&byte| byte == line_end);
    Spot {
        line: lines.count() + 1,
        byte: before + 1,
    }
}
