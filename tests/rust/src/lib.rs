//! An independent reading of documents 01 and 02 in plain Rust: the laboratory result message
//! OUL^R22 of HL7 v2.5, the sheet that says the same line by line, and the commercial centre's
//! result file.
//!
//! It is written from the papers alone and shares no code with the proved library, so that each
//! can be held against the other. The papers have no word on [`part_text`], [`spot`], [`csv_next`]
//! and [`csv_spot`]: these are written from their declarations in `include/oul.h`. Eleven calls
//! cover the work:
//!
//! * [`check`] counts a message's specimens, orders and results, or refuses it;
//! * [`locate`] finds a part of an accepted message, and [`part_text`] gives its text;
//! * [`to_sheet`] writes an accepted message as a sheet;
//! * [`to_message`] writes an accepted sheet as a message;
//! * [`segment`] finds a known segment, and [`spot`] the place of a refusal that names none, both
//!   in any bytes;
//! * [`csv_count`] counts the sheets of a result file, or refuses it;
//! * [`csv_sheet`] writes one of them, and [`csv_next`] the one whose rows begin at a place;
//! * [`csv_spot`] finds the line at which a result file is refused.
//!
//! Beside them [`csv_sheets`] writes all sheets of a result file in one pass.
//!
//! Message and sheet meet in [`report`]: each has a reader that judges and tells entries of the
//! report one by one, and a writer that takes them.

#![forbid(unsafe_code)]

pub mod bridge;
pub mod cases;
mod csv;
pub mod delimiters;
mod fetch;
pub mod generate;
pub mod listed;
mod message_reader;
mod message_writer;
pub mod parts;
pub mod places;
pub mod refusal;
pub mod report;
pub mod rules;
mod segments;
mod sheet_reader;
mod sheet_writer;
pub mod shift;
mod spot;

use message_reader::Message;
use message_writer::MessageWriter;
use refusal::number;
use sheet_writer::SheetWriter;
use std::ops::Range;

pub use csv::{
    csv_count, csv_next, csv_sheet, csv_sheets, csv_spot, pair, unpaired, Given, Next, Sheet,
    Sheets,
};
pub use refusal::Refusal;
pub use report::Counts;
pub use segments::{SegmentName, SEGMENT_LIMIT};
pub use spot::{spot, Spot};

/// The most bytes of a message.
pub const MESSAGE_LIMIT: usize = 32_768;
/// The most bytes of a sheet.
pub const SHEET_LIMIT: usize = 65_536;

/// Counts the specimens, orders and results of a message that keeps every rule.
pub fn check(m: &[u8]) -> Result<Counts, Refusal> {
    Message::well_formed(m)?.read(|_| ())
}

/// Finds the stretch of an accepted message that holds a component of a field in a known
/// segment, still escaped, from the first repetition.
///
/// An absent part is empty: a missing field lies at the end of its segment, before the 0D; a
/// missing component lies at the end of its field's first repetition. MSH-1 is the separator
/// byte and MSH-2 the four bytes undivided; their further components are empty and lie right
/// behind them.
///
/// The check's refusal comes first, then 31 for a field or component 0, then 30 for an ordinal
/// that no known segment has.
pub fn locate(
    m: &[u8],
    ordinal: usize,
    field: usize,
    component: usize,
) -> Result<Range<usize>, Refusal> {
    let (_, stretch) = fetch::fetch(m, ordinal, field, component)?;
    Ok(stretch)
}

/// Writes the text of the part that [`locate`] finds, without its escapes, in at most `room` bytes.
///
/// The refusals of [`locate`] come first. Then 23 with the segment and the field, where the part
/// holds an unescaped subcomponent separator or a bad escape in one-byte mode: a part that isn't
/// read may, and MSH-2 always does. Then 45.
pub fn part_text(
    m: &[u8],
    ordinal: usize,
    field: usize,
    component: usize,
    room: usize,
) -> Result<Vec<u8>, Refusal> {
    let (message, stretch) = fetch::fetch(m, ordinal, field, component)?;
    match message.delimiters.plain(&m[stretch]) {
        Some(text) => within_room(text, room),
        None => Err(Refusal::at_field(number::COMPONENT_FORM, ordinal, field)),
    }
}

/// Writes an accepted message as a sheet of at most `room` bytes.
pub fn to_sheet(m: &[u8], room: usize) -> Result<Vec<u8>, Refusal> {
    let message = Message::well_formed(m)?;
    let mut writer = SheetWriter::new(message.delimiters);
    message.read(|entry| writer.write(entry))?;
    within_room(writer.into_sheet(), room)
}

/// Writes an accepted sheet as a message of at most `room` bytes.
pub fn to_message(sheet: &[u8], room: usize) -> Result<Vec<u8>, Refusal> {
    let mut writer = MessageWriter::default();
    sheet_reader::read_sheet(sheet, |entry| writer.write(entry))?;
    within_room(writer.into_message()?, room)
}

/// Finds the known segment with this ordinal in any bytes, without its 0D; refusal 30 where there
/// is none. What follows the last 0D is no segment.
pub fn segment(m: &[u8], ordinal: usize) -> Result<Range<usize>, Refusal> {
    segments::known_segment(m, ordinal).ok_or(Refusal::of_whole(number::NO_SUCH_ORDINAL))
}

/// Refusal 45 is given last.
fn within_room(output: Vec<u8>, room: usize) -> Result<Vec<u8>, Refusal> {
    if output.len() > room {
        return Err(Refusal::of_whole(number::BUFFER_TOO_SHORT));
    }
    Ok(output)
}
