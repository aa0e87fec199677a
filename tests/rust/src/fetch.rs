//! Fetch: where a part of an accepted message lies.

use crate::message_reader::Message;
use crate::parts::locate_part;
use crate::refusal::{number, Refusal};
use crate::segments::SegmentName;
use std::ops::Range;

const MSH_1: Range<usize> = 3..4;
const MSH_2: Range<usize> = 4..8;

/// The message, and where a part of it lies: the check's refusal first, then 31, then 30.
pub fn fetch(
    m: &[u8],
    ordinal: usize,
    field: usize,
    component: usize,
) -> Result<(Message<'_>, Range<usize>), Refusal> {
    let message = Message::well_formed(m)?;
    message.read(|_| ())?;
    if field == 0 || component == 0 {
        return Err(Refusal::of_whole(number::FIELD_OR_COMPONENT_ZERO));
    }
    match locate_component(&message, ordinal, field, component) {
        Some(stretch) => Ok((message, stretch)),
        None => Err(Refusal::of_whole(number::NO_SUCH_ORDINAL)),
    }
}

/// Where a component of a field's first repetition lies in the message; none if there is no
/// such ordinal. `field` and `component` count from 1.
///
/// What is absent is empty and lies at the end of what was searched: a missing field at the end
/// of its segment, a missing component at the end of its field's first repetition.
fn locate_component(
    message: &Message,
    ordinal: usize,
    field: usize,
    component: usize,
) -> Option<Range<usize>> {
    let (m, delimiters) = (message.bytes, message.delimiters);
    let segment = message
        .known_segments()
        .find(|segment| segment.ordinal == ordinal)?;
    match (segment.name, field) {
        (SegmentName::Msh, 1) => return Some(undivided(MSH_1, component)),
        (SegmentName::Msh, 2) => return Some(undivided(MSH_2, component)),
        _ => (),
    }
    let position = field - segment.first_field + 1;
    let field = locate_part(m, segment.fields, delimiters.field, position);
    let repetition = locate_part(m, field, delimiters.repetition, 1);
    Some(locate_part(m, repetition, delimiters.component, component))
}

/// MSH-1 and MSH-2 hold the delimiters themselves, so they are never split.
fn undivided(field: Range<usize>, component: usize) -> Range<usize> {
    match component {
        1 => field,
        _ => field.end..field.end,
    }
}
