//! Segments: their form, their names and their order (refusals 13, 14 and 15).

use crate::delimiters::HEADER_LENGTH;
use crate::refusal::{number, Refusal};
use std::ops::Range;

/// The byte that ends a segment.
pub const SEGMENT_END: u8 = 0x0D;
/// The most segments of a message, all names counted.
pub const SEGMENTS_LIMIT: usize = 512;
/// The most bytes of a segment, its 0D not counted.
pub const SEGMENT_LIMIT: usize = 4_096;

const NAME_LENGTH: usize = 3;

/// The names that the profile knows. Segments of any other name are skipped.
#[derive(Clone, Copy, Debug, PartialEq, Eq, PartialOrd, Ord)]
pub enum SegmentName {
    Msh,
    Pid,
    Pv1,
    Spm,
    Obr,
    Orc,
    Obx,
}

impl SegmentName {
    /// Every known name, in the order of the segments.
    pub const ALL: [Self; 7] = [
        Self::Msh,
        Self::Pid,
        Self::Pv1,
        Self::Spm,
        Self::Obr,
        Self::Orc,
        Self::Obx,
    ];

    pub const fn text(self) -> &'static str {
        match self {
            Self::Msh => "MSH",
            Self::Pid => "PID",
            Self::Pv1 => "PV1",
            Self::Spm => "SPM",
            Self::Obr => "OBR",
            Self::Orc => "ORC",
            Self::Obx => "OBX",
        }
    }

    /// The known name that a segment begins with.
    pub fn of(segment: &[u8]) -> Option<Self> {
        match segment.get(..NAME_LENGTH)? {
            b"MSH" => Some(Self::Msh),
            b"PID" => Some(Self::Pid),
            b"PV1" => Some(Self::Pv1),
            b"SPM" => Some(Self::Spm),
            b"OBR" => Some(Self::Obr),
            b"ORC" => Some(Self::Orc),
            b"OBX" => Some(Self::Obx),
            _ => None,
        }
    }

    /// MSH PID PV1, then one or more specimens: SPM and one or more orders: OBR ORC and one or
    /// more OBX.
    fn may_follow(self, last: Option<Self>) -> bool {
        use SegmentName::*;
        match last {
            None => self == Msh,
            Some(Msh) => self == Pid,
            Some(Pid) => self == Pv1,
            Some(Pv1) => self == Spm,
            Some(Spm) => self == Obr,
            Some(Obr) => self == Orc,
            Some(Orc) => self == Obx,
            Some(Obx) => matches!(self, Obx | Obr | Spm),
        }
    }
}

/// A known segment of a message that keeps the rules of form and order.
#[derive(Clone, Debug)]
pub struct KnownSegment {
    pub name: SegmentName,
    /// Counts known segments only, from 1.
    pub ordinal: usize,
    /// The number of the first field in `fields`: MSH-1 and MSH-2 are the delimiters, so the
    /// fields behind the header of MSH count from 3.
    pub first_field: usize,
    /// Where the fields lie in the message, up to the 0D.
    pub fields: Range<usize>,
}

impl KnownSegment {
    fn new(name: SegmentName, ordinal: usize, whole: Range<usize>) -> Self {
        let (first_field, before) = match name {
            SegmentName::Msh => (3, HEADER_LENGTH),
            _ => (1, NAME_LENGTH + 1),
        };
        let start = whole.end.min(whole.start + before);
        Self {
            name,
            ordinal,
            first_field,
            fields: start..whole.end,
        }
    }
}

/// The known segments of a message that passed [`judge_segments`].
pub fn known_segments(m: &[u8]) -> impl Iterator<Item = KnownSegment> + '_ {
    let mut ordinal = 0;
    segments(m).filter_map(move |segment| {
        let name = SegmentName::of(&m[segment.clone()])?;
        ordinal += 1;
        Some(KnownSegment::new(name, ordinal, segment))
    })
}

/// Where the known segment with this ordinal lies in any bytes, without its 0D.
pub fn known_segment(m: &[u8], ordinal: usize) -> Option<Range<usize>> {
    segments(m)
        .filter(|segment| SegmentName::of(&m[segment.clone()]).is_some())
        .nth(ordinal.checked_sub(1)?)
}

/// Where the segments lie, each without its 0D.
///
/// Two-byte mode never holds 0D, so it is found raw once the byte and shift rule holds.
fn segments(m: &[u8]) -> impl Iterator<Item = Range<usize>> + '_ {
    let mut start = 0;
    std::iter::from_fn(move || {
        let length = m[start..].iter().position(|&byte| byte == SEGMENT_END)?;
        let segment = start..start + length;
        start = segment.end + 1;
        Some(segment)
    })
}

/// Judges form, count and order of the segments, each over the whole message before the next.
pub fn judge_segments(m: &[u8], field_separator: u8) -> Result<(), Refusal> {
    let bad_form = Refusal::of_whole(number::SEGMENT_FORM);
    if m.last() != Some(&SEGMENT_END) {
        return Err(bad_form);
    }
    let mut count = 0;
    let mut order = OrderOfSegments::default();
    for segment in segments(m) {
        let segment = &m[segment];
        if !has_good_form(segment, field_separator) {
            return Err(bad_form);
        }
        count += 1;
        if let Some(name) = SegmentName::of(segment) {
            order.next(name);
        }
    }
    if count > SEGMENTS_LIMIT {
        return Err(Refusal::of_whole(number::TOO_MANY_SEGMENTS));
    }
    order.verdict()
}

/// Where the first segment of bad form starts in any bytes; where each is good, the rest behind
/// the last 0D.
pub fn start_of_bad_segment(m: &[u8]) -> usize {
    let field_separator = m.get(NAME_LENGTH).copied().unwrap_or(0);
    let mut start = 0;
    for segment in segments(m) {
        if !has_good_form(&m[segment.clone()], field_separator) {
            break;
        }
        start = segment.end + 1;
    }
    start
}

fn has_good_form(segment: &[u8], field_separator: u8) -> bool {
    segment.len() <= SEGMENT_LIMIT && has_good_name(segment, field_separator)
}

/// A name is a capital and two capitals or digits, followed by the field separator or the end.
fn has_good_name(segment: &[u8], field_separator: u8) -> bool {
    let later = |byte: u8| byte.is_ascii_uppercase() || byte.is_ascii_digit();
    match *segment {
        [a, b, c, ref rest @ ..] => {
            a.is_ascii_uppercase()
                && later(b)
                && later(c)
                && rest.first().is_none_or(|&byte| byte == field_separator)
        }
        _ => false,
    }
}

/// Follows the known segments, and remembers the first one out of order.
#[derive(Default)]
struct OrderOfSegments {
    known: usize,
    last: Option<SegmentName>,
    first_out_of_order: Option<usize>,
}

impl OrderOfSegments {
    fn next(&mut self, name: SegmentName) {
        self.known += 1;
        if self.first_out_of_order.is_none() && !name.may_follow(self.last) {
            self.first_out_of_order = Some(self.known);
        }
        self.last = Some(name);
    }

    /// At an early end the refusal names the segment that is missing.
    fn verdict(&self) -> Result<(), Refusal> {
        let early_end = self.last != Some(SegmentName::Obx);
        let missing = early_end.then_some(self.known + 1);
        match self.first_out_of_order.or(missing) {
            Some(segment) => Err(Refusal::at_segment(number::SEGMENT_ORDER, segment)),
            None => Ok(()),
        }
    }
}
