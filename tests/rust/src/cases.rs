//! Cases: a call with its input, and the answer to it, one case a line.
//!
//! A line holds, separated by tabs, the call (`check`, `fetch`, `part_text`, `to_sheet`,
//! `to_message`, `segment`, `spot`, `csv_count`, `csv_sheet`, `csv_next`, `csv_spot`), the input in
//! hex, further arguments (fetch: ordinal, field, component; part_text: the same and the room of
//! the lent buffer; to_sheet and to_message: the room; segment: ordinal; spot: the refusal's number;
//! csv_sheet: which sheet, csv_next: the place, and both then mode, sent and control in hex and the
//! room) and the answer:
//!
//! * `ok SPM OBR OBX` from check,
//! * `ok START LENGTH` from segment,
//! * `ok LINE BYTE` from spot, `ok 0 0` where there is no place,
//! * `ok SHEETS FIRST-ROW` from csv_count,
//! * `ok LINE` from csv_spot, `ok 0` where nothing is refused,
//! * `ok HEX` from the others, or `ok` alone where there is no byte,
//! * `refused NUMBER SEGMENT-OR-LINE FIELD` from any of them but the spots,
//! * either of these and `behind PLACE` from csv_next.

use crate::{
    check, csv_count, csv_next, csv_sheet, csv_spot, locate, part_text, segment, spot, to_message,
    to_sheet, Counts, Given, Next, Refusal, Sheets, Spot,
};
use std::fmt;
use std::ops::Range;

/// A part of a message: a component of a field of a known segment.
#[derive(Clone, Copy, Debug, PartialEq, Eq)]
pub struct Part {
    pub ordinal: usize,
    pub field: usize,
    pub component: usize,
}

impl Part {
    /// Where it lies.
    pub fn locate(&self, m: &[u8]) -> Result<Range<usize>, Refusal> {
        locate(m, self.ordinal, self.field, self.component)
    }

    /// What it says.
    pub fn text(&self, m: &[u8], room: usize) -> Result<Vec<u8>, Refusal> {
        part_text(m, self.ordinal, self.field, self.component, room)
    }
}

#[derive(Clone, Debug, PartialEq, Eq)]
pub enum Call {
    Check,
    Fetch(Part),
    PartText {
        part: Part,
        room: usize,
    },
    ToSheet {
        room: usize,
    },
    ToMessage {
        room: usize,
    },
    Segment {
        ordinal: usize,
    },
    Spot {
        refusal: usize,
    },
    CsvCount,
    CsvSheet {
        which: usize,
        given: Given,
        room: usize,
    },
    CsvNext {
        at: usize,
        given: Given,
        room: usize,
    },
    CsvSpot,
}

impl Call {
    /// What the call is named in a list.
    pub fn name(&self) -> &'static str {
        match self {
            Self::Check => "check",
            Self::Fetch(_) => "fetch",
            Self::PartText { .. } => "part_text",
            Self::ToSheet { .. } => "to_sheet",
            Self::ToMessage { .. } => "to_message",
            Self::Segment { .. } => "segment",
            Self::Spot { .. } => "spot",
            Self::CsvCount => "csv_count",
            Self::CsvSheet { .. } => "csv_sheet",
            Self::CsvNext { .. } => "csv_next",
            Self::CsvSpot => "csv_spot",
        }
    }

    /// The room of the lent buffer, for a call that writes.
    pub fn room(&self) -> Option<usize> {
        match *self {
            Self::PartText { room, .. }
            | Self::ToSheet { room }
            | Self::ToMessage { room }
            | Self::CsvSheet { room, .. }
            | Self::CsvNext { room, .. } => Some(room),
            _ => None,
        }
    }
}

#[derive(Clone, Debug, PartialEq, Eq)]
pub struct Case {
    pub call: Call,
    pub input: Vec<u8>,
}

#[derive(Clone, Debug, PartialEq, Eq)]
pub enum Answer {
    Counts(Counts),
    Bytes(Vec<u8>),
    Stretch(Range<usize>),
    Spot(Option<Spot>),
    Sheets(Sheets),
    Next(Next),
    Line(usize),
    Refused(Refusal),
}

impl Answer {
    /// Why the input was refused, where it was.
    pub fn refusal(&self) -> Option<Refusal> {
        match self {
            Self::Refused(refusal) => Some(*refusal),
            Self::Next(next) => next.sheet.as_ref().err().copied(),
            _ => None,
        }
    }
}

impl Case {
    /// What this library answers.
    pub fn answer(&self) -> Answer {
        let input = self.input.as_slice();
        let answer = match &self.call {
            Call::Check => check(input).map(Answer::Counts),
            Call::Fetch(part) => part
                .locate(input)
                .map(|stretch| Answer::Bytes(input[stretch].to_vec())),
            Call::PartText { part, room } => part.text(input, *room).map(Answer::Bytes),
            Call::ToSheet { room } => to_sheet(input, *room).map(Answer::Bytes),
            Call::ToMessage { room } => to_message(input, *room).map(Answer::Bytes),
            Call::Segment { ordinal } => segment(input, *ordinal).map(Answer::Stretch),
            Call::Spot { refusal } => Ok(Answer::Spot(spot(input, *refusal))),
            Call::CsvCount => csv_count(input).map(Answer::Sheets),
            Call::CsvSheet { which, given, room } => {
                csv_sheet(input, *which, given, *room).map(Answer::Bytes)
            }
            Call::CsvNext { at, given, room } => {
                Ok(Answer::Next(csv_next(input, *at, given, *room)))
            }
            Call::CsvSpot => Ok(Answer::Line(csv_spot(input))),
        };
        answer.unwrap_or_else(Answer::Refused)
    }

    /// Reads a line; gives the case and the answer that stands there.
    pub fn parse(line: &str) -> Result<(Self, &str), String> {
        let columns: Vec<&str> = line.split('\t').collect();
        let (call, input, answer) = match columns[..] {
            ["check", input, answer] => (Call::Check, input, answer),
            ["fetch", input, ordinal, field, component, answer] => {
                let part = parse_part([ordinal, field, component])?;
                (Call::Fetch(part), input, answer)
            }
            ["part_text", input, ordinal, field, component, room, answer] => {
                let part = parse_part([ordinal, field, component])?;
                let room = parse_count(room)?;
                (Call::PartText { part, room }, input, answer)
            }
            ["to_sheet", input, room, answer] => {
                let room = parse_count(room)?;
                (Call::ToSheet { room }, input, answer)
            }
            ["to_message", input, room, answer] => {
                let room = parse_count(room)?;
                (Call::ToMessage { room }, input, answer)
            }
            ["segment", input, ordinal, answer] => {
                let ordinal = parse_count(ordinal)?;
                (Call::Segment { ordinal }, input, answer)
            }
            ["spot", input, refusal, answer] => {
                let refusal = parse_count(refusal)?;
                (Call::Spot { refusal }, input, answer)
            }
            ["csv_count", input, answer] => (Call::CsvCount, input, answer),
            ["csv_sheet", input, which, mode, sent, control, room, answer] => {
                let call = Call::CsvSheet {
                    which: parse_count(which)?,
                    given: parse_given([mode, sent, control])?,
                    room: parse_count(room)?,
                };
                (call, input, answer)
            }
            ["csv_next", input, at, mode, sent, control, room, answer] => {
                let call = Call::CsvNext {
                    at: parse_count(at)?,
                    given: parse_given([mode, sent, control])?,
                    room: parse_count(room)?,
                };
                (call, input, answer)
            }
            ["csv_spot", input, answer] => (Call::CsvSpot, input, answer),
            _ => return Err(format!("no case: {} columns", columns.len())),
        };
        let input = parse_hex(input)?;
        Ok((Self { call, input }, answer.trim_end()))
    }
}

fn parse_part([ordinal, field, component]: [&str; 3]) -> Result<Part, String> {
    Ok(Part {
        ordinal: parse_count(ordinal)?,
        field: parse_count(field)?,
        component: parse_count(component)?,
    })
}

fn parse_given(texts: [&str; 3]) -> Result<Given, String> {
    let [mode, sent, control] = texts.map(parse_hex);
    Ok(Given {
        mode: mode?,
        sent: sent?,
        control: control?,
    })
}

fn parse_count(text: &str) -> Result<usize, String> {
    text.parse().map_err(|_| format!("no count: {text}"))
}

/// Bytes in hex. In the lists of the requests no bytes at all are `-`, and a long text is in pieces
/// joined by `+`, of which `*N` repeats one N times.
pub fn parse_hex(text: &str) -> Result<Vec<u8>, String> {
    let mut bytes = Vec::new();
    for piece in text.split('+').filter(|piece| *piece != "-") {
        let (piece, times) = piece.split_once('*').unwrap_or((piece, "1"));
        bytes.extend(parse_piece(piece)?.repeat(parse_count(times)?));
    }
    Ok(bytes)
}

fn parse_piece(text: &str) -> Result<Vec<u8>, String> {
    let digit = |byte: u8| char::from(byte).to_digit(16);
    let byte = |pair: &[u8]| match *pair {
        [high, low] => Some((digit(high)? * 16 + digit(low)?) as u8),
        _ => None,
    };
    let bytes: Option<Vec<u8>> = text.as_bytes().chunks(2).map(byte).collect();
    bytes.ok_or_else(|| "no hex input".to_string())
}

/// A case as it stands in a line, the answer left out.
impl fmt::Display for Case {
    fn fmt(&self, out: &mut fmt::Formatter<'_>) -> fmt::Result {
        write!(out, "{}\t{}", self.call.name(), Hex(&self.input))?;
        match &self.call {
            Call::Check | Call::CsvCount | Call::CsvSpot => Ok(()),
            Call::Fetch(part) => write!(out, "\t{part}"),
            Call::PartText { part, room } => write!(out, "\t{part}\t{room}"),
            Call::ToSheet { room } | Call::ToMessage { room } => write!(out, "\t{room}"),
            Call::Segment { ordinal } => write!(out, "\t{ordinal}"),
            Call::Spot { refusal } => write!(out, "\t{refusal}"),
            Call::CsvSheet {
                which: number,
                given,
                room,
            }
            | Call::CsvNext {
                at: number,
                given,
                room,
            } => {
                let [mode, sent, control] =
                    [&given.mode, &given.sent, &given.control].map(|t| Hex(t));
                write!(out, "\t{number}\t{mode}\t{sent}\t{control}\t{room}")
            }
        }
    }
}

impl fmt::Display for Part {
    fn fmt(&self, out: &mut fmt::Formatter<'_>) -> fmt::Result {
        write!(out, "{}\t{}\t{}", self.ordinal, self.field, self.component)
    }
}

impl fmt::Display for Answer {
    fn fmt(&self, out: &mut fmt::Formatter<'_>) -> fmt::Result {
        match self {
            Self::Counts(counts) => write!(
                out,
                "ok {} {} {}",
                counts.specimens, counts.orders, counts.results
            ),
            Self::Bytes(bytes) if bytes.is_empty() => out.write_str("ok"),
            Self::Bytes(bytes) => write!(out, "ok {}", Hex(bytes)),
            Self::Stretch(stretch) => write!(out, "ok {} {}", stretch.start, stretch.len()),
            Self::Spot(Some(spot)) => write!(out, "ok {} {}", spot.line, spot.byte),
            Self::Spot(None) => out.write_str("ok 0 0"),
            Self::Sheets(sheets) => write!(out, "ok {} {}", sheets.count, sheets.first_row),
            Self::Next(next) => {
                match &next.sheet {
                    Ok(sheet) => write!(out, "ok {}", Hex(sheet))?,
                    Err(refusal) => refusal.fmt(out)?,
                }
                write!(out, " behind {}", next.behind)
            }
            Self::Line(line) => write!(out, "ok {line}"),
            Self::Refused(refusal) => refusal.fmt(out),
        }
    }
}

struct Hex<'a>(&'a [u8]);

impl fmt::Display for Hex<'_> {
    fn fmt(&self, out: &mut fmt::Formatter<'_>) -> fmt::Result {
        self.0.iter().try_for_each(|byte| write!(out, "{byte:02x}"))
    }
}

#[cfg(test)]
mod tests {
    use super::*;

    #[test]
    fn a_line_is_read_as_it_is_written() {
        for line in [
            "check\t\trefused 11 0 0",
            "check\t4d5348\trefused 11 0 0",
            "fetch\t4d53\t1\t2\t3\trefused 11 0 0",
            "part_text\t4d53\t1\t2\t3\t9\trefused 11 0 0",
            "to_sheet\t0d\t65536\trefused 11 0 0",
            "to_message\t\t0\trefused 42 1 0",
            "segment\t0d50494441420d\t1\tok 1 5",
            "segment\t504944\t1\trefused 30 0 0",
            "spot\t610d80\t12\tok 2 3",
            "spot\t610d80\t20\tok 0 0",
            "csv_count\t\trefused 51 0 0",
            "csv_count\t22222c2237220d0a2222\tok 0 10",
            "csv_sheet\t22222c2237220d0a2222\t1\t\t\t\t0\trefused 30 0 0",
            "csv_next\t22222c2237220d0a2222\t0\t54\t\t4b\t9\trefused 43 3 0 behind 10",
            "csv_next\t0d0a\t2\t\t\t\t9\trefused 30 0 0 behind 2",
            "csv_spot\t22222c2237220d0a0d0a\tok 2",
        ] {
            let (case, answer) = Case::parse(line).unwrap();
            assert_eq!(case.answer().to_string(), answer);
            assert_eq!(format!("{case}\t{answer}"), line);
        }
    }

    #[test]
    fn a_long_text_is_in_pieces() {
        for (text, bytes) in [("", ""), ("-", ""), ("41", "A"), ("0d*3+41", "\r\r\rA")] {
            assert_eq!(parse_hex(text), Ok(bytes.into()));
        }
    }

    #[test]
    fn a_bad_line_is_not_read() {
        for line in [
            "",
            "check\t4d5\tok",
            "check\tzz\tok",
            "fetch\t\t1\t-1\t1\tok",
            "part_text\t\t1\t1\t1\tok",
            "look\t\tok",
            "csv_sheet\t\t1\t\t\t\tok",
            "csv_next\t\t1\t5\t\t\t0\tok",
        ] {
            assert!(Case::parse(line).is_err(), "{line}");
        }
    }
}
