//! How a case is put to the proved library, and what it must answer: `tests/c/answers.c` reads
//! cases and writes the answers that the library gives by its C face, both as bytes.

use crate::cases::{Call, Case};
use crate::{
    check, csv_count, csv_next, csv_sheet, csv_spot, segment, spot, to_message, to_sheet, Given,
    Refusal,
};
use std::fmt;
use std::io::{self, Read, Write};

/// So many bytes behind a lent buffer are shown, too.
const GUARD: usize = 16;

/// What a call returns and tells, as numbers, and what a lent buffer then holds.
///
/// The first number is 0 or the refusal's number, followed by what was asked for, or by the
/// refusal's place and field. The last one is the place behind for csv_next, refused or not.
#[derive(Clone, Debug, Default, PartialEq, Eq)]
pub struct Said {
    pub numbers: [u64; 4],
    pub buffer: Vec<u8>,
}

impl Said {
    /// What this library says. Its buffer held bytes before that the salt gives.
    pub fn by_us(case: &Case, salt: u8) -> Self {
        let input = case.input.as_slice();
        match &case.call {
            Call::Check => Self::numbers(
                check(input).map(|counts| [counts.specimens, counts.orders, counts.results]),
            ),
            Call::Fetch(part) => Self::numbers(
                part.locate(input)
                    .map(|stretch| [stretch.start, stretch.len(), 0]),
            ),
            &Call::PartText { part, room } => Self::written(part.text(input, room), room, salt),
            &Call::ToSheet { room } => Self::written(to_sheet(input, room), room, salt),
            &Call::ToMessage { room } => Self::written(to_message(input, room), room, salt),
            &Call::Segment { ordinal } => Self::numbers(
                segment(input, ordinal).map(|stretch| [stretch.start, stretch.len(), 0]),
            ),
            &Call::Spot { refusal } => Self::numbers(Ok(
                spot(input, refusal).map_or([0; 3], |spot| [spot.line, spot.byte, 0])
            )),
            Call::CsvCount => {
                Self::numbers(csv_count(input).map(|sheets| [sheets.count, sheets.first_row, 0]))
            }
            Call::CsvSheet { which, given, room } => {
                Self::written(csv_sheet(input, *which, given, *room), *room, salt)
            }
            Call::CsvNext { at, given, room } => {
                let next = csv_next(input, *at, given, *room);
                let mut said = Self::written(next.sheet, *room, salt);
                said.numbers[3] = next.behind as u64;
                said
            }
            Call::CsvSpot => Self::numbers(Ok([csv_spot(input), 0, 0])),
        }
    }

    fn numbers(answer: Result<[usize; 3], Refusal>) -> Self {
        let (number, told) = match answer {
            Ok(told) => (0, told),
            Err(refusal) => (refusal.number, [refusal.place, refusal.field, 0]),
        };
        let [one, two, three] = told.map(|n| n as u64);
        Self {
            numbers: [number.into(), one, two, three],
            buffer: Vec::new(),
        }
    }

    /// The text is written over the buffer's front; the bytes past it stay, and all do on a
    /// refusal.
    fn written(text: Result<Vec<u8>, Refusal>, room: usize, salt: u8) -> Self {
        let mut buffer = held_before(room + GUARD, salt);
        let length = text.map(|text| {
            buffer[..text.len()].copy_from_slice(&text);
            [text.len(), 0, 0]
        });
        Self {
            buffer,
            ..Self::numbers(length)
        }
    }

    /// What the other side wrote as its answer to this case.
    pub fn read(case: &Case, from: &mut impl Read) -> io::Result<Self> {
        let mut said = Self::default();
        for number in &mut said.numbers {
            let mut bytes = [0; 8];
            from.read_exact(&mut bytes)?;
            *number = u64::from_le_bytes(bytes);
        }
        if let Some(room) = case.call.room() {
            said.buffer = vec![0; room + GUARD];
            from.read_exact(&mut said.buffer)?;
        }
        Ok(said)
    }
}

impl fmt::Display for Said {
    fn fmt(&self, out: &mut fmt::Formatter<'_>) -> fmt::Result {
        let shown = &self.buffer[..self.buffer.len().min(2_000)];
        write!(out, "{:?}, buffer {}", self.numbers, shown.escape_ascii())
    }
}

/// What a buffer holds before it is lent.
fn held_before(room: usize, salt: u8) -> Vec<u8> {
    (0..room)
        .map(|i| (i as u8).wrapping_add(salt).wrapping_mul(7))
        .collect()
}

/// Puts a case to the other side.
pub fn ask(case: &Case, salt: u8, to: &mut impl Write) -> io::Result<()> {
    let [call, one, two, three] = match &case.call {
        Call::Check => [0, 0, 0, 0],
        Call::Fetch(part) => [1, part.ordinal, part.field, part.component],
        Call::PartText { part, .. } => [2, part.ordinal, part.field, part.component],
        Call::ToSheet { .. } => [3, 0, 0, 0],
        Call::ToMessage { .. } => [4, 0, 0, 0],
        &Call::Segment { ordinal } => [5, ordinal, 0, 0],
        &Call::Spot { refusal } => [6, refusal, 0, 0],
        Call::CsvCount => [7, 0, 0, 0],
        &Call::CsvSheet { which, .. } => [8, which, 0, 0],
        &Call::CsvNext { at, .. } => [9, at, 0, 0],
        Call::CsvSpot => [10, 0, 0, 0],
    };
    let room = case.call.room().unwrap_or(0);
    let length = case.input.len();
    write_numbers(&[call, one, two, three, room, salt.into(), length], to)?;
    to.write_all(&case.input)?;
    if let Call::CsvSheet { given, .. } | Call::CsvNext { given, .. } = &case.call {
        write_given(given, to)?;
    }
    to.flush()
}

/// The caller's three texts stand behind the file, their lengths before them.
fn write_given(given: &Given, to: &mut impl Write) -> io::Result<()> {
    let texts = [&given.mode, &given.sent, &given.control];
    write_numbers(&texts.map(Vec::len), to)?;
    texts.iter().try_for_each(|text| to.write_all(text))
}

fn write_numbers(numbers: &[usize], to: &mut impl Write) -> io::Result<()> {
    numbers
        .iter()
        .try_for_each(|&number| to.write_all(&(number as u64).to_le_bytes()))
}

#[cfg(test)]
mod tests {
    use super::*;

    #[test]
    fn a_refusal_leaves_the_buffer() {
        let case = Case {
            call: Call::ToMessage { room: 3 },
            input: Vec::new(),
        };
        let said = Said::by_us(&case, 1);
        assert_eq!(said.numbers, [42, 1, 0, 0]);
        assert_eq!(said.buffer, held_before(3 + GUARD, 1));
        assert_eq!(said.buffer[..3], [7, 14, 21]);
    }
}
