//! Seeded cases for the eleven calls: valid, damaged and extreme inputs.
//!
//! The same seed gives the same run everywhere: nothing here looks at a clock. The calls and the
//! recipes of their inputs come in turn, so that a run of some thousand cases has met every
//! refusal number and every limit from both sides.

mod damage;
mod drafts;
mod files;
mod messages;
mod random;
mod sheets;
mod texts;
mod words;

use crate::cases::{Call, Case, Part};
use crate::refusal::number;
use crate::{
    check, csv_count, csv_next, csv_sheet, to_message, to_sheet, Refusal, MESSAGE_LIMIT,
    SEGMENT_LIMIT, SHEET_LIMIT,
};
use random::Random;

/// What some calls answer in a run of some thousand cases, as [`answered`] tells it.
#[rustfmt::skip]
pub const ANSWERS: [(&str, &[u8]); 6] = [
    ("part_text", &[10, 11, 12, 13, 14, 15, 20, 21, 22, 23, 24, 25, 26, 27]),
    (OF_GOOD_MESSAGE, &[0, 23, 30, 31, 45]),
    ("csv_count", &[0, 50, 51, 52, 53, 54]),
    ("csv_sheet", &[0, 30, 40, 41, 42, 43, 45, 50, 51, 52, 53, 54]),
    ("csv_next", &[0, 30, 40, 41, 42, 43, 45, 50, 52, 53]),
    ("csv_spot", &[0, 50, 51, 52, 53, 54]),
];

/// These are counted by themselves: each of their refusals is the call's own.
const OF_GOOD_MESSAGE: &str = "part_text of a good message";

/// What a case is counted as whose answer has this number, 0 where nothing is refused: the call and
/// the number. A spot counts for the refusal of its file.
pub fn answered(case: &Case, number: u8) -> (&'static str, u8) {
    let call = case.call.name();
    match case.call {
        Call::PartText { .. } if check(&case.input).is_ok() => (OF_GOOD_MESSAGE, number),
        Call::CsvSpot => match csv_count(&case.input) {
            Ok(_) => (call, 0),
            Err(refusal) => (call, refusal.number),
        },
        _ => (call, number),
    }
}

/// An endless run of cases. Of each nine, seven are of messages and sheets, two of files.
pub fn cases(seed: u64) -> impl Iterator<Item = Case> {
    let (mut texts, mut files) = (of_texts(seed), of_files(seed));
    (0..).filter_map(move |turn| match turn % 9 {
        0..7 => texts.next(),
        _ => files.next(),
    })
}

/// An endless run of cases of messages and sheets.
pub fn of_texts(seed: u64) -> impl Iterator<Item = Case> {
    let mut random = Random::new(seed);
    (0..).map(move |turn| case_of_text(turn, &mut random))
}

/// An endless run of cases of the commercial centre's files.
pub fn of_files(seed: u64) -> impl Iterator<Item = Case> {
    let mut random = Random::new(!seed);
    (0..).map(move |turn| case_of_file(turn, &mut random))
}

/// Every seven turns each call has one case, made by the next recipe.
fn case_of_text(turn: usize, random: &mut Random) -> Case {
    let recipe = turn / 7;
    match turn % 7 {
        0 => Case {
            call: Call::Check,
            input: messages::message(recipe, random),
        },
        1 => {
            let input = messages::message(recipe, random);
            let call = Call::Fetch(some_part(random, &input));
            Case { call, input }
        }
        2 => {
            let (input, part) = message_with_part(recipe, random);
            let text = part.text(&input, SEGMENT_LIMIT);
            let room = room(random, text, SEGMENT_LIMIT);
            let call = Call::PartText { part, room };
            Case { call, input }
        }
        3 => {
            let input = messages::message(recipe, random);
            let room = room(random, to_sheet(&input, SHEET_LIMIT), SHEET_LIMIT);
            let call = Call::ToSheet { room };
            Case { call, input }
        }
        4 => {
            let input = sheets::sheet(recipe, random);
            let room = room(random, to_message(&input, MESSAGE_LIMIT), MESSAGE_LIMIT);
            let call = Call::ToMessage { room };
            Case { call, input }
        }
        5 => {
            let input = texts::text(recipe, random);
            let ordinal = some_ordinal(random, &input);
            let call = Call::Segment { ordinal };
            Case { call, input }
        }
        _ => {
            let input = texts::text(recipe, random);
            let refusal = some_refusal(random);
            let call = Call::Spot { refusal };
            Case { call, input }
        }
    }
}

/// Every four turns each call has one case, made by the next recipe.
fn case_of_file(turn: usize, random: &mut Random) -> Case {
    let recipe = turn / 4;
    match turn % 4 {
        0 => Case {
            call: Call::CsvCount,
            input: files::file(recipe, random),
        },
        1 => {
            let input = files::file_for_sheets(recipe, random);
            let call = some_sheet(random, &input);
            Case { call, input }
        }
        2 => {
            let input = files::file_for_sheets(recipe, random);
            let call = some_next(random, &input);
            Case { call, input }
        }
        _ => Case {
            call: Call::CsvSpot,
            input: files::file(recipe, random),
        },
    }
}

/// Asks mostly for a sheet that is there.
fn some_sheet(random: &mut Random, file: &[u8]) -> Call {
    let numbers = random.pick(&[1, 1, 1, 2, 4]);
    let which = some_number(random, numbers);
    let given = files::some_given(random, file);
    let room = room(
        random,
        csv_sheet(file, which, &given, usize::MAX),
        SHEET_LIMIT,
    );
    Call::CsvSheet { which, given, room }
}

fn some_next(random: &mut Random, file: &[u8]) -> Call {
    let at = files::some_place(random, file);
    let given = files::some_given(random, file);
    let sheet = csv_next(file, at, &given, usize::MAX).sheet;
    let room = room(random, sheet, SHEET_LIMIT);
    Call::CsvNext { at, given, room }
}

/// Mostly what is there, sometimes number 0, one past the end, or far off.
fn some_part(random: &mut Random, message: &[u8]) -> Part {
    Part {
        ordinal: some_ordinal(random, message),
        field: some_number(random, 21),
        component: some_number(random, 4),
    }
}

/// Any message and any part, and in each second turn a good message with a part chosen for its
/// text.
fn message_with_part(turn: usize, random: &mut Random) -> (Vec<u8>, Part) {
    if turn % 2 == 1 {
        return messages::with_part(random);
    }
    let message = messages::message(turn / 2, random);
    let part = some_part(random, &message);
    (message, part)
}

fn some_ordinal(random: &mut Random, message: &[u8]) -> usize {
    let segments = message.iter().filter(|&&byte| byte == b'\r').count();
    some_number(random, segments + 1)
}

/// Mostly one whose place is not named, sometimes another, or none that there is.
fn some_refusal(random: &mut Random) -> usize {
    const WITH_A_SPOT: [u8; 3] = [
        number::MESSAGE_BYTES,
        number::SEGMENT_FORM,
        number::SHEET_BYTES,
    ];
    const NONE: [usize; 4] = [0, 256 + 12, 65_536 + 13, usize::MAX];
    match random.below(8) {
        0 | 1 => random.pick(&number::ALL).into(),
        2 => random.pick(&NONE),
        _ => random.pick(&WITH_A_SPOT).into(),
    }
}

fn some_number(random: &mut Random, usual: usize) -> usize {
    const FAR_OFF: [usize; 4] = [64, 4_096, 65_534, 65_535];
    match random.below(16) {
        0 => 0,
        1 => random.pick(&FAR_OFF),
        _ => random.within(1..=usual),
    }
}

/// A buffer with full room, or one that the output fits exactly, or by one byte more or less.
fn room(random: &mut Random, output: Result<Vec<u8>, Refusal>, full: usize) -> usize {
    let length = output.map_or(0, |output| output.len());
    let short = length.saturating_sub(1);
    let anywhere = random.within(0..=short);
    random.pick(&[full, full, full, length, short, length + 1, anywhere, 0])
}
