//! Every listed case, and some thousand generated ones, by way of this crate.

use oul::Refusal;
use oul_tests::cases::{Answer, Call, Case};
use oul_tests::generate;
use oul_tests::listed::{self, Request};
use std::path::{Path, PathBuf};

#[test]
fn every_listed_case_is_answered_as_listed() {
    run("cases.tsv");
}

#[test]
fn every_edge_is_answered_as_listed() {
    run("edges.tsv");
}

#[test]
fn every_call_of_the_first_request_is_answered_as_listed() {
    for listed in listed::requests(&path("requests/req01.tsv")).expect("a list") {
        if let Request::Call(case) = &listed.asked {
            let answer = listed::in_request(&answer(case));
            assert_eq!(answer, listed.answer, "{}", listed.place);
        }
    }
}

#[test]
fn generated_cases_are_answered_as_by_the_independent_program() {
    for case in generate::cases(20).take(3_000) {
        assert_eq!(answer(&case), case.answer(), "{case}");
    }
}

fn run(list: &str) {
    for listed in listed::cases(&path(list)).expect("a list") {
        let answer = answer(&listed.asked).to_string();
        assert_eq!(answer, listed.answer, "{}", listed.place);
    }
}

/// A list of `tests/`.
fn path(list: &str) -> PathBuf {
    let tests = Path::new(env!("CARGO_MANIFEST_DIR")).join("../tests");
    tests.join(list)
}

/// What this crate answers, as it stands in a list.
fn answer(case: &Case) -> Answer {
    let input = case.input.as_slice();
    let answer = match &case.call {
        Call::Check => oul::check(input).map(|counts| {
            Answer::Counts(oul_tests::Counts {
                specimens: counts.specimens,
                orders: counts.orders,
                results: counts.results,
            })
        }),
        Call::Fetch(part) => oul::fetch(input, part.ordinal, part.field, part.component)
            .map(|part| Answer::Bytes(part.to_vec())),
        Call::PartText { part, room } => written(*room, |out| {
            oul::part_text(input, part.ordinal, part.field, part.component, out)
        })
        .map(Answer::Bytes),
        &Call::ToSheet { room } => {
            written(room, |out| oul::to_sheet(input, out)).map(Answer::Bytes)
        }
        &Call::ToMessage { room } => {
            written(room, |out| oul::to_message(input, out)).map(Answer::Bytes)
        }
        &Call::Segment { ordinal } => match oul::segment(input, ordinal) {
            Some(stretch) => Ok(Answer::Stretch(stretch)),
            None => Err(Refusal {
                number: oul::number::NO_ORDINAL,
                place: 0,
                field: 0,
            }),
        },
        &Call::Spot { refusal } => {
            let number = u8::try_from(refusal).ok();
            let spot = number.and_then(|number| oul::spot(input, number));
            Ok(Answer::Spot(spot.map(|spot| oul_tests::Spot {
                line: spot.line,
                byte: spot.byte,
            })))
        }
        Call::CsvCount => oul::csv_count(input).map(|sheets| {
            Answer::Sheets(oul_tests::Sheets {
                count: sheets.count,
                first_row: sheets.first_row,
            })
        }),
        Call::CsvSheet { which, given, room } => {
            let sheet = written(*room, |out| oul::csv_sheet(input, *which, lent(given), out));
            sheet.map(Answer::Bytes)
        }
        Call::CsvNext { at, given, room } => {
            let mut behind = None;
            let sheet = written(*room, |out| {
                let next = oul::csv_next(input, *at, lent(given), out);
                behind = Some(next.behind);
                next.sheet
            });
            Ok(Answer::Next(oul_tests::Next {
                sheet: sheet.map_err(refused),
                behind: behind.expect("a place"),
            }))
        }
        Call::CsvSpot => Ok(Answer::Line(oul::csv_spot(input).unwrap_or(0))),
    };
    answer.unwrap_or_else(|refusal| Answer::Refused(refused(refusal)))
}

fn lent(given: &oul_tests::Given) -> oul::Given<'_> {
    oul::Given {
        mode: &given.mode,
        sent: &given.sent,
        control: &given.control,
    }
}

fn refused(refusal: Refusal) -> oul_tests::Refusal {
    oul_tests::Refusal {
        number: refusal.number,
        place: refusal.place,
        field: refusal.field,
    }
}

/// What was written into a buffer. The bytes past it stay, and all do on a refusal.
fn written(
    room: usize,
    write: impl FnOnce(&mut [u8]) -> Result<usize, Refusal>,
) -> Result<Vec<u8>, Refusal> {
    const BEFORE: u8 = 7;
    let mut out = vec![BEFORE; room];
    let length = write(&mut out);
    let (text, past) = out.split_at(length.unwrap_or(0));
    assert!(past.iter().all(|&byte| byte == BEFORE));
    length.map(|_| text.to_vec())
}
