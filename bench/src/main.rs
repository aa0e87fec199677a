//! Times the proved library and the independent Rust program side by side, in one run, and
//! prints the ratios. Start it by `bench/run`.

mod files;
mod inputs;

use oul_tests::places::READ;
use oul_tests::report::ValueType;
use oul_tests::{
    check, csv_sheets, locate, part_text, to_message, to_sheet, Given, SegmentName, MESSAGE_LIMIT,
    SEGMENT_LIMIT, SHEET_LIMIT,
};
use std::hint::black_box;
use std::time::{Duration, Instant};

/// So long a turn lasts at least. The sides take turns, and the fastest of each counts.
const TURN: Duration = Duration::from_millis(2);
/// So long they do so at least, and so many times.
const RACE: Duration = Duration::from_millis(1500);
const TURNS: usize = 5;

/// Makes a message of so many bytes at most.
type Input = fn(usize) -> Vec<u8>;

fn main() {
    ratios();
    growth();
    sheets_of_files();
}

fn ratios() {
    println!("| Input | Bytes | Call | Rust, µs | Library, µs | Ratio |");
    println!("|---|---|---|---|---|---|");
    let full = inputs::small_segments(MESSAGE_LIMIT);
    let kanji = inputs::kanji(MESSAGE_LIMIT);
    for (name, m) in [
        ("typical", inputs::typical()),
        ("full, small segments", full),
        ("full, kanji", kanji),
    ] {
        let m = m.as_slice();
        let places = places(m);
        let sheet = agree(m, &places);
        let mut out = vec![0; SHEET_LIMIT];
        let row = |call: &str, times: (f64, f64)| {
            let (rust, library) = times;
            let (bytes, ratio) = (m.len(), rust / library);
            println!("| {name} | {bytes} | {call} | {rust:.1} | {library:.1} | {ratio:.2} |");
        };
        row(
            "check",
            race(
                || keep(check(black_box(m))),
                || keep(oul::check(black_box(m))),
            ),
        );
        row(
            &format!("check, locate {} places", places.len()),
            race(
                || {
                    keep(check(m));
                    for &(ordinal, field, component) in &places {
                        keep(locate(m, ordinal, field, component));
                    }
                },
                || {
                    keep(oul::check(m));
                    for &(ordinal, field, component) in &places {
                        keep(oul::locate(m, ordinal, field, component));
                    }
                },
            ),
        );
        row(
            &format!("check, text of {} places", places.len()),
            race(
                || {
                    keep(check(m));
                    for &(ordinal, field, component) in &places {
                        keep(part_text(m, ordinal, field, component, SEGMENT_LIMIT));
                    }
                },
                || {
                    keep(oul::check(m));
                    for &(ordinal, field, component) in &places {
                        keep(oul::part_text(m, ordinal, field, component, &mut out));
                    }
                },
            ),
        );
        row(
            "message to sheet",
            race(
                || keep(to_sheet(m, SHEET_LIMIT)),
                || keep(oul::to_sheet(m, &mut out)),
            ),
        );
        row(
            "sheet to message",
            race(
                || keep(to_message(&sheet, MESSAGE_LIMIT)),
                || keep(oul::to_message(&sheet, &mut out[..MESSAGE_LIMIT])),
            ),
        );
    }
}

/// Twice the bytes, about twice the time.
fn growth() {
    println!();
    println!("| Input | Call | 4 KiB, µs | 8 KiB | 16 KiB | 32 KiB | growth at each doubling |");
    println!("|---|---|---|---|---|---|---|");
    let inputs: [(&str, Input); 2] = [
        ("small segments", inputs::small_segments),
        ("kanji", inputs::kanji),
    ];
    for (name, input) in inputs {
        let messages = [4, 8, 16, 32].map(|kib| input(kib * 1024));
        let times = messages.each_ref().map(|m| alone(|| keep(oul::check(m))));
        grown(name, "check", times);
        let mut out = vec![0; SHEET_LIMIT];
        let times = messages
            .each_ref()
            .map(|m| alone(|| keep(oul::to_sheet(m, &mut out))));
        grown(name, "message to sheet", times);
        let sheets = messages.map(|m| to_sheet(&m, SHEET_LIMIT).expect("a good message"));
        let times = sheets.map(|sheet| alone(|| keep(oul::to_message(&sheet, &mut out))));
        grown(name, "sheet to message", times);
    }
}

fn grown(name: &str, call: &str, times: [f64; 4]) {
    let shown = times.map(|time| format!("{time:.1}")).join(" | ");
    let ratio = |n: usize| format!("{:.2}", times[n + 1] / times[n]);
    let ratios = [0, 1, 2].map(ratio).join(", ");
    println!("| {name} | {call} | {shown} | {ratios} |");
}

/// Every sheet of the commercial centre's file. Twice the bytes, about twice the time.
fn sheets_of_files() {
    println!();
    println!(
        "| Numbers | Bytes | Sheets | Rust, ms | Library, ms | Ratio | growth of Rust | of the library |"
    );
    println!("|---|---|---|---|---|---|---|---|");
    let numbers: [(&str, files::Number, usize, [usize; 4]); 3] = [
        ("in turn", files::in_turn, 8, [1, 2, 4, 8]),
        ("in no order", files::in_no_order, 8, [1, 2, 4, 8]),
        ("one a row", files::in_no_order, 1, [8, 16, 32, 64]),
    ];
    for (name, text, results, sizes) in numbers {
        let mut before = None;
        for megabytes in sizes {
            let file = files::file(megabytes * 1_000_000, text, results);
            let times = sheets_of_file(name, &file, before);
            before = Some(times);
        }
    }
}

/// Prints a row: the times, and how they have grown. Gives the times.
fn sheets_of_file(numbers: &str, file: &[u8], before: Option<(f64, f64)>) -> (f64, f64) {
    let mut out = vec![0; SHEET_LIMIT];
    let sheets = agree_on_file(file, &mut out);
    let (rust, library) = race(
        || keep(csv_sheets(file, &given())),
        || by_library(file, &mut out, |sheet| keep(sheet)),
    );
    let [rust_grown, library_grown] = before.map_or(["", ""].map(String::from), |(one, other)| {
        [rust / one, library / other].map(|growth: f64| format!("{growth:.2}"))
    });
    let (bytes, ratio) = (file.len(), rust / library);
    let [rust_ms, library_ms] = [rust, library].map(|time| time / 1e3);
    println!(
        "| {numbers} | {bytes} | {sheets} | {rust_ms:.1} | {library_ms:.1} | {ratio:.2} | {rust_grown} | {library_grown} |"
    );
    (rust, library)
}

fn given() -> Given {
    Given {
        mode: b"P".to_vec(),
        sent: b"20240401093000".to_vec(),
        control: b"K0001".to_vec(),
    }
}

/// Counts the sheets of a file, and then writes each from where the one before ended.
fn by_library(file: &[u8], out: &mut [u8], mut tell: impl FnMut(&[u8])) {
    let given = given();
    let given = oul::Given {
        mode: &given.mode,
        sent: &given.sent,
        control: &given.control,
    };
    let sheets = oul::csv_count(file).expect("a good file");
    let mut at = sheets.first_row;
    for _ in 0..sheets.count {
        let next = oul::csv_next(file, at, given, out);
        tell(&out[..next.sheet.expect("a good sheet")]);
        at = next.behind;
    }
    assert_eq!(at, file.len());
}

/// Both sides give the same sheets, and refuse none. Gives their number.
fn agree_on_file(file: &[u8], out: &mut [u8]) -> usize {
    let sheets = csv_sheets(file, &given()).expect("a good file");
    let mut rust = sheets.iter();
    by_library(file, out, |sheet| {
        let expected = rust.next().expect("as many sheets");
        assert_eq!(expected.as_deref(), Ok(sheet));
    });
    assert_eq!(rust.len(), 0);
    sheets.len()
}

/// The ordinal, field and component of every read place of a message. Its results are NM or ST,
/// whose values stand in the same place.
fn places(m: &[u8]) -> Vec<(usize, usize, usize)> {
    let segments = m.split_inclusive(|&byte| byte == b'\r');
    let read = READ.iter().filter(|place| place.is_for(ValueType::Number));
    (1..)
        .zip(segments.filter_map(SegmentName::of))
        .flat_map(|(ordinal, name)| {
            let places = read.clone().filter(move |place| place.segment == name);
            places.map(move |place| (ordinal, place.field, place.component))
        })
        .collect()
}

/// Both sides answer alike, and accept. Gives the message's sheet.
fn agree(m: &[u8], places: &[(usize, usize, usize)]) -> Vec<u8> {
    let counts = check(m).expect("a good message");
    let ours = oul::check(m).expect("a good message");
    assert_eq!(
        (ours.specimens, ours.orders, ours.results),
        (counts.specimens, counts.orders, counts.results)
    );
    let mut out = vec![0; SHEET_LIMIT];
    for &(ordinal, field, component) in places {
        let part = locate(m, ordinal, field, component).expect("a place that is there");
        assert_eq!(oul::locate(m, ordinal, field, component), Ok(part));
        let text = part_text(m, ordinal, field, component, SEGMENT_LIMIT).expect("a good text");
        let length = oul::part_text(m, ordinal, field, component, &mut out);
        assert_eq!(length.map(|length| &out[..length]), Ok(&text[..]));
    }
    let sheet = to_sheet(m, SHEET_LIMIT).expect("a good message");
    assert_eq!(oul::to_sheet(m, &mut out), Ok(sheet.len()));
    assert_eq!(out[..sheet.len()], sheet);
    assert_eq!(oul::to_message(&sheet, &mut out), Ok(m.len()));
    assert_eq!(out[..m.len()], *m);
    sheet
}

/// An answer that the compiler may not leave out.
fn keep<T>(answer: T) {
    black_box(answer);
}

fn alone(call: impl FnMut()) -> f64 {
    race(|| (), call).1
}

/// Microseconds for one call of each, in turn, the fastest of all turns.
fn race(mut one: impl FnMut(), mut other: impl FnMut()) -> (f64, f64) {
    let (calls_of_one, calls_of_other) = (calls(&mut one), calls(&mut other));
    let mut best = (f64::INFINITY, f64::INFINITY);
    let start = Instant::now();
    let mut turns = 0;
    while turns < TURNS || start.elapsed() < RACE {
        turns += 1;
        best.0 = best.0.min(time(calls_of_one, &mut one));
        best.1 = best.1.min(time(calls_of_other, &mut other));
    }
    best
}

/// How many calls fill a turn.
fn calls(call: &mut impl FnMut()) -> u32 {
    let mut calls = 1;
    loop {
        let start = Instant::now();
        (0..calls).for_each(|_| call());
        if start.elapsed() >= TURN || calls > 1 << 24 {
            return calls;
        }
        calls *= 2;
    }
}

fn time(calls: u32, call: &mut impl FnMut()) -> f64 {
    let start = Instant::now();
    (0..calls).for_each(|_| call());
    start.elapsed().as_secs_f64() * 1e6 / f64::from(calls)
}
