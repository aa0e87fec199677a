//! Properties that hold over generated cases, and what a run of them is to meet.

use oul_tests::cases::{Call, Case};
use oul_tests::delimiters::{Delimiters, ADMITTED};
use oul_tests::parts;
use oul_tests::places::{self, read_components, Place, CLOSED, READ};
use oul_tests::refusal::number;
use oul_tests::shift::{find_unshifted, SHIFT, TO_TWO_BYTE};
use oul_tests::{
    check, csv_count, csv_next, csv_sheet, csv_sheets, csv_spot, generate, locate, part_text,
    segment, spot, to_message, to_sheet, Given, Refusal, SegmentName, MESSAGE_LIMIT, SHEET_LIMIT,
};
use std::collections::{BTreeMap, BTreeSet};

/// So many cases of messages and sheets meet each of their refusals and every limit, and so many
/// of files.
const RUN: usize = 10_500;
const RUN_OF_FILES: usize = 2_500;

fn run(seed: u64) -> impl Iterator<Item = Case> {
    generate::of_texts(seed).take(RUN)
}

fn run_of_files(seed: u64) -> impl Iterator<Item = Case> {
    generate::of_files(seed).take(RUN_OF_FILES)
}

fn messages(seed: u64) -> impl Iterator<Item = Vec<u8>> {
    run(seed)
        .filter(|case| {
            matches!(
                case.call,
                Call::Check | Call::Fetch(_) | Call::PartText { .. } | Call::ToSheet { .. }
            )
        })
        .map(|case| case.input)
}

fn sheets(seed: u64) -> impl Iterator<Item = Vec<u8>> {
    run(seed)
        .filter(|case| matches!(case.call, Call::ToMessage { .. }))
        .map(|case| case.input)
}

fn files(seed: u64) -> impl Iterator<Item = Vec<u8>> {
    run_of_files(seed).map(|case| case.input)
}

fn sheet_of(m: &[u8]) -> Result<Vec<u8>, Refusal> {
    to_sheet(m, SHEET_LIMIT)
}

fn message_of(sheet: &[u8]) -> Result<Vec<u8>, Refusal> {
    to_message(sheet, MESSAGE_LIMIT)
}

/// The segments or lines of an input, without their ends.
fn lines(input: &[u8], end: u8) -> impl Iterator<Item = &[u8]> {
    input
        .split_inclusive(move |&byte| byte == end)
        .map(move |line| line.strip_suffix(&[end]).unwrap_or(line))
}

fn key_and_value(line: &[u8]) -> Option<(&[u8], &[u8])> {
    let equals = line.iter().position(|&byte| byte == b'=')?;
    Some((&line[..equals], &line[equals + 1..]))
}

// Properties

#[test]
fn the_same_seed_gives_the_same_run() {
    let start = |seed| generate::cases(seed).take(500);
    assert!(start(1).eq(start(1)));
    assert!(start(1).ne(start(2)));
}

#[test]
fn an_accepted_sheet_returns_byte_for_byte() {
    let mut accepted = 0;
    for sheet in sheets(3) {
        if let Ok(m) = message_of(&sheet) {
            assert_eq!(sheet_of(&m), Ok(sheet));
            accepted += 1;
        }
    }
    assert!(accepted > 300, "{accepted}");
}

#[test]
fn an_accepted_message_written_again_reads_as_the_same_sheet() {
    let (mut returned, mut too_large) = (0, 0);
    for m in messages(4) {
        let Ok(sheet) = sheet_of(&m) else { continue };
        assert!(sheet.len() < 57_000);
        match message_of(&sheet) {
            Ok(written) => {
                assert_eq!(check(&written), check(&m));
                assert_eq!(sheet_of(&written), Ok(sheet));
                assert!(lines(&written, b'\r').all(|segment| segment.len() < 850));
                returned += 1;
            }
            Err(refusal) => {
                assert_eq!(refusal, Refusal::of_whole(44));
                too_large += 1;
            }
        }
    }
    assert!(returned > 1_000, "{returned}");
    assert!(too_large > 0);
}

#[test]
fn check_fetch_and_sheet_refuse_alike() {
    for m in messages(5) {
        let refused = check(&m).err();
        assert_eq!(sheet_of(&m).err(), refused);
        assert_eq!(locate(&m, 1, 1, 1).err(), refused);
        assert_eq!(part_text(&m, 1, 1, 1, 1).err(), refused);
    }
}

#[test]
fn the_room_decides_last_and_by_the_byte() {
    let short = Err(Refusal::of_whole(45));
    for case in run(6) {
        let written = |room| match case.call {
            Call::PartText { part, .. } => Some(part.text(&case.input, room)),
            Call::ToSheet { .. } => Some(to_sheet(&case.input, room)),
            Call::ToMessage { .. } => Some(to_message(&case.input, room)),
            _ => None,
        };
        match written(usize::MAX) {
            Some(Ok(output)) => {
                let less = output.len().checked_sub(1).and_then(written);
                assert!(output.is_empty() || less == Some(short.clone()));
                assert_eq!(written(output.len()), Some(Ok(output)));
            }
            refused => assert_eq!(written(0), refused),
        }
    }
}

#[test]
fn every_shorter_room_is_too_short_for_a_text() {
    let mut texts = 0;
    for case in run(26) {
        if let Call::PartText { part, .. } = case.call {
            let length = part
                .text(&case.input, usize::MAX)
                .map_or(0, |text| text.len());
            for room in 0..length {
                let short = Err(Refusal::of_whole(45));
                assert_eq!(part.text(&case.input, room), short);
            }
            texts += usize::from(length > 1);
        }
    }
    assert!(texts > 200, "{texts}");
}

#[test]
fn a_text_is_never_longer_than_its_part_and_the_same_where_nothing_is_escaped() {
    for case in run(27) {
        let Call::PartText { part, .. } = case.call else {
            continue;
        };
        let Ok(stretch) = part.locate(&case.input) else {
            continue;
        };
        let raw = &case.input[stretch];
        let delimiters = Delimiters::of_header(&case.input).unwrap();
        let escapes = find_unshifted(raw, |byte| byte == delimiters.escape).is_some();
        let divided = find_unshifted(raw, |byte| byte == delimiters.subcomponent).is_some();
        match part.text(&case.input, usize::MAX) {
            Ok(text) => {
                assert!(!divided && text.len() <= raw.len());
                assert_eq!(text == raw, !escapes);
                let mut again = Vec::new();
                delimiters.escape_into(&text, &mut again);
                assert_eq!(delimiters.plain(&again), Some(text));
            }
            Err(refusal) => {
                assert!(divided || escapes);
                assert_eq!(refusal, Refusal::at_field(23, part.ordinal, part.field));
            }
        }
    }
}

/// The read places that a sheet shows as they are, by its keys.
const SHOWN: &[(&str, Place)] = &[
    ("sent", places::SENT),
    ("control", places::CONTROL),
    ("mode", places::MODE),
    ("patient", places::PATIENT),
    ("birth", places::BIRTH),
    ("sex", places::SEX),
    ("class", places::CLASS),
    ("specimen", places::SPECIMEN),
    ("collected", places::COLLECTED),
    ("order", places::ORDER_NUMBER),
    ("group", places::GROUP),
    ("item", places::ITEM),
    ("name", places::ITEM_NAME),
    ("type", places::VALUE_TYPE),
    ("unit", places::UNIT),
    ("flag", places::FLAG),
    ("status", places::STATUS),
];

#[test]
fn the_text_of_a_read_part_is_what_the_sheet_shows() {
    for m in messages(7).filter(|m| m.len() < 8_000) {
        let Ok(sheet) = sheet_of(&m) else { continue };
        let mut ordinal = 0;
        for line in lines(&sheet, b'\n') {
            let (key, value) = key_and_value(line).unwrap();
            ordinal += match key {
                b"version" | b"patient" | b"class" | b"specimen" | b"order" => 1,
                b"item" => 1 + usize::from(follows_an_order(&m, ordinal)),
                _ => 0,
            };
            let shown = SHOWN.iter().find(|(shown, _)| shown.as_bytes() == key);
            if let Some((_, place)) = shown {
                let text = part_text(&m, ordinal, place.field, place.component, value.len());
                assert_eq!(text.as_deref(), Ok(value));
            }
        }
    }
}

/// Whether the known segment of this ordinal is OBR, so that ORC stands before the next result.
fn follows_an_order(m: &[u8], ordinal: usize) -> bool {
    known_names(m).nth(ordinal - 1) == Some(SegmentName::Obr)
}

fn known_names(m: &[u8]) -> impl Iterator<Item = SegmentName> + '_ {
    lines(m, b'\r').filter_map(SegmentName::of)
}

#[test]
fn a_skipped_segment_changes_nothing_but_the_count_of_bytes() {
    for mut m in messages(8).filter(|m| m.len() < 30_000) {
        let Ok(sheet) = sheet_of(&m) else { continue };
        if lines(&m, b'\r').count() < 512 {
            let first_end = m.iter().position(|&byte| byte == b'\r').unwrap();
            let segment = [b"ZZZ", &m[3..8], b"\x1B$BF|\x1B(B\r"].concat();
            m.splice(first_end + 1..first_end + 1, segment);
            assert_eq!(sheet_of(&m), Ok(sheet));
        }
    }
}

/// The caller's texts, all good.
fn given() -> Given {
    Given {
        mode: b"P".to_vec(),
        sent: b"20240401093000".to_vec(),
        control: b"K1".to_vec(),
    }
}

#[test]
fn the_sheets_of_a_file_come_one_behind_the_other() {
    let (mut good, mut sheets) = (0, 0);
    for file in files(21) {
        let Ok(counted) = csv_count(&file) else {
            continue;
        };
        let mut at = counted.first_row;
        for which in 1..=counted.count.min(9) {
            let next = csv_next(&file, at, &given(), SHEET_LIMIT);
            assert_eq!(csv_sheet(&file, which, &given(), SHEET_LIMIT), next.sheet);
            at = next.behind;
            sheets += 1;
        }
        assert_eq!(at == file.len(), counted.count <= 9);
        let past = csv_sheet(&file, counted.count + 1, &given(), SHEET_LIMIT);
        assert_eq!(past, Err(Refusal::of_whole(number::NO_SUCH_ORDINAL)));
        good += 1;
    }
    assert!(good > 1_000 && sheets > 2_000, "{good} {sheets}");
}

#[test]
fn all_sheets_in_one_pass_are_those_asked_for_one_by_one() {
    let mut met = BTreeSet::new();
    for file in files(25) {
        let sheets = csv_sheets(&file, &given());
        let counted = csv_count(&file).map(|sheets| sheets.count);
        assert_eq!(sheets.as_ref().map(Vec::len), counted.as_ref().copied());
        met.extend(counted.err().map(|refusal| refusal.number));
        for (which, sheet) in (1..).zip(sheets.unwrap_or_default()).take(9) {
            let asked_for = csv_sheet(&file, which, &given(), SHEET_LIMIT);
            met.extend(asked_for.as_ref().err().map(|refusal| refusal.number));
            assert_eq!(sheet, asked_for);
        }
    }
    let refusals = [40, 43, 50, 51, 52, 53, 54];
    assert!(met.iter().eq(&refusals), "{met:?}");
}

#[test]
fn a_sheet_of_a_file_is_read_as_any_other() {
    let mut accepted = 0;
    for file in files(22) {
        let first_row = csv_count(&file).map_or(0, |sheets| sheets.first_row);
        if let Ok(sheet) = csv_next(&file, first_row, &given(), SHEET_LIMIT).sheet {
            match message_of(&sheet) {
                Ok(m) => assert_eq!(sheet_of(&m), Ok(sheet)),
                Err(refusal) => assert_eq!(refusal, Refusal::of_whole(44)),
            }
            accepted += 1;
        }
    }
    assert!(accepted > 500, "{accepted}");
}

#[test]
fn a_refused_file_has_a_spot_and_a_good_one_has_none() {
    for file in files(23) {
        let ends = file.windows(2).filter(|two| two == b"\r\n").count();
        let spot = csv_spot(&file);
        assert_eq!(csv_count(&file).is_ok(), spot == 0);
        // a missing line is told behind the last one
        assert!(spot <= ends + 2);
    }
}

// What a run meets

#[test]
fn every_refusal_number_occurs_in_a_run() {
    for seed in [0, 1, 2, u64::MAX] {
        let met: BTreeSet<u8> = run(seed)
            .chain(run_of_files(seed))
            .filter_map(|case| Some(case.answer().refusal()?.number))
            .collect();
        assert!(met.iter().eq(&number::ALL), "seed {seed}: {met:?}");
    }
}

#[test]
fn every_call_is_accepted_in_a_run() {
    let mut accepted = BTreeMap::new();
    for case in run(9).chain(run_of_files(9)) {
        let count = accepted.entry(case.call.name()).or_insert(0);
        *count += usize::from(case.answer().refusal().is_none());
    }
    assert_eq!(accepted.len(), 11, "{accepted:?}");
    for (call, count) in accepted {
        let least = if call.starts_with("csv") { 50 } else { 200 };
        assert!(count > least, "{call}: {count}");
    }
}

#[test]
fn some_calls_give_each_of_their_answers_in_a_run() {
    for seed in [0, 1, 2, u64::MAX] {
        let mut met = BTreeSet::new();
        for case in run(seed).chain(run_of_files(seed)) {
            let refusal = case.answer().refusal();
            met.insert(generate::answered(
                &case,
                refusal.map_or(0, |refusal| refusal.number),
            ));
        }
        for (call, numbers) in generate::ANSWERS {
            let answers = met.iter().filter(|(name, _)| *name == call);
            let given: Vec<u8> = answers.map(|&(_, number)| number).collect();
            assert_eq!(given, numbers, "seed {seed}: {call}");
        }
    }
}

#[test]
fn every_kind_of_text_is_asked_for_in_a_run() {
    let mut met = BTreeSet::new();
    for case in run(28) {
        let Call::PartText { part, room } = case.call else {
            continue;
        };
        let Ok(stretch) = part.locate(&case.input) else {
            continue;
        };
        let raw = &case.input[stretch];
        let d = Delimiters::of_header(&case.input).unwrap();
        let name = known_names(&case.input).nth(part.ordinal - 1).unwrap();
        let read = read_components(name, part.field).contains(&part.component);
        let text = part.text(&case.input, usize::MAX);
        let kind = match &text {
            Ok(text) if text.is_empty() => "no byte",
            Ok(text) if text == raw => "as it stands",
            Ok(_) => "with escapes",
            Err(_) if (name, part.field) == (SegmentName::Msh, 2) => "MSH-2",
            Err(_) if find_unshifted(raw, |byte| byte == d.escape).is_none() => "divided",
            Err(_) if find_unshifted(raw, |byte| byte == d.subcomponent).is_none() => "bad escape",
            Err(_) => "both",
        };
        met.insert((kind, read));
        if let Ok(text) = text {
            let among_kanji = [d.escape, d.subcomponent].map(|byte| raw.contains(&byte));
            met.insert((
                "delimiters among kanji",
                text == raw && among_kanji == [true; 2],
            ));
            met.insert(("kanji beside escapes", text != raw && raw.contains(&SHIFT)));
            met.insert(("too short", room < text.len()));
            met.insert(("a byte too short", room + 1 == text.len()));
            met.insert(("no room", room == 0 && !text.is_empty()));
            met.insert(("just enough", room == text.len() && !text.is_empty()));
        }
    }
    for kind in ["no byte", "as it stands", "with escapes"] {
        assert!(
            met.contains(&(kind, true)) && met.contains(&(kind, false)),
            "{kind}"
        );
    }
    for kind in ["MSH-2", "divided", "bad escape", "both"] {
        assert!(met.contains(&(kind, false)), "{kind}");
    }
    for kind in [
        "delimiters among kanji",
        "kanji beside escapes",
        "too short",
        "a byte too short",
        "no room",
        "just enough",
    ] {
        assert!(met.contains(&(kind, true)), "{kind}");
    }
}

/// The lines up to the first result's last, of which version, type and join are always good.
#[test]
fn every_key_of_a_file_meets_a_wrong_value_in_eight_runs() {
    let met: BTreeSet<usize> = (20..28)
        .flat_map(run_of_files)
        .filter_map(|case| case.answer().refusal())
        .filter(|refusal| refusal.number == 43 && refusal.place <= 26)
        .map(|refusal| refusal.place)
        .collect();
    let lines = (1..=26).filter(|line| ![1, 19, 22].contains(line));
    assert!(met.iter().copied().eq(lines), "{met:?}");
}

#[test]
fn segments_are_found_in_refused_and_in_accepted_messages_of_a_run() {
    let mut met = BTreeSet::new();
    for case in run(18) {
        if let Call::Segment { ordinal } = case.call {
            let found = segment(&case.input, ordinal).is_ok();
            met.insert((check(&case.input).is_ok(), found));
        }
    }
    assert_eq!(met.len(), 4, "{met:?}");
}

#[test]
fn every_kind_of_place_is_told_in_a_run() {
    let mut met = BTreeSet::new();
    for case in run(19) {
        if let Call::Spot { refusal } = case.call {
            met.insert((refusal, kind_of_place(&case.input, refusal)));
        }
    }
    let of_bytes = [
        "too long",
        "the end",
        "a shift byte",
        "a plain byte",
        "a line end",
        "another byte",
    ];
    let of_segments = ["too long", "the end", "a rest", "a bad name", "a long one"];
    for kind in of_bytes {
        assert!(met.contains(&(12, kind)), "12: {kind}");
        assert!(met.contains(&(41, kind)), "41: {kind}");
    }
    for kind in of_segments {
        assert!(met.contains(&(13, kind)), "13: {kind}");
    }
    for refusal in number::ALL.map(usize::from).into_iter().chain([0, 268]) {
        let named_elsewhere = ![12, 13, 41].contains(&refusal);
        assert_eq!(met.contains(&(refusal, "no place")), named_elsewhere);
    }
}

/// What stands where the rule of a refusal is broken.
fn kind_of_place(text: &[u8], refusal: usize) -> &'static str {
    let Some(spot) = spot(text, refusal) else {
        return match text.len() {
            0..=SHEET_LIMIT => "no place",
            _ => "too long",
        };
    };
    let rest = &text[spot.byte - 1..];
    match (rest, refusal) {
        ([], _) => "the end",
        (_, 13) => match rest.iter().position(|&byte| byte == b'\r') {
            None => "a rest",
            Some(0..=4_096) => "a bad name",
            Some(_) => "a long one",
        },
        ([SHIFT, ..], _) => "a shift byte",
        ([0x20..=0x7E, ..], _) => "a plain byte",
        ([b'\r' | b'\n', ..], _) => "a line end",
        _ => "another byte",
    }
}

#[test]
fn every_read_field_meets_each_of_its_refusals_in_a_run() {
    let field = |place: &Place| format!("{}{}", place.segment.text(), place.field);
    let mut expected = BTreeSet::from(["20 OBX5", "26 OBX11", "27 ORC2"].map(String::from));
    for place in &READ {
        let whole = field(place) == "MSH18";
        let repeated = whole || field(place) == "PID5";
        for (number, given) in [
            (20, place.rule.is_required() && !whole),
            (21, !whole),
            (22, !repeated),
            (23, !whole),
            (24, place.rule.limit().is_some()),
            (25, !place.rule.is_of_text()),
        ] {
            if given {
                expected.insert(format!("{number} {}", field(place)));
            }
        }
    }
    let met: BTreeSet<String> = messages(10)
        .filter_map(|m| {
            let refusal = check(&m).err().filter(|refusal| refusal.field > 0)?;
            let name = known_names(&m).nth(refusal.place - 1)?.text();
            Some(format!("{} {name}{}", refusal.number, refusal.field))
        })
        .collect();
    assert_eq!(met, expected);
}

#[test]
fn every_key_meets_a_wrong_value_in_a_run() {
    let met: BTreeSet<String> = sheets(11)
        .filter_map(|sheet| {
            let refusal = message_of(&sheet).err().filter(|r| r.number == 43)?;
            let line = lines(&sheet, b'\n').nth(refusal.place - 1)?;
            let (key, _) = key_and_value(line)?;
            Some(String::from_utf8_lossy(key).into())
        })
        .collect();
    assert_eq!(met.len(), 26, "{met:?}");
}

#[test]
fn the_limits_of_size_are_met_from_both_sides() {
    let mut met = BTreeSet::new();
    for m in messages(12) {
        let accepted = check(&m).is_ok();
        let longest = lines(&m, b'\r').map(<[u8]>::len).max().unwrap_or(0);
        met.insert(("bytes of a message", m.len(), accepted));
        met.insert(("segments", lines(&m, b'\r').count(), accepted));
        met.insert(("bytes of a segment", longest, accepted));
    }
    for sheet in sheets(12) {
        let refused = message_of(&sheet).err().map(|refusal| refusal.number);
        met.insert(("bytes of a sheet", sheet.len(), refused != Some(40)));
        let written = message_of(&sheet).unwrap_or_default();
        met.insert(("bytes written", written.len(), true));
        met.insert(("segments written", lines(&written, b'\r').count(), true));
    }
    for limit in [
        ("bytes of a message", 32_768, true),
        ("bytes of a message", 32_769, false),
        ("segments", 512, true),
        ("segments", 513, false),
        ("bytes of a segment", 4_096, true),
        ("bytes of a segment", 4_097, false),
        ("bytes of a sheet", 65_536, true),
        ("bytes of a sheet", 65_537, false),
        ("bytes written", 32_768, true),
        ("segments written", 512, true),
    ] {
        assert!(met.contains(&limit), "{limit:?}");
    }
}

#[test]
fn the_limit_of_a_sheet_is_met_from_both_sides_by_files() {
    let mut met = BTreeSet::new();
    for case in run_of_files(24) {
        if let Call::CsvSheet {
            given, which: 1, ..
        } = &case.call
        {
            if let Ok(sheet) = csv_sheet(&case.input, 1, given, SHEET_LIMIT) {
                met.insert(sheet.len());
            }
            // one byte more in control
            let longer = [&given.control[..], b"x"].concat();
            let longer = Given {
                control: longer,
                ..given.clone()
            };
            let refused = csv_sheet(&case.input, 1, &longer, SHEET_LIMIT);
            if refused == Err(Refusal::of_whole(number::SHEET_TOO_LONG)) {
                met.insert(SHEET_LIMIT + 1);
            }
        }
    }
    let longest: Vec<&usize> = met.range(SHEET_LIMIT..).collect();
    assert_eq!(longest, [&SHEET_LIMIT, &(SHEET_LIMIT + 1)]);
}

#[test]
fn the_limits_of_text_are_met_from_both_sides() {
    let given = lengths_of_values((29..32).flat_map(sheets));
    let accepted = lengths_of_values(messages(13).filter_map(|m| sheet_of(&m).ok()));
    for (key, limit) in [
        ("control", 20),
        ("patient", 20),
        ("family", 48),
        ("given", 48),
        ("kanafamily", 48),
        ("kanagiven", 48),
        ("name", 48),
        ("value", 200),
        ("unit", 20),
        ("second", 16),
    ] {
        let key = key.as_bytes();
        assert!(given[key].contains(&limit) && given[key].contains(&(limit + 1)));
        assert_eq!(accepted[key].last(), Some(&limit));
    }
}

/// How long the values of each key are.
fn lengths_of_values(sheets: impl Iterator<Item = Vec<u8>>) -> BTreeMap<Vec<u8>, BTreeSet<usize>> {
    let mut lengths = BTreeMap::<_, BTreeSet<usize>>::new();
    for sheet in sheets {
        for (key, value) in lines(&sheet, b'\n').filter_map(key_and_value) {
            lengths.entry(key.to_vec()).or_default().insert(value.len());
        }
    }
    lengths
}

#[test]
fn every_delimiter_serves_for_every_purpose_in_a_run() {
    let mut met = BTreeSet::new();
    for m in messages(14).filter(|m| check(m).is_ok()) {
        met.extend(m[3..8].iter().copied().enumerate());
    }
    assert_eq!(met.len(), 5 * ADMITTED.len(), "{met:?}");
}

#[test]
fn every_unread_place_is_filled_in_accepted_messages_of_a_run() {
    let mut expected = BTreeSet::new();
    for name in SegmentName::ALL {
        let fields = READ.iter().filter(|place| place.segment == name);
        let last = fields.map(|place| place.field).max().unwrap();
        for field in (1..=last + 1).filter(|&field| !CLOSED.contains(&(name, field))) {
            let read = read_components(name, field);
            match read.last() {
                None => drop(expected.insert((name, field, 0))),
                Some(last) => {
                    let unread = (1..=last + 1).filter(|n| !read.contains(n));
                    expected.extend(unread.map(|component| (name, field, component)));
                }
            }
        }
    }
    let mut met = BTreeSet::new();
    for m in messages(15).filter(|m| check(m).is_ok()) {
        let d = Delimiters::of_header(&m).unwrap();
        for segment in lines(&m, b'\r') {
            let Some(name) = SegmentName::of(segment) else {
                continue;
            };
            // the first separator of MSH is itself field 1
            let first = usize::from(name == SegmentName::Msh);
            let fields = (first..).zip(parts::split(segment, d.field)).skip(1);
            for (number, field) in fields.filter(|(_, field)| !field.is_empty()) {
                met.insert((name, number, 0));
                for (n, component) in (1..).zip(parts::split(field, d.component)) {
                    if !component.is_empty() {
                        met.insert((name, number, n));
                    }
                }
            }
        }
    }
    let missed: Vec<_> = expected.difference(&met).collect();
    assert!(missed.is_empty(), "{missed:?}");
}

#[test]
fn segments_of_other_names_stand_behind_every_known_one_in_a_run() {
    let mut met = BTreeSet::new();
    for m in messages(16).filter(|m| check(m).is_ok()) {
        let names: Vec<_> = lines(&m, b'\r').map(SegmentName::of).collect();
        for pair in names.windows(2).filter(|pair| pair[1].is_none()) {
            met.extend(pair[0]);
        }
    }
    assert!(met.iter().eq(&SegmentName::ALL), "{met:?}");
}

#[test]
fn kanji_with_the_usual_delimiters_in_both_bytes_is_accepted_in_a_run() {
    let mut met = BTreeSet::new();
    for m in messages(17).filter(|m| check(m).is_ok()) {
        pairs_into(&mut met, "message", &m);
    }
    for sheet in sheets(17).filter(|sheet| message_of(sheet).is_ok()) {
        pairs_into(&mut met, "sheet", &sheet);
    }
    for input in ["message", "sheet"] {
        for byte in [0x7C, 0x5C, 0x5E, 0x7E, 0x26] {
            assert!(met.contains(&(input, 0, byte)), "{input}: {byte:02X} first");
            assert!(
                met.contains(&(input, 1, byte)),
                "{input}: {byte:02X} second"
            );
        }
    }
}

/// The bytes that stand first (0) or second (1) in a pair of two-byte mode.
fn pairs_into(met: &mut BTreeSet<(&'static str, usize, u8)>, input: &'static str, bytes: &[u8]) {
    let mut rest = bytes;
    while let Some(at) = rest.windows(3).position(|three| three == TO_TWO_BYTE) {
        let pairs = &rest[at + 3..];
        let end = pairs.iter().position(|&byte| byte == SHIFT).unwrap();
        met.extend((0..end).map(|n| (input, n % 2, pairs[n])));
        rest = &pairs[end..];
    }
}
