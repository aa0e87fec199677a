//! Recipes for sheets: valid ones, ones with a fault in a known place, extreme and damaged ones.

use super::damage::{damage, damage_shifts};
use super::messages;
use super::random::Random;
use super::words::{self, Outcome};
use crate::places::{CONTROL, FAMILY, GIVEN, ITEM_NAME, PATIENT, STRING, UNIT};
use crate::{to_message, to_sheet, MESSAGE_LIMIT, SHEET_LIMIT};

struct Line {
    key: &'static str,
    value: Vec<u8>,
}

type Lines = Vec<Line>;
type FaultInLine = fn(&mut Random, &mut Lines, usize);
type Fault = fn(&mut Random, &mut Lines);
type Recipe = fn(&mut Random) -> Vec<u8>;

#[rustfmt::skip]
const KEYS: &[&str] = &[
    "version", "mode", "sent", "control", "patient", "family", "given", "kanafamily", "kanagiven",
    "birth", "sex", "class", "specimen", "collected", "order", "group", "item", "name", "type",
    "compare", "value", "join", "second", "unit", "flag", "status",
];

/// What can go wrong in any line's value.
const FAULTS_IN_LINES: &[FaultInLine] = &[empty, quotes, misvalue, misvalue, misspell];

/// What else can go wrong in a sheet. Faults that break up the lines come last.
#[rustfmt::skip]
const FAULTS: &[Fault] = &[
    spoil_some_line, spoil_some_line, lengthen_text, lengthen_number, mismatch_outcome,
    mismatch_outcome, mismatch_kana, rename_line, disorder_lines, end_early,
];

#[rustfmt::skip]
const RECIPES: &[Recipe] = &[
    valid, valid, valid, of_message, of_message, two_faults, damaged, damaged, shifts_damaged,
    unended, fragment,
];

/// The sheet of a turn. In each round every fault and every recipe has its turn, and last one of
/// the limits; round by round the faults in lines go on to the next key.
pub fn sheet(turn: usize, random: &mut Random) -> Vec<u8> {
    const TURNS: usize = FAULTS_IN_LINES.len() + FAULTS.len() + RECIPES.len() + 1;
    let (round, turn) = (turn / TURNS, turn % TURNS);
    if let Some(fault) = FAULTS_IN_LINES.get(turn) {
        return with_fault_in_line(random, KEYS[round % KEYS.len()], fault);
    }
    let turn = turn - FAULTS_IN_LINES.len();
    if let Some(&fault) = FAULTS.get(turn) {
        return with_faults(random, &[fault]);
    }
    match RECIPES.get(turn - FAULTS.len()) {
        Some(recipe) => recipe(random),
        None => at_limit(round, random),
    }
}

pub fn valid(random: &mut Random) -> Vec<u8> {
    to_bytes(&small_sheet(random))
}

fn of_message(random: &mut Random) -> Vec<u8> {
    to_sheet(&messages::valid(random), SHEET_LIMIT).unwrap_or_default()
}

fn with_fault_in_line(random: &mut Random, key: &str, fault: &FaultInLine) -> Vec<u8> {
    let mut lines = small_sheet(random);
    let at = some_line_of(random, &lines, key);
    fault(random, &mut lines, at);
    to_bytes(&lines)
}

fn with_faults(random: &mut Random, faults: &[Fault]) -> Vec<u8> {
    let mut lines = small_sheet(random);
    for fault in faults {
        fault(random, &mut lines);
    }
    to_bytes(&lines)
}

/// Two faults in one sheet: the earlier one is to be reported.
fn two_faults(random: &mut Random) -> Vec<u8> {
    let mut turns = [(); 2].map(|()| random.below(FAULTS.len()));
    turns.sort_unstable();
    with_faults(random, &turns.map(|turn| FAULTS[turn]))
}

fn damaged(random: &mut Random) -> Vec<u8> {
    let mut sheet = valid(random);
    damage(random, &mut sheet, b'\n');
    sheet
}

fn shifts_damaged(random: &mut Random) -> Vec<u8> {
    let mut sheet = valid(random);
    damage_shifts(random, &mut sheet);
    sheet
}

/// Without the final 0A, with 0D for it, or with an empty line.
fn unended(random: &mut Random) -> Vec<u8> {
    let mut sheet = valid(random);
    match random.below(4) {
        0 => drop(sheet.pop()),
        1 => sheet.push(b'\n'),
        2 => sheet.insert(0, b'\n'),
        _ => {
            sheet.pop();
            sheet.extend(b"\r\n");
        }
    }
    sheet
}

/// Nothing, a lone 0A, or the first lines.
fn fragment(random: &mut Random) -> Vec<u8> {
    match random.below(6) {
        0 => Vec::new(),
        1 => b"\n".to_vec(),
        2 => b"version=1".to_vec(),
        _ => {
            let mut lines = small_sheet(random);
            lines.truncate(random.within(1..=28));
            to_bytes(&lines)
        }
    }
}

/// Meets the limits of the sheet, of the message it makes and of that message's segments from
/// both sides.
fn at_limit(round: usize, random: &mut Random) -> Vec<u8> {
    let past = round % 2;
    match round / 2 % 4 {
        0 => of_length(random, SHEET_LIMIT + past),
        1 => with_results(random, 506 + past),
        2 => with_orders(random, 169 + past),
        _ => for_message_of_length(random, MESSAGE_LIMIT + past),
    }
}

/// A sheet of just so many bytes.
fn of_length(random: &mut Random, length: usize) -> Vec<u8> {
    let mut lines = with_one_byte_texts(random);
    let shortest = to_bytes(&lines).len();
    lengthen_texts(&mut lines, length.saturating_sub(shortest));
    to_bytes(&lines)
}

/// A sheet whose message has just so many bytes.
fn for_message_of_length(random: &mut Random, length: usize) -> Vec<u8> {
    let mut lines = with_one_byte_texts(random);
    let shortest = to_message(&to_bytes(&lines), MESSAGE_LIMIT).unwrap_or_default();
    lengthen_texts(&mut lines, length.saturating_sub(shortest.len()));
    to_bytes(&lines)
}

/// Many results of type ST, each of one letter.
fn with_one_byte_texts(random: &mut Random) -> Lines {
    let mut lines = opened(random);
    add_specimen(random, &mut lines);
    add_order(random, &mut lines);
    for _ in 0..random.within(300..=400) {
        let outcome = Outcome {
            value_type: "ST",
            parts: ["", "a", "", ""].map(Vec::from),
            status: "F",
        };
        add_result_with(&mut lines, b"A".to_vec(), outcome);
    }
    lines
}

/// Adds so many letters to the texts. None is to be escaped, so each byte more in the sheet is
/// one more in its message.
fn lengthen_texts(lines: &mut Lines, mut letters: usize) {
    for line in lines.iter_mut().filter(|line| line.key == "value") {
        let more = letters.min(199);
        line.value.extend(std::iter::repeat_n(b'a', more));
        letters -= more;
    }
}

/// So many small results: six segments stand before them.
fn with_results(random: &mut Random, count: usize) -> Vec<u8> {
    let mut lines = opened(random);
    add_specimen(random, &mut lines);
    add_order(random, &mut lines);
    for _ in 0..count {
        add_small_result(random, &mut lines);
    }
    to_bytes(&lines)
}

/// So many orders of one small result each, so three segments for each, behind five others or
/// four.
fn with_orders(random: &mut Random, count: usize) -> Vec<u8> {
    let mut lines = opened(random);
    add_specimen(random, &mut lines);
    for turn in 0..count {
        if turn == 1 && random.one_in(2) {
            add_specimen(random, &mut lines);
        }
        add_order(random, &mut lines);
        add_small_result(random, &mut lines);
    }
    to_bytes(&lines)
}

fn to_bytes(lines: &[Line]) -> Vec<u8> {
    let bytes = |line: &Line| [line.key.as_bytes(), b"=", &line.value, b"\n"].concat();
    lines.iter().flat_map(bytes).collect()
}

fn small_sheet(random: &mut Random) -> Lines {
    let mut lines = opened(random);
    for _ in 0..random.pick(&[1, 1, 2, 3]) {
        add_specimen(random, &mut lines);
        for _ in 0..random.pick(&[1, 1, 2]) {
            add_order(random, &mut lines);
            for _ in 0..random.within(1..=3) {
                add_result(random, &mut lines);
            }
        }
    }
    lines
}

/// The twelve lines before the first specimen.
fn opened(random: &mut Random) -> Lines {
    let mut lines = Lines::new();
    let mut add = |key, value| lines.push(Line { key, value });
    add("version", b"1".to_vec());
    add("mode", words::word(random, words::MODES));
    add("sent", words::time(random));
    add("control", words::text(random, 1..=20));
    add("patient", words::text(random, 1..=20));
    add("family", words::text(random, 1..=48));
    add("given", words::text(random, 0..=48));
    let kana = random.one_in(2);
    let (family, given) = if kana {
        (1..=48, 0..=48)
    } else {
        (0..=0, 0..=0)
    };
    add("kanafamily", words::text(random, family));
    add("kanagiven", words::text(random, given));
    let birth = words::date(random);
    add("birth", if random.one_in(3) { Vec::new() } else { birth });
    add("sex", words::word(random, words::SEXES));
    add("class", words::word(random, words::CLASSES));
    lines
}

fn add_specimen(random: &mut Random, lines: &mut Lines) {
    let mut add = |key, value| lines.push(Line { key, value });
    add("specimen", words::digits(random, 3));
    add("collected", words::time(random));
}

fn add_order(random: &mut Random, lines: &mut Lines) {
    let mut add = |key, value| lines.push(Line { key, value });
    add("order", words::digits(random, 15));
    add("group", words::code(random, 8));
}

fn add_result(random: &mut Random, lines: &mut Lines) {
    let item = words::code(random, 17);
    let outcome = words::outcome(random);
    let first = lines.len();
    add_result_with(lines, item, outcome);
    for line in &mut lines[first..] {
        match line.key {
            "name" => line.value = words::text(random, 0..=48),
            "unit" => line.value = words::text(random, 0..=20),
            "flag" => line.value = words::word(random, words::FLAGS),
            _ => (),
        }
    }
}

fn add_small_result(random: &mut Random, lines: &mut Lines) {
    let outcome = Outcome {
        value_type: random.pick(&["NM", "SN", "ST"]),
        parts: Default::default(),
        status: random.pick(&["I", "X"]),
    };
    add_result_with(lines, words::code(random, 17), outcome);
}

fn add_result_with(lines: &mut Lines, item: Vec<u8>, outcome: Outcome) {
    let [compare, value, join, second] = outcome.parts;
    let mut add = |key, value| lines.push(Line { key, value });
    add("item", item);
    add("name", Vec::new());
    add("type", outcome.value_type.into());
    add("compare", compare);
    add("value", value);
    add("join", join);
    add("second", second);
    add("unit", Vec::new());
    add("flag", Vec::new());
    add("status", outcome.status.into());
}

/// A line with this key; a sheet that is not broken up holds every key.
fn some_line_of(random: &mut Random, lines: &Lines, key: &str) -> usize {
    let with_key = |&at: &usize| lines[at].key == key;
    let found: Vec<usize> = (0..lines.len()).filter(with_key).collect();
    random.pick(&found)
}

fn spoil_some_line(random: &mut Random, lines: &mut Lines) {
    let at = random.below(lines.len());
    random.pick(FAULTS_IN_LINES)(random, lines, at);
}

/// Aims at 42: another key.
fn rename_line(random: &mut Random, lines: &mut Lines) {
    #[rustfmt::skip]
    let keys = [
        "", "item", "order", "specimen", "Version", "version ", " mode", "kana", "kanafamilyy",
        "value", "status", "sent=", "ITEM",
    ];
    let at = random.below(lines.len());
    lines[at].key = random.pick(&keys);
}

/// Aims at 42: lines taken out, doubled or swapped.
fn disorder_lines(random: &mut Random, lines: &mut Lines) {
    let (at, other) = (random.below(lines.len()), random.below(lines.len()));
    match random.below(3) {
        0 => drop(lines.remove(at)),
        1 => {
            let Line { key, ref value } = lines[other];
            let value = value.clone();
            lines.insert(at, Line { key, value });
        }
        _ => lines.swap(at, other),
    }
}

/// Aims at 43: a value that belongs elsewhere.
fn misvalue(random: &mut Random, lines: &mut Lines, at: usize) {
    lines[at].value = words::nearly(random);
}

/// Aims at 43: something put in at an end of the value, `=` and escapes among it.
fn misspell(random: &mut Random, lines: &mut Lines, at: usize) {
    let value = &mut lines[at].value;
    let put_in = random.pick(&["=", " ", "0", "A", "a", "\\F\\", "\\Q\\", "&", "\""]);
    if random.one_in(2) {
        value.extend(put_in.bytes());
    } else {
        value.splice(0..0, put_in.bytes());
    }
}

/// Aims at 43: the text `""`.
fn quotes(_: &mut Random, lines: &mut Lines, at: usize) {
    lines[at].value = b"\"\"".to_vec();
}

/// Aims at 43 where a value is required.
fn empty(_: &mut Random, lines: &mut Lines, at: usize) {
    lines[at].value.clear();
}

/// Aims at 43: a text as long as may be, or by a byte longer.
fn lengthen_text(random: &mut Random, lines: &mut Lines) {
    #[rustfmt::skip]
    let texts = [
        ("control", CONTROL), ("patient", PATIENT), ("family", FAMILY), ("given", GIVEN),
        ("kanafamily", FAMILY), ("kanagiven", GIVEN), ("name", ITEM_NAME), ("value", STRING),
        ("unit", UNIT),
    ];
    let (key, place) = random.pick(&texts);
    let length = place.rule.limit().unwrap_or(0) + random.below(2);
    let at = some_line_of(random, lines, key);
    lines[at].value = words::text_of(random, length);
    match key {
        "value" => set_result(lines, at, "ST"),
        "kanagiven" => lines[at - 1].value = words::text(random, 1..=48),
        _ => (),
    }
}

/// Aims at 43: a number as long as may be, or by a byte longer.
fn lengthen_number(random: &mut Random, lines: &mut Lines) {
    let length = 16 + random.below(2);
    let at = some_line_of(random, lines, "value");
    let number = words::number_of(random, length);
    let value_type = random.pick(&["NM", "SN", "SN"]);
    let second = value_type == "SN" && random.one_in(2);
    lines[at].value = if second {
        b"1".to_vec()
    } else {
        number.clone()
    };
    set_result(lines, at, value_type);
    if second {
        lines[at + 1].value = b":".to_vec();
        lines[at + 2].value = number;
    }
}

/// Makes the result around a value line a filled one of this type, with nothing beside its value.
fn set_result(lines: &mut Lines, at: usize, value_type: &str) {
    lines[at - 2].value = value_type.into();
    for blank in [at - 1, at + 1, at + 2] {
        lines[blank].value.clear();
    }
    lines[at + 5].value = b"F".to_vec();
}

/// Aims at 43 in value, second and status.
fn mismatch_outcome(random: &mut Random, lines: &mut Lines) {
    let at = some_line_of(random, lines, "type");
    let outcome = words::odd_outcome(random);
    lines[at].value = outcome.value_type.into();
    for (line, part) in lines[at + 1..].iter_mut().zip(outcome.parts) {
        line.value = part;
    }
    lines[at + 7].value = outcome.status.into();
}

/// Aims at 43 in kanagiven.
fn mismatch_kana(random: &mut Random, lines: &mut Lines) {
    for key in ["kanafamily", "kanagiven"] {
        let at = some_line_of(random, lines, key);
        let least = random.below(2);
        lines[at].value = words::text(random, least..=least * 48);
    }
}

/// Aims at 42 behind the last line.
fn end_early(random: &mut Random, lines: &mut Lines) {
    lines.truncate(random.within(0..=lines.len()));
}
