//! Recipes for messages: valid ones, ones with a fault in a known place, extreme and damaged
//! ones.

use super::damage::{damage, damage_shifts};
use super::drafts::Draft;
use super::random::Random;
use super::{sheets, words};
use crate::cases::Part;
use crate::delimiters::ADMITTED;
use crate::places::{
    read_components, Place, CHARACTER_SET, CLOSED, FAMILY, GIVEN, NAME_MARK, NUMBER, ORDER_NUMBER,
    ORDER_NUMBER_AGAIN, READ, STATUS, VALUE_TYPE,
};
use crate::report::ValueType;
use crate::{to_message, SegmentName, MESSAGE_LIMIT, SEGMENT_LIMIT};

/// A name and its 0D.
const SHORTEST_SEGMENT: usize = 4;

/// A place of a draft: the segment's index, the field and the component.
type At = (usize, usize, usize);
type FaultInPlace = fn(&mut Random, &mut Draft, At);
type Fault = fn(&mut Random, &mut Draft);
type Recipe = fn(&mut Random) -> Vec<u8>;

/// What can go wrong in any read place, each aimed at one refusal number.
#[rustfmt::skip]
const FAULTS_IN_PLACES: &[FaultInPlace] = &[
    empty, quotes, repeat, spoil_escape, divide, misvalue, misvalue, misspell,
];

/// What else can go wrong in a draft. Faults that break up the segments come last.
#[rustfmt::skip]
const FAULTS: &[Fault] = &[
    spoil_some_place, spoil_some_place, excess_component, lengthen_text, lengthen_string,
    lengthen_number, spoil_character_set, spoil_names, mismatch_outcome, mismatch_outcome,
    spoil_status, spoil_order_number, disorder_segments, spoil_segment_name,
];

#[rustfmt::skip]
const RECIPES: &[Recipe] = &[
    valid, valid, valid, written, two_faults, faults_and_damage, damaged, damaged, shifts_damaged,
    header_damaged, unended, fragment,
];

/// The message of a turn. In each round every fault and every recipe has its turn, and last one
/// of the limits; round by round the faults in places go on to the next place.
pub fn message(turn: usize, random: &mut Random) -> Vec<u8> {
    const TURNS: usize = FAULTS_IN_PLACES.len() + FAULTS.len() + RECIPES.len() + 1;
    let (round, turn) = (turn / TURNS, turn % TURNS);
    if let Some(fault) = FAULTS_IN_PLACES.get(turn) {
        let places = places();
        return with_fault_in_place(random, places[round % places.len()], fault);
    }
    let turn = turn - FAULTS_IN_PLACES.len();
    if let Some(&fault) = FAULTS.get(turn) {
        return with_faults(random, &[fault]);
    }
    match RECIPES.get(turn - FAULTS.len()) {
        Some(recipe) => recipe(random),
        None => at_limit(round, random),
    }
}

/// The read places, each once. MSH-18, which is compared raw, has faults of its own.
fn places() -> Vec<&'static Place> {
    let character_set = (SegmentName::Msh, CHARACTER_SET.field);
    READ.iter()
        .filter(|place| place.is_for(ValueType::Structured))
        .filter(|place| (place.segment, place.field) != character_set)
        .collect()
}

/// A message that keeps every rule, and a part of it: mostly one that isn't read and was filled on
/// purpose, sometimes a read place, or one of the fields of MSH that hold delimiters.
pub fn with_part(random: &mut Random) -> (Vec<u8>, Part) {
    let mut draft = Draft::new(random);
    let known = draft.known();
    let ordinal = random.within(1..=known.len());
    let (segment, name) = known[ordinal - 1];
    let part = match random.below(8) {
        0 => Part {
            ordinal: 1,
            field: random.pick(&[1, 2, CHARACTER_SET.field]),
            component: random.pick(&[1, 1, 2]),
        },
        1 => {
            let read = places().into_iter().filter(|place| place.segment == name);
            let place = random.pick(&read.collect::<Vec<_>>());
            Part {
                ordinal,
                field: place.field,
                component: place.component,
            }
        }
        _ => {
            let (field, component) = fill_unread(random, &mut draft, segment, name);
            Part {
                ordinal,
                field,
                component,
            }
        }
    };
    (draft.to_bytes(), part)
}

/// Fills an unread component of a read field, or an unread field with several components and
/// perhaps a repetition; gives the field and the component.
fn fill_unread(
    random: &mut Random,
    draft: &mut Draft,
    segment: usize,
    name: SegmentName,
) -> (usize, usize) {
    let (field, unread) = some_field(random, name);
    let component = random.pick(&unread);
    if unread.contains(&1) {
        let texts = [(); 3].map(|()| draft.unread_text(random));
        let mut raw = texts.join(&draft.delimiters.component);
        if random.one_in(3) {
            raw.push(draft.delimiters.repetition);
            raw.extend(draft.unread_text(random));
        }
        *draft.field_mut(segment, field) = raw;
    } else {
        let text = draft.unread_text(random);
        draft.set_component(segment, field, component, &text);
    }
    (field, component)
}

/// A field of a segment, and components of it that aren't read. Of PID-5 these stand before the
/// mark; the other closed fields are left out.
fn some_field(random: &mut Random, name: SegmentName) -> (usize, Vec<usize>) {
    loop {
        let field = random.within(1..=22);
        if (name, field) == (SegmentName::Pid, FAMILY.field) {
            return (field, (GIVEN.component + 1..NAME_MARK).collect());
        }
        if !CLOSED.contains(&(name, field)) {
            let read = read_components(name, field);
            let last = read.last().map_or(3, |last| last + 1);
            let unread = (1..=last).filter(|component| !read.contains(component));
            return (field, unread.collect());
        }
    }
}

pub fn valid(random: &mut Random) -> Vec<u8> {
    Draft::new(random).to_bytes()
}

/// A message as the writer writes it.
fn written(random: &mut Random) -> Vec<u8> {
    to_message(&sheets::valid(random), MESSAGE_LIMIT).unwrap_or_default()
}

fn with_fault_in_place(random: &mut Random, place: &Place, fault: &FaultInPlace) -> Vec<u8> {
    let mut draft = Draft::new(random);
    let at = some_such(random, &draft, place);
    fault(random, &mut draft, at);
    draft.to_bytes()
}

fn with_faults(random: &mut Random, faults: &[Fault]) -> Vec<u8> {
    let mut draft = Draft::new(random);
    for fault in faults {
        fault(random, &mut draft);
    }
    draft.to_bytes()
}

/// Two faults in one message: the earlier one is to be reported.
fn two_faults(random: &mut Random) -> Vec<u8> {
    let mut turns = [(); 2].map(|()| random.below(FAULTS.len()));
    turns.sort_unstable();
    with_faults(random, &turns.map(|turn| FAULTS[turn]))
}

fn faults_and_damage(random: &mut Random) -> Vec<u8> {
    let mut message = two_faults(random);
    damage(random, &mut message, b'\r');
    message
}

fn damaged(random: &mut Random) -> Vec<u8> {
    let mut message = valid(random);
    damage(random, &mut message, b'\r');
    message
}

fn shifts_damaged(random: &mut Random) -> Vec<u8> {
    let mut message = valid(random);
    damage_shifts(random, &mut message);
    message
}

/// Strikes one of the first nine bytes, or makes two delimiters the same.
fn header_damaged(random: &mut Random) -> Vec<u8> {
    let mut message = valid(random);
    let (at, other) = (random.below(9), random.within(3..=7));
    message[at] = match random.below(3) {
        0 => message[other],
        1 => random.pick(ADMITTED),
        _ => random.below(256) as u8,
    };
    message
}

/// Without the final 0D, or with an empty segment.
fn unended(random: &mut Random) -> Vec<u8> {
    let mut message = valid(random);
    match random.below(3) {
        0 => drop(message.pop()),
        1 => message.push(b'\r'),
        _ => message.extend(b"ZZZ|"),
    }
    message
}

/// The beginning of a message: nothing, a part of the header, some segments.
fn fragment(random: &mut Random) -> Vec<u8> {
    let mut draft = Draft::new(random);
    match random.below(4) {
        0 => Vec::new(),
        1 => draft.to_bytes()[..random.within(1..=9)].to_vec(),
        2 => [&draft.to_bytes()[..9], b"\r"].concat(),
        _ => {
            draft.segments.truncate(random.within(1..=8));
            draft.to_bytes()
        }
    }
}

/// Meets the limits of message, segment and segment count from both sides.
fn at_limit(round: usize, random: &mut Random) -> Vec<u8> {
    let past = round % 2;
    match round / 2 % 5 {
        0 => filled_up(random, MESSAGE_LIMIT + past),
        1 => full_of_results(random, MESSAGE_LIMIT + past),
        2 => with_longest_segment(random, SEGMENT_LIMIT + past),
        3 => with_skipped_segments(random, 512 + past),
        _ => with_many_results(random, 512 + past),
    }
}

/// A small message, filled up to just so many bytes by skipped segments.
fn filled_up(random: &mut Random, length: usize) -> Vec<u8> {
    let draft = Draft::new(random);
    fill_up(random, &draft, length)
}

/// As many results as go into so many bytes. Without OBX-1 and other unread content the message
/// is often shorter than what the writer would make of its sheet.
fn full_of_results(random: &mut Random, length: usize) -> Vec<u8> {
    let mut draft = Draft::opened(random);
    draft.filled_once_in = 0;
    draft.add_specimen(random);
    draft.add_order(random);
    let mut bytes = draft.to_bytes().len();
    while bytes + SHORTEST_SEGMENT <= length {
        draft.add_result(random);
        bytes += draft.segment_bytes(draft.segments.len() - 1).len() + 1;
    }
    draft.segments.pop();
    fill_up(random, &draft, length)
}

fn fill_up(random: &mut Random, draft: &Draft, length: usize) -> Vec<u8> {
    let mut message = draft.to_bytes();
    while message.len() < length {
        let left = length - message.len();
        let ended = if left <= SEGMENT_LIMIT + 1 {
            left
        } else {
            random.within(SHORTEST_SEGMENT..=(SEGMENT_LIMIT + 1).min(left - SHORTEST_SEGMENT))
        };
        message.extend(skipped_segment(random, draft, ended - 1));
    }
    message
}

/// A message with a known or skipped segment of just so many bytes, its 0D not counted.
fn with_longest_segment(random: &mut Random, length: usize) -> Vec<u8> {
    let mut draft = Draft::new(random);
    if random.one_in(2) {
        let skipped = skipped_segment(random, &draft, length);
        return [draft.to_bytes(), skipped].concat();
    }
    let at = random.below(draft.segments.len());
    let present = draft.segment_bytes(at).len() + 1;
    let last = filling(random, &draft, length.saturating_sub(present));
    draft.segments[at].push(last);
    draft.to_bytes()
}

/// A message of just so many segments, most of them skipped.
fn with_skipped_segments(random: &mut Random, count: usize) -> Vec<u8> {
    let mut draft = Draft::new(random);
    while draft.segments.len() < count {
        let at = random.within(1..=draft.segments.len());
        draft.segments.insert(at, vec![b"ZZZ".to_vec()]);
    }
    draft.to_bytes()
}

/// A message of just so many segments, most of them small results.
fn with_many_results(random: &mut Random, count: usize) -> Vec<u8> {
    let mut draft = Draft::opened(random);
    draft.add_specimen(random);
    draft.add_order(random);
    while draft.segments.len() < count {
        let item = words::code(random, 17);
        let observed = [&item, b"" as &[u8], b"JC10"].join(&draft.delimiters.component);
        let value = words::number(random);
        let fields: [&[u8]; 12] = [
            b"OBX", b"", b"NM", &observed, b"", &value, b"", b"", b"", b"", b"", b"F",
        ];
        draft.segments.push(fields.map(<[u8]>::to_vec).to_vec());
    }
    draft.to_bytes()
}

/// `ZZZ` and content of just so many bytes in all, and a 0D.
fn skipped_segment(random: &mut Random, draft: &Draft, length: usize) -> Vec<u8> {
    let mut segment = b"ZZZ".to_vec();
    if length > 3 {
        segment.push(draft.delimiters.field);
        segment.extend(filling(random, draft, length - 4));
    }
    segment.push(b'\r');
    segment
}

/// Just so many bytes without a field separator in one-byte mode.
fn filling(random: &mut Random, draft: &Draft, length: usize) -> Vec<u8> {
    let mut filling = Vec::new();
    while filling.len() < length {
        if length - filling.len() >= 20 && random.one_in(10) {
            filling.extend(words::kanji(random, 7));
        } else {
            let letter = words::letter(random);
            let separator = letter == draft.delimiters.field;
            filling.push(if separator { b' ' } else { letter });
        }
    }
    filling
}

/// A segment of the draft that has this name; a draft always holds one of each.
fn some_named(random: &mut Random, draft: &Draft, name: SegmentName) -> usize {
    random.pick(&draft.named(name))
}

/// A read place in such a segment.
fn some_such(random: &mut Random, draft: &Draft, place: &Place) -> At {
    let segment = some_named(random, draft, place.segment);
    (segment, place.field, place.component)
}

fn spoil_some_place(random: &mut Random, draft: &mut Draft) {
    let place = random.pick(&places());
    let at = some_such(random, draft, place);
    random.pick(FAULTS_IN_PLACES)(random, draft, at);
}

/// Aims at 20.
fn empty(random: &mut Random, draft: &mut Draft, (segment, field, component): At) {
    if random.one_in(2) {
        draft.set_component(segment, field, component, b"");
    } else {
        draft.field_mut(segment, field).clear();
    }
}

/// Aims at 21.
fn quotes(_: &mut Random, draft: &mut Draft, (segment, field, component): At) {
    draft.set_component(segment, field, component, b"\"\"");
}

/// Aims at 22: a repetition separator anywhere in a read field.
fn repeat(random: &mut Random, draft: &mut Draft, (segment, field, _): At) {
    let repetition = draft.delimiters.repetition;
    let field = draft.field_mut(segment, field);
    match random.below(3) {
        0 => field.push(repetition),
        1 => field.insert(0, repetition),
        _ => {
            let once = field.clone();
            *field = [once.as_slice(), &once].join(&repetition);
        }
    }
}

/// Aims at 23, but good escapes come too.
fn spoil_escape(random: &mut Random, draft: &mut Draft, (segment, field, component): At) {
    let value = draft.component(segment, field, component);
    let escape = draft.some_escape(random);
    let spoilt = match random.below(3) {
        0 => escape,
        1 => [value, escape].concat(),
        _ => [escape, value].concat(),
    };
    draft.set_component(segment, field, component, &spoilt);
}

/// Aims at 23: a subcomponent separator.
fn divide(_: &mut Random, draft: &mut Draft, (segment, field, component): At) {
    let value = draft.component(segment, field, component);
    let divided = [value, Vec::new()].join(&draft.delimiters.subcomponent);
    draft.set_component(segment, field, component, &divided);
}

/// Aims at 23: a component too many in OBX-5, even an empty one.
fn excess_component(random: &mut Random, draft: &mut Draft) {
    let segment = some_named(random, draft, SegmentName::Obx);
    let excess = if draft.component(segment, VALUE_TYPE.field, 1) == b"SN" {
        random.within(4..=6)
    } else {
        random.within(2..=3)
    };
    let content = random.pick(&["", "1", "x", "\"\""]);
    draft.set_component(segment, NUMBER.field, excess, content.as_bytes());
}

/// Aims at 24: a text as long as may be, or by a byte longer, before it is escaped. ST has a fault
/// of its own.
fn lengthen_text(random: &mut Random, draft: &mut Draft) {
    let texts: Vec<(&Place, usize)> = READ
        .iter()
        .filter(|place| place.value_type.is_none())
        .filter_map(|place| Some((place, place.rule.limit()?)))
        .collect();
    let (place, limit) = random.pick(&texts);
    let (segment, field, component) = some_such(random, draft, place);
    let length = limit + random.below(2);
    let text = words::text_of(random, length);
    let text = draft.escaped(&text);
    draft.set_component(segment, field, component, &text);
}

/// Aims at 24 in ST.
fn lengthen_string(random: &mut Random, draft: &mut Draft) {
    let length = 200 + random.below(2);
    let text = if random.one_in(3) {
        vec![draft.delimiters.field; length]
    } else {
        words::text_of(random, length)
    };
    let text = draft.escaped(&text);
    set_value(random, draft, "ST", text);
}

/// Aims at 24 in NM and in the numbers of SN.
fn lengthen_number(random: &mut Random, draft: &mut Draft) {
    let length = 16 + random.below(2);
    let number = words::number_of(random, length);
    let component = draft.delimiters.component;
    match random.below(3) {
        0 => set_value(random, draft, "NM", number),
        1 => {
            let value = [b"" as &[u8], &number].join(&component);
            set_value(random, draft, "SN", value);
        }
        _ => {
            let joiner = random.pick(&["-", ":", ""]);
            let value = [b"" as &[u8], b"1", joiner.as_bytes(), &number].join(&component);
            set_value(random, draft, "SN", value);
        }
    }
}

fn set_value(random: &mut Random, draft: &mut Draft, value_type: &str, value: Vec<u8>) {
    let segment = some_named(random, draft, SegmentName::Obx);
    set_outcome(draft, segment, value_type, value, "F");
}

/// Aims at 25: a value that belongs elsewhere.
fn misvalue(random: &mut Random, draft: &mut Draft, (segment, field, component): At) {
    let value = words::nearly(random);
    let value = draft.escaped(&value);
    draft.set_component(segment, field, component, &value);
}

/// Aims at 25: one byte of a value changed, taken out or put in.
fn misspell(random: &mut Random, draft: &mut Draft, (segment, field, component): At) {
    let mut value = draft.component(segment, field, component);
    let at = random.within(0..=value.len());
    let letter = random.pick(b" 0123456789ABCXabcx.+-<>=_\"");
    match random.below(3) {
        0 if at < value.len() => value[at] = letter,
        1 if at < value.len() => drop(value.remove(at)),
        _ => value.insert(at, letter),
    }
    draft.set_component(segment, field, component, &value);
}

/// Aims at 25 in MSH-18.
fn spoil_character_set(random: &mut Random, draft: &mut Draft) {
    let d = draft.delimiters;
    let other = [d.component, d.repetition, d.escape, d.subcomponent, b' '];
    let (first, last) = (random.pick(&other), random.pick(&other));
    let name: &[u8] = b"ISO IR87";
    let spoilt = match random.below(6) {
        0 => Vec::new(),
        1 => name.to_vec(),
        2 => [&[d.repetition], name, &[last]].concat(),
        3 => [&[first], name].concat(),
        4 => b"\"\"".to_vec(),
        _ => return draft.segments[0].truncate(CHARACTER_SET.field),
    };
    *draft.field_mut(0, CHARACTER_SET.field) = spoilt;
}

/// PID-5 with names in any order, some of them without a mark or with a bad name.
fn spoil_names(random: &mut Random, draft: &mut Draft) {
    let marks = ["I", "I", "P", "P", "A", "", "i", "\"\"", "II"];
    let mut names = Vec::new();
    for _ in 0..random.within(1..=4) {
        let mark = random.pick(&marks).as_bytes();
        let mut name = match random.below(4) {
            0 => draft.name(random, mark, 0..=0),
            1 => draft.name(random, mark, 48..=49),
            _ => draft.name(random, mark, 1..=20),
        };
        if random.one_in(4) {
            name = [draft.some_escape(random), name].concat();
        }
        if random.one_in(8) {
            name.push(draft.delimiters.subcomponent);
        }
        names.push(name);
    }
    let segment = some_named(random, draft, SegmentName::Pid);
    *draft.field_mut(segment, FAMILY.field) = names.join(&draft.delimiters.repetition);
}

/// Aims at 20, 23, 25 and 26 in OBX-5 and OBX-11.
fn mismatch_outcome(random: &mut Random, draft: &mut Draft) {
    let outcome = words::odd_outcome(random);
    let segment = some_named(random, draft, SegmentName::Obx);
    let value = draft.value(random, &outcome);
    set_outcome(draft, segment, outcome.value_type, value, outcome.status);
}

/// OBX-2, OBX-5 and OBX-11.
fn set_outcome(draft: &mut Draft, segment: usize, value_type: &str, value: Vec<u8>, status: &str) {
    draft.set_component(segment, VALUE_TYPE.field, 1, value_type.as_bytes());
    *draft.field_mut(segment, NUMBER.field) = value;
    draft.set_component(segment, STATUS.field, 1, status.as_bytes());
}

/// Aims at 26: the status changed, the value left.
fn spoil_status(random: &mut Random, draft: &mut Draft) {
    let segment = some_named(random, draft, SegmentName::Obx);
    let status = random.pick(&["F", "P", "C", "I", "X"]);
    draft.set_component(segment, STATUS.field, 1, status.as_bytes());
}

/// Aims at 27: another good number in OBR or ORC.
fn spoil_order_number(random: &mut Random, draft: &mut Draft) {
    let place = random.pick(&[ORDER_NUMBER, ORDER_NUMBER_AGAIN]);
    let (segment, field, component) = some_such(random, draft, &place);
    let number = words::digits(random, 15);
    draft.set_component(segment, field, component, &number);
}

/// Aims at 15: segments taken out, doubled or swapped.
fn disorder_segments(random: &mut Random, draft: &mut Draft) {
    let at = random.within(1..=draft.segments.len() - 1);
    let other = random.within(1..=draft.segments.len() - 1);
    match random.below(4) {
        0 => drop(draft.segments.remove(at)),
        1 => draft.segments.insert(at, draft.segments[other].clone()),
        2 => draft.segments.swap(at, other),
        _ => {
            let name = random.pick(&SegmentName::ALL).text();
            draft.segments.insert(at, vec![name.into()]);
        }
    }
}

/// Aims at 13, and at 15 where the name stays good.
fn spoil_segment_name(random: &mut Random, draft: &mut Draft) {
    let at = random.within(1..=draft.segments.len() - 1);
    let names = [
        "obx", "OB", "OBXX", "", "1BX", "O_X", "ZZz", "OBX ", "ZZZ^", "Z9", "Z99", "ZZZ",
    ];
    draft.segments[at][0] = words::word(random, &names);
}
