//! A message in the making: its segments field by field, with unread content around the read
//! places.

use super::random::Random;
use super::words::{self, Outcome};
use crate::delimiters::{Delimiters, ADMITTED};
use crate::parts;
use crate::places::{self, Place};
use crate::shift::{TO_ONE_BYTE, TO_TWO_BYTE};
use crate::SegmentName;
use std::collections::BTreeMap;
use std::ops::RangeInclusive;

/// A segment: field n stands at n, the name at 0.
pub type Segment = Vec<Vec<u8>>;

/// Fields by their numbers.
type Fields = BTreeMap<usize, Vec<u8>>;

pub struct Draft {
    pub delimiters: Delimiters,
    pub segments: Vec<Segment>,
    /// Unread places are filled once in so many times; never for 0.
    pub filled_once_in: usize,
}

impl Draft {
    /// A small message that keeps every rule.
    pub fn new(random: &mut Random) -> Self {
        let mut draft = Self::opened(random);
        for _ in 0..random.pick(&[1, 1, 2, 3]) {
            draft.add_specimen(random);
            for _ in 0..random.pick(&[1, 1, 2]) {
                draft.add_order(random);
                for _ in 0..random.within(1..=3) {
                    draft.add_result(random);
                }
            }
        }
        if draft.filled_once_in > 0 {
            draft.insert_skipped_segments(random);
        }
        draft
    }

    /// MSH, PID and PV1.
    pub fn opened(random: &mut Random) -> Self {
        let mut draft = Self {
            delimiters: some_delimiters(random),
            segments: Vec::new(),
            filled_once_in: random.pick(&[0, 0, 2, 5, 12]),
        };
        draft.add_header(random);
        draft.add_patient(random);
        draft.add_visit(random);
        draft
    }

    pub fn to_bytes(&self) -> Vec<u8> {
        let mut bytes = Vec::new();
        for at in 0..self.segments.len() {
            bytes.extend(self.segment_bytes(at));
            bytes.push(b'\r');
        }
        bytes
    }

    /// A segment without its 0D. In the first one MSH-1 is the separator itself, and MSH-2
    /// follows it at once.
    pub fn segment_bytes(&self, at: usize) -> Vec<u8> {
        let segment = &self.segments[at];
        let separator = self.delimiters.field;
        if at > 0 {
            return segment.join(&separator);
        }
        let (header, fields) = segment.split_at(3);
        [&[header.concat()], fields].concat().join(&separator)
    }

    fn add_header(&mut self, random: &mut Random) {
        let d = self.delimiters;
        let sent = words::time(random);
        let control = words::text(random, 1..=20);
        let mode = words::word(random, words::MODES);
        let mut read = self.fields(
            random,
            &[
                (places::SENT, &sent),
                (places::MESSAGE_CODE, b"OUL"),
                (places::MESSAGE_EVENT, b"R22"),
                (places::MESSAGE_STRUCTURE, b"OUL_R22"),
                (places::CONTROL, &control),
                (places::MODE, &mode),
                (places::HL7_VERSION, b"2.5"),
            ],
        );
        let character_set = [&[d.repetition], b"ISO IR87" as &[u8]].concat();
        read.extend([
            (1, vec![d.field]),
            (2, vec![d.component, d.repetition, d.escape, d.subcomponent]),
            (places::CHARACTER_SET.field, character_set),
        ]);
        self.add_segment(random, SegmentName::Msh, read);
    }

    fn add_patient(&mut self, random: &mut Random) {
        let number = words::text(random, 1..=20);
        let birth = if random.one_in(3) {
            Vec::new()
        } else {
            words::date(random)
        };
        let sex = words::word(random, words::SEXES);
        let mut read = self.fields(
            random,
            &[
                (places::PATIENT, &number),
                (places::BIRTH, &birth),
                (places::SEX, &sex),
            ],
        );
        read.insert(places::FAMILY.field, self.names(random));
        self.add_segment(random, SegmentName::Pid, read);
    }

    /// PID-5: a kanji name, perhaps a kana name, and repetitions that are neither, in any order.
    fn names(&self, random: &mut Random) -> Vec<u8> {
        let mut names = vec![self.name(random, b"I", 1..=48)];
        if random.one_in(2) {
            let at = random.within(0..=1);
            names.insert(at, self.name(random, b"P", 1..=48));
        }
        if random.one_in(self.filled_once_in) {
            let at = random.within(0..=names.len());
            let mark = random.pick(&["A", "", "i", "I I", "\"\"", "PI"]);
            names.insert(at, self.name(random, mark.as_bytes(), 0..=60));
        }
        if random.one_in(self.filled_once_in) {
            names.push(self.name(random, b"I", 0..=60));
            names.push(self.name(random, b"A", 0..=60));
        }
        names.join(&self.delimiters.repetition)
    }

    /// A repetition of PID-5 with this mark.
    pub fn name(&self, random: &mut Random, mark: &[u8], family: RangeInclusive<usize>) -> Vec<u8> {
        let family = words::text(random, family);
        let given = words::text(random, 0..=48);
        let components = [
            (places::FAMILY.component, &family[..]),
            (places::GIVEN.component, &given),
            (places::NAME_MARK, mark),
        ];
        self.field(random, &components)
    }

    fn add_visit(&mut self, random: &mut Random) {
        let class = words::word(random, words::CLASSES);
        let read = self.fields(random, &[(places::CLASS, &class)]);
        self.add_segment(random, SegmentName::Pv1, read);
    }

    pub fn add_specimen(&mut self, random: &mut Random) {
        let code = words::digits(random, 3);
        let collected = words::time(random);
        let read = self.fields(
            random,
            &[
                (places::SPECIMEN, &code),
                (places::SPECIMEN_TABLE, b"JC10"),
                (places::COLLECTED, &collected),
            ],
        );
        self.add_segment(random, SegmentName::Spm, read);
    }

    /// OBR and ORC.
    pub fn add_order(&mut self, random: &mut Random) {
        let number = words::digits(random, 15);
        let group = words::code(random, 8);
        let read = self.fields(
            random,
            &[
                (places::ORDER_NUMBER, &number),
                (places::GROUP, &group),
                (places::GROUP_TABLE, b"99003"),
            ],
        );
        self.add_segment(random, SegmentName::Obr, read);
        let again = self.fields(
            random,
            &[
                (places::ORDER_CONTROL, b"RE"),
                (places::ORDER_NUMBER_AGAIN, &number),
            ],
        );
        self.add_segment(random, SegmentName::Orc, again);
    }

    pub fn add_result(&mut self, random: &mut Random) {
        let outcome = words::outcome(random);
        let item = words::code(random, 17);
        let name = words::text(random, 0..=48);
        let unit = words::text(random, 0..=20);
        let flag = words::word(random, words::FLAGS);
        let mut read = self.fields(
            random,
            &[
                (places::VALUE_TYPE, outcome.value_type.as_bytes()),
                (places::ITEM, &item),
                (places::ITEM_NAME, &name),
                (places::ITEM_TABLE, b"JC10"),
                (places::UNIT, &unit),
                (places::FLAG, &flag),
                (places::STATUS, outcome.status.as_bytes()),
            ],
        );
        read.insert(places::NUMBER.field, self.value(random, &outcome));
        self.add_segment(random, SegmentName::Obx, read);
    }

    /// OBX-5 as one component, or for SN as four, of which empty ones at the end may be left out.
    pub fn value(&self, random: &mut Random, outcome: &Outcome) -> Vec<u8> {
        if outcome.value_type != "SN" {
            return self.escaped(&outcome.parts[1]);
        }
        let filled = outcome.parts.iter().rposition(|part| !part.is_empty());
        let least = filled.map_or(0, |last| last + 1);
        let written = random.within(least..=4);
        let parts: Vec<Vec<u8>> = outcome.parts[..written]
            .iter()
            .map(|part| self.escaped(part))
            .collect();
        parts.join(&self.delimiters.component)
    }

    fn add_segment(&mut self, random: &mut Random, name: SegmentName, read: Fields) {
        let mut segment = vec![name.text().into()];
        for (number, field) in read {
            while segment.len() < number {
                segment.push(self.unread_field(random));
            }
            segment.push(field);
        }
        for _ in 0..random.pick(&[0, 0, 0, 1, 4]) {
            segment.push(self.unread_field(random));
        }
        self.segments.push(segment);
    }

    /// The fields of these places with their plain values, by rising number.
    fn fields(&self, random: &mut Random, values: &[(Place, &[u8])]) -> Fields {
        let of_one_field = values.chunk_by(|(one, _), (other, _)| one.field == other.field);
        of_one_field
            .map(|values| {
                let components: Vec<(usize, &[u8])> = values
                    .iter()
                    .map(|(place, plain)| (place.component, *plain))
                    .collect();
                (values[0].0.field, self.field(random, &components))
            })
            .collect()
    }

    /// A field of these components (number and plain value, by rising number), with unread ones
    /// between and behind them.
    fn field(&self, random: &mut Random, read: &[(usize, &[u8])]) -> Vec<u8> {
        let mut components = Vec::new();
        for &(number, plain) in read {
            while components.len() + 1 < number {
                components.push(self.unread_component(random));
            }
            components.push(self.escaped(plain));
        }
        while random.one_in(self.filled_once_in) {
            components.push(self.unread_component(random));
        }
        components.join(&self.delimiters.component)
    }

    pub fn escaped(&self, plain: &[u8]) -> Vec<u8> {
        let mut component = Vec::new();
        self.delimiters.escape_into(plain, &mut component);
        component
    }

    fn unread_field(&self, random: &mut Random) -> Vec<u8> {
        self.unread(random, &[self.delimiters.field])
    }

    fn unread_component(&self, random: &mut Random) -> Vec<u8> {
        let d = self.delimiters;
        self.unread(random, &[d.field, d.component, d.repetition])
    }

    /// Anything but the banned separators: escapes good and bad, `""`, subcomponents, kanji.
    fn unread(&self, random: &mut Random, banned: &[u8]) -> Vec<u8> {
        if !random.one_in(self.filled_once_in) {
            return Vec::new();
        }
        let mut content = Vec::new();
        for _ in 0..random.within(1..=12) {
            match random.below(12) {
                0 => content.extend(words::kanji(random, 2)),
                1 => content.extend(b"\"\""),
                2 => content.extend(self.some_escape(random)),
                3 => content.push(self.delimiters.subcomponent),
                4 => content.push(self.delimiters.repetition),
                5 => content.push(self.delimiters.component),
                _ => content.push(words::letter(random)),
            }
        }
        remove_unshifted(&content, banned)
    }

    /// An escape with any letter, good or bad, or with its end missing.
    pub fn some_escape(&self, random: &mut Random) -> Vec<u8> {
        let escape = self.delimiters.escape;
        let letter = match random.below(4) {
            0 => random.within(0x20..=0x7E) as u8,
            1 => random.pick(b"ABCDEFGHIJKLMNOPQRSTUVWXYZ"),
            2 => random.pick(b"fstreFSTRE"),
            _ => random.pick(b"FSTRE"),
        };
        match random.below(10) {
            0 => vec![escape],
            1 => vec![escape, letter],
            2 => [&[escape], words::kanji(random, 1).as_slice(), &[escape]].concat(),
            _ => vec![escape, letter, escape],
        }
    }

    /// Segments of other names may stand anywhere behind MSH.
    fn insert_skipped_segments(&mut self, random: &mut Random) {
        for _ in 0..random.below(4) {
            let at = random.within(1..=self.segments.len());
            self.segments.insert(at, self.skipped_segment(random));
        }
    }

    fn skipped_segment(&self, random: &mut Random) -> Segment {
        let names = [
            "ZZZ", "NTE", "SAC", "Z00", "A9Z", "OBY", "MSA", "PIE", "SPN",
        ];
        let mut segment = vec![words::word(random, &names)];
        for _ in 0..random.below(4) {
            segment.push(self.unread_field(random));
        }
        segment
    }

    /// The segments of a known name.
    pub fn named(&self, name: SegmentName) -> Vec<usize> {
        let named = |&at: &usize| self.segments[at][0] == name.text().as_bytes();
        (0..self.segments.len()).filter(named).collect()
    }

    /// The segments of all known names: the n-th has the ordinal n + 1.
    pub fn known(&self) -> Vec<(usize, SegmentName)> {
        (0..self.segments.len())
            .filter_map(|at| Some((at, SegmentName::of(&self.segments[at][0])?)))
            .collect()
    }

    /// A component that isn't read: letters, good escapes and kanji, and what looks like an escape
    /// among kanji or once it is unescaped; in some a bad escape or a subcomponent separator stands
    /// before, among or behind them.
    pub fn unread_text(&self, random: &mut Random) -> Vec<u8> {
        let d = self.delimiters;
        let mut pieces = Vec::new();
        for _ in 0..random.pick(&[0, 1, 2, 6, 40]) {
            let escape = [d.escape, random.pick(b"FSTRE"), d.escape];
            pieces.push(match random.below(8) {
                0 => escape.to_vec(),
                1 => self.escaped(&escape),
                2 => [&TO_TWO_BYTE, &escape[..], &[d.subcomponent], &TO_ONE_BYTE].concat(),
                3 => {
                    let pairs = random.below(4);
                    words::kanji(random, pairs)
                }
                _ => self.escaped(&[words::letter(random)]),
            });
        }
        let fault = match random.below(6) {
            0 => self.some_escape(random),
            1 => vec![d.escape],
            2 => vec![d.subcomponent],
            _ => Vec::new(),
        };
        let at = random.within(0..=pieces.len());
        pieces.insert(at, fault);
        remove_unshifted(&pieces.concat(), &[d.field, d.component, d.repetition])
    }

    /// A field of a segment, made if it is missing.
    pub fn field_mut(&mut self, segment: usize, field: usize) -> &mut Vec<u8> {
        let segment = &mut self.segments[segment];
        if segment.len() <= field {
            segment.resize(field + 1, Vec::new());
        }
        &mut segment[field]
    }

    pub fn component(&self, segment: usize, field: usize, component: usize) -> Vec<u8> {
        let field = self.segments[segment].get(field);
        field
            .and_then(|field| parts::split(field, self.delimiters.component).nth(component - 1))
            .unwrap_or_default()
            .to_vec()
    }

    /// Puts raw bytes in the place of a component.
    pub fn set_component(&mut self, segment: usize, field: usize, component: usize, raw: &[u8]) {
        let separator = self.delimiters.component;
        let field = self.field_mut(segment, field);
        let mut components: Vec<&[u8]> = parts::split(field, separator).collect();
        if components.len() < component {
            components.resize(component, b"");
        }
        components[component - 1] = raw;
        *field = components.join(&separator);
    }
}

fn some_delimiters(random: &mut Random) -> Delimiters {
    if random.one_in(2) {
        Delimiters::USUAL
    } else {
        Delimiters::in_order(random.pick_different(ADMITTED))
    }
}

/// The same bytes without those banned in one-byte mode.
fn remove_unshifted(bytes: &[u8], banned: &[u8]) -> Vec<u8> {
    banned.iter().fold(bytes.to_vec(), |left, &byte| {
        parts::split(&left, byte).collect::<Vec<_>>().concat()
    })
}
