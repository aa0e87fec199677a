//! Reading a message: first its form (refusals 10 to 15), then the places that the profile
//! reads (20 to 27).

use crate::delimiters::Delimiters;
use crate::parts::{self, Parts};
use crate::places::{self, Place};
use crate::refusal::{number, Refusal};
use crate::report::{
    Counts, Entry, Header, LabResult, Name, Order, Patient, Specimen, Value, ValueType, Visit,
};
use crate::rules::{self, Rule};
use crate::segments::{self, KnownSegment, SegmentName, SEGMENT_END};
use crate::shift::keeps_shift_rule;
use crate::MESSAGE_LIMIT;

/// A message whose bytes, header and segments are in order.
pub struct Message<'m> {
    pub bytes: &'m [u8],
    pub delimiters: Delimiters,
}

impl<'m> Message<'m> {
    /// Checks 10 to 15, in that order, each over the whole message.
    pub fn well_formed(bytes: &'m [u8]) -> Result<Self, Refusal> {
        if bytes.len() > MESSAGE_LIMIT {
            return Err(Refusal::of_whole(number::MESSAGE_TOO_LONG));
        }
        let delimiters = Delimiters::of_header(bytes).ok_or(Refusal::of_whole(number::HEADER))?;
        if !keeps_shift_rule(bytes, SEGMENT_END) {
            return Err(Refusal::of_whole(number::MESSAGE_BYTES));
        }
        segments::judge_segments(bytes, delimiters.field)?;
        Ok(Self { bytes, delimiters })
    }

    pub fn known_segments(&self) -> impl Iterator<Item = KnownSegment> + 'm {
        segments::known_segments(self.bytes)
    }

    /// Judges segments in order, and tells each entry of the report as soon as it is read.
    pub fn read(&self, mut tell: impl FnMut(Entry<'m>)) -> Result<Counts, Refusal> {
        let mut counts = Counts::default();
        let mut order_number: &[u8] = &[];
        for segment in self.known_segments() {
            let fields = &mut Fields::new(self, &segment);
            match segment.name {
                SegmentName::Msh => tell(Entry::Header(read_header(fields)?)),
                SegmentName::Pid => tell(Entry::Patient(read_patient(fields)?)),
                SegmentName::Pv1 => tell(Entry::Visit(read_visit(fields)?)),
                SegmentName::Spm => {
                    counts.specimens += 1;
                    tell(Entry::Specimen(read_specimen(fields)?));
                }
                SegmentName::Obr => {
                    counts.orders += 1;
                    let order = read_order(fields)?;
                    order_number = order.number;
                    tell(Entry::Order(order));
                }
                SegmentName::Orc => read_order_again(fields, order_number)?,
                SegmentName::Obx => {
                    counts.results += 1;
                    tell(Entry::Result(read_result(fields)?));
                }
            }
        }
        Ok(counts)
    }
}

fn read_header<'m>(fields: &mut Fields<'m>) -> Result<Header<'m>, Refusal> {
    let sent = fields.read(&places::SENT)?;
    let mut message_type = fields.single(&places::MESSAGE_CODE)?;
    message_type.read(&places::MESSAGE_CODE)?;
    message_type.read(&places::MESSAGE_EVENT)?;
    message_type.read(&places::MESSAGE_STRUCTURE)?;
    let control = fields.read(&places::CONTROL)?;
    let mode = fields.read(&places::MODE)?;
    fields.read(&places::HL7_VERSION)?;
    read_character_set(fields)?;
    Ok(Header {
        mode,
        sent,
        control,
    })
}

/// MSH-18 is compared raw: the repetition separator, then `ISO IR87`, nothing else. Whatever
/// breaks that gives 25, its absence too.
fn read_character_set(fields: &mut Fields) -> Result<(), Refusal> {
    let place = &places::CHARACTER_SET;
    let field = fields.whole(place);
    match field.raw.split_first() {
        Some((&first, name)) if first == field.delimiters.repetition && place.rule.holds(name) => {
            Ok(())
        }
        _ => Err(field.refuse(number::VALUE_RULE)),
    }
}

fn read_patient<'m>(fields: &mut Fields<'m>) -> Result<Patient<'m>, Refusal> {
    let number = fields.read(&places::PATIENT)?;
    let (kanji, kana) = read_names(&fields.whole(&places::FAMILY))?;
    let birth = fields.read(&places::BIRTH)?;
    let sex = fields.read(&places::SEX)?;
    Ok(Patient {
        number,
        kanji,
        kana,
        birth,
        sex,
    })
}

/// PID-5 holds the kanji name in the first repetition marked I and the kana name in the first
/// marked P; kanji is required and judged before kana.
fn read_names<'m>(field: &Field<'m>) -> Result<(Name<'m>, Name<'m>), Refusal> {
    let marked = |mark: &[u8]| {
        let mut names = field.repetitions();
        names.find(|name| name.component(places::NAME_MARK) == mark)
    };
    let kanji = match marked(b"I") {
        Some(mut name) => read_name(&mut name)?,
        None => return Err(field.refuse(number::REQUIRED_EMPTY)),
    };
    let kana = match marked(b"P") {
        Some(mut name) => read_name(&mut name)?,
        None => Name::default(),
    };
    Ok((kanji, kana))
}

fn read_name<'m>(name: &mut Field<'m>) -> Result<Name<'m>, Refusal> {
    Ok(Name {
        family: name.read(&places::FAMILY)?,
        given: name.read(&places::GIVEN)?,
    })
}

fn read_visit<'m>(fields: &mut Fields<'m>) -> Result<Visit<'m>, Refusal> {
    Ok(Visit {
        class: fields.read(&places::CLASS)?,
    })
}

fn read_specimen<'m>(fields: &mut Fields<'m>) -> Result<Specimen<'m>, Refusal> {
    let mut specimen = fields.single(&places::SPECIMEN)?;
    let code = specimen.read(&places::SPECIMEN)?;
    specimen.read(&places::SPECIMEN_TABLE)?;
    let collected = fields.read(&places::COLLECTED)?;
    Ok(Specimen { code, collected })
}

fn read_order<'m>(fields: &mut Fields<'m>) -> Result<Order<'m>, Refusal> {
    let number = fields.read(&places::ORDER_NUMBER)?;
    let mut service = fields.single(&places::GROUP)?;
    let group = service.read(&places::GROUP)?;
    service.read(&places::GROUP_TABLE)?;
    Ok(Order { number, group })
}

/// ORC repeats the order: its number is judged by itself, then against the last OBR-2.
fn read_order_again(fields: &mut Fields, order_number: &[u8]) -> Result<(), Refusal> {
    fields.read(&places::ORDER_CONTROL)?;
    let mut field = fields.single(&places::ORDER_NUMBER_AGAIN)?;
    if field.read(&places::ORDER_NUMBER_AGAIN)? != order_number {
        return Err(field.refuse(number::ORDER_NUMBERS_DIFFER));
    }
    Ok(())
}

fn read_result<'m>(fields: &mut Fields<'m>) -> Result<LabResult<'m>, Refusal> {
    let value_type = ValueType::of_code(fields.read(&places::VALUE_TYPE)?);
    let mut observed = fields.single(&places::ITEM)?;
    let item = observed.read(&places::ITEM)?;
    let name = observed.read(&places::ITEM_NAME)?;
    observed.read(&places::ITEM_TABLE)?;
    let value = read_value(&mut fields.single(&places::NUMBER)?, value_type)?;
    let unit = fields.read(&places::UNIT)?;
    let flag = fields.read(&places::FLAG)?;
    let mut last = fields.single(&places::STATUS)?;
    let result = LabResult {
        item,
        name,
        value_type,
        value,
        unit,
        flag,
        status: last.read(&places::STATUS)?,
    };
    if !result.value_fits_status() {
        return Err(last.refuse(number::VALUE_AGAINST_STATUS));
    }
    Ok(result)
}

/// OBX-5. An empty value passes here: only its status can refuse it.
fn read_value<'m>(field: &mut Field<'m>, value_type: ValueType) -> Result<Value<'m>, Refusal> {
    let place = match value_type {
        ValueType::Structured => return read_structured_value(field),
        ValueType::Number => &places::NUMBER,
        ValueType::Text => &places::STRING,
    };
    field.refuse_components_past(1)?;
    Ok(Value::single(field.read(place)?))
}

/// SN: comparator, first number, joiner, second number. The first number may be empty only if
/// all four parts are; a second number needs a joiner.
fn read_structured_value<'m>(field: &mut Field<'m>) -> Result<Value<'m>, Refusal> {
    const NUMBER_BESIDE_A_PART: Place = places::FIRST_NUMBER.or_refused_when_empty();
    field.refuse_components_past(4)?;
    let separator = field.delimiters.component;
    let filled = field.raw.iter().any(|&byte| byte != separator);
    let first_number = if filled {
        &NUMBER_BESIDE_A_PART
    } else {
        &places::FIRST_NUMBER
    };
    let value = Value {
        compare: field.read(&places::COMPARATOR)?,
        main: field.read(first_number)?,
        join: field.read(&places::JOINER)?,
        second: field.read(&places::SECOND_NUMBER)?,
    };
    if value.lacks_joiner() {
        return Err(field.refuse(number::VALUE_RULE));
    }
    Ok(value)
}

/// Walks the fields of a segment by rising number.
struct Fields<'m> {
    parts: Parts<'m>,
    delimiters: Delimiters,
    segment: usize,
}

impl<'m> Fields<'m> {
    fn new(message: &Message<'m>, segment: &KnownSegment) -> Self {
        let stretch = &message.bytes[segment.fields.clone()];
        let separator = message.delimiters.field;
        Self {
            parts: Parts::counted_from(segment.first_field, stretch, separator),
            delimiters: message.delimiters,
            segment: segment.ordinal,
        }
    }

    /// The field of a place with all its repetitions: MSH-18 and PID-5.
    fn whole(&mut self, place: &Place) -> Field<'m> {
        let raw = self.parts.take(place.field);
        self.field(raw, place.field)
    }

    /// The field of any other place: it may not be repeated.
    fn single(&mut self, place: &Place) -> Result<Field<'m>, Refusal> {
        let number = place.field;
        let repetition = self.delimiters.repetition;
        match self.parts.take_without(number, repetition) {
            Some(raw) => Ok(self.field(raw, number)),
            None => Err(Refusal::at_field(number::REPETITION, self.segment, number)),
        }
    }

    fn field(&self, raw: &'m [u8], number: usize) -> Field<'m> {
        Field::new(raw, self.delimiters, self.segment, number)
    }

    /// The one read place of a field.
    fn read(&mut self, place: &Place) -> Result<&'m [u8], Refusal> {
        self.single(place)?.read(place)
    }
}

/// A field, or one repetition of it, with a walk over its components.
struct Field<'m> {
    raw: &'m [u8],
    components: Parts<'m>,
    delimiters: Delimiters,
    segment: usize,
    number: usize,
}

impl<'m> Field<'m> {
    fn new(raw: &'m [u8], delimiters: Delimiters, segment: usize, number: usize) -> Self {
        Self {
            raw,
            components: Parts::new(raw, delimiters.component),
            delimiters,
            segment,
            number,
        }
    }

    fn refuse(&self, number: u8) -> Refusal {
        Refusal::at_field(number, self.segment, self.number)
    }

    fn repetitions(&self) -> impl Iterator<Item = Self> + use<'_, 'm> {
        parts::split(self.raw, self.delimiters.repetition)
            .map(|raw| Self::new(raw, self.delimiters, self.segment, self.number))
    }

    /// A component as it stands, not judged.
    fn component(&self, number: usize) -> &'m [u8] {
        Parts::new(self.raw, self.delimiters.component).take(number)
    }

    /// OBX-5 admits no component too many, not even an empty one.
    fn refuse_components_past(&self, most: usize) -> Result<(), Refusal> {
        let count = parts::split(self.raw, self.delimiters.component).count();
        if count > most {
            return Err(self.refuse(number::COMPONENT_FORM));
        }
        Ok(())
    }

    /// The next read component, judged by its rule.
    fn read(&mut self, place: &Place) -> Result<&'m [u8], Refusal> {
        let raw = self.components.take(place.component);
        match judge_component(raw, &place.rule, &self.delimiters) {
            Ok(()) => Ok(raw),
            Err(number) => Err(self.refuse(number)),
        }
    }
}

/// A read component's faults in their order: 21, 23, 20, 24, 25.
fn judge_component(raw: &[u8], rule: &Rule, delimiters: &Delimiters) -> Result<(), u8> {
    if raw == rules::DOUBLE_QUOTES {
        return Err(number::DOUBLE_QUOTES);
    }
    let length = delimiters.plain_length(raw).ok_or(number::COMPONENT_FORM)?;
    if length == 0 {
        return if rule.is_required() {
            Err(number::REQUIRED_EMPTY)
        } else {
            Ok(())
        };
    }
    if rule.is_too_long(length) {
        return Err(number::VALUE_TOO_LONG);
    }
    if !rule.holds(raw) {
        return Err(number::VALUE_RULE);
    }
    Ok(())
}
