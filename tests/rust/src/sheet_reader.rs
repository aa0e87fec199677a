//! Reading a sheet: its bytes (refusals 40 and 41), then its lines in order (42 and 43).

use crate::places;
use crate::refusal::{number, Refusal};
use crate::report::{
    Entry, Header, LabResult, Name, Order, Patient, Specimen, Value, ValueType, Visit,
};
use crate::rules::{optional, required, Form::OneOf, Rule};
use crate::shift::keeps_shift_rule;
use crate::SHEET_LIMIT;

/// The byte that ends a line.
const LINE_END: u8 = 0x0A;

// The rules of the lines that are no read place, or not always.
const VERSION: Rule = required(OneOf(&["1"]));
const KANA_FAMILY: Rule = places::FAMILY.rule.or_empty();
const BLANK: Rule = optional(OneOf(&[]));

/// Judges a sheet's lines in order, and tells each entry of the report as soon as it is read.
pub fn read_sheet<'s>(sheet: &'s [u8], mut tell: impl FnMut(Entry<'s>)) -> Result<(), Refusal> {
    let lines = &mut Lines::well_formed(sheet)?;
    tell(Entry::Header(read_header(lines)?));
    tell(Entry::Patient(read_patient(lines)?));
    tell(Entry::Visit(read_visit(lines)?));
    loop {
        tell(Entry::Specimen(read_specimen(lines)?));
        loop {
            tell(Entry::Order(read_order(lines)?));
            loop {
                tell(Entry::Result(read_result(lines)?));
                if !lines.next_is("item") {
                    break;
                }
            }
            if !lines.next_is("order") {
                break;
            }
        }
        if lines.at_end() {
            return Ok(());
        }
    }
}

/// Judges a sheet: refusals 40 to 43.
pub fn judge_sheet(sheet: &[u8]) -> Result<(), Refusal> {
    read_sheet(sheet, |_| ())
}

fn read_header<'s>(lines: &mut Lines<'s>) -> Result<Header<'s>, Refusal> {
    lines.read("version", &VERSION)?;
    Ok(Header {
        mode: lines.read("mode", &places::MODE.rule)?,
        sent: lines.read("sent", &places::SENT.rule)?,
        control: lines.read("control", &places::CONTROL.rule)?,
    })
}

fn read_patient<'s>(lines: &mut Lines<'s>) -> Result<Patient<'s>, Refusal> {
    Ok(Patient {
        number: lines.read("patient", &places::PATIENT.rule)?,
        kanji: Name {
            family: lines.read("family", &places::FAMILY.rule)?,
            given: lines.read("given", &places::GIVEN.rule)?,
        },
        kana: read_kana_name(lines)?,
        birth: lines.read("birth", &places::BIRTH.rule)?,
        sex: lines.read("sex", &places::SEX.rule)?,
    })
}

/// A blank kanafamily needs a blank kanagiven.
fn read_kana_name<'s>(lines: &mut Lines<'s>) -> Result<Name<'s>, Refusal> {
    let family = lines.read("kanafamily", &KANA_FAMILY)?;
    let given_rule = match family {
        b"" => &BLANK,
        _ => &places::GIVEN.rule,
    };
    let given = lines.read("kanagiven", given_rule)?;
    Ok(Name { family, given })
}

fn read_visit<'s>(lines: &mut Lines<'s>) -> Result<Visit<'s>, Refusal> {
    Ok(Visit {
        class: lines.read("class", &places::CLASS.rule)?,
    })
}

fn read_specimen<'s>(lines: &mut Lines<'s>) -> Result<Specimen<'s>, Refusal> {
    Ok(Specimen {
        code: lines.read("specimen", &places::SPECIMEN.rule)?,
        collected: lines.read("collected", &places::COLLECTED.rule)?,
    })
}

fn read_order<'s>(lines: &mut Lines<'s>) -> Result<Order<'s>, Refusal> {
    Ok(Order {
        number: lines.read("order", &places::ORDER_NUMBER.rule)?,
        group: lines.read("group", &places::GROUP.rule)?,
    })
}

fn read_result<'s>(lines: &mut Lines<'s>) -> Result<LabResult<'s>, Refusal> {
    let item = lines.read("item", &places::ITEM.rule)?;
    let name = lines.read("name", &places::ITEM_NAME.rule)?;
    let value_type = ValueType::of_code(lines.read("type", &places::VALUE_TYPE.rule)?);
    let result = LabResult {
        item,
        name,
        value_type,
        value: read_value(lines, value_type)?,
        unit: lines.read("unit", &places::UNIT.rule)?,
        flag: lines.read("flag", &places::FLAG.rule)?,
        status: lines.read("status", &places::STATUS.rule)?,
    };
    if !result.value_fits_status() {
        return Err(lines.refuse(number::SHEET_VALUE));
    }
    Ok(result)
}

/// For NM and ST, compare, join and second are blank. What the parts of SN demand of one another
/// is judged at second.
fn read_value<'s>(lines: &mut Lines<'s>, value_type: ValueType) -> Result<Value<'s>, Refusal> {
    use places::{COMPARATOR, FIRST_NUMBER, JOINER, NUMBER, SECOND_NUMBER, STRING};
    let [compare, main, join, second] = match value_type {
        ValueType::Number => [&BLANK, &NUMBER.rule, &BLANK, &BLANK],
        ValueType::Structured => [
            &COMPARATOR.rule,
            &FIRST_NUMBER.rule,
            &JOINER.rule,
            &SECOND_NUMBER.rule,
        ],
        ValueType::Text => [&BLANK, &STRING.rule, &BLANK, &BLANK],
    };
    let value = Value {
        compare: lines.read("compare", compare)?,
        main: lines.read("value", main)?,
        join: lines.read("join", join)?,
        second: lines.read("second", second)?,
    };
    let lacks_first_number = value.main.is_empty() && value.has_companions();
    if lacks_first_number || value.lacks_joiner() {
        return Err(lines.refuse(number::SHEET_VALUE));
    }
    Ok(value)
}

/// Walks the lines of a sheet.
struct Lines<'s> {
    rest: &'s [u8],
    /// How many lines were taken; so the number of the line read last.
    taken: usize,
}

impl<'s> Lines<'s> {
    /// Checks 40 and 41. After them every line ends in 0A.
    fn well_formed(sheet: &'s [u8]) -> Result<Self, Refusal> {
        if sheet.len() > SHEET_LIMIT {
            return Err(Refusal::of_whole(number::SHEET_TOO_LONG));
        }
        let ended = sheet.last().is_none_or(|&byte| byte == LINE_END);
        if !ended || !keeps_shift_rule(sheet, LINE_END) {
            return Err(Refusal::of_whole(number::SHEET_BYTES));
        }
        Ok(Self {
            rest: sheet,
            taken: 0,
        })
    }

    fn at_end(&self) -> bool {
        self.rest.is_empty()
    }

    /// Whether the next line has this key. The key is what stands before the first `=`.
    fn next_is(&self, key: &str) -> bool {
        let after = self.rest.strip_prefix(key.as_bytes());
        after.is_some_and(|after| after.first() == Some(&b'='))
    }

    /// The value of the next line: 42 for its key, then 43 for its value. At an early end the
    /// line that is missing is named.
    fn read(&mut self, key: &str, rule: &Rule) -> Result<&'s [u8], Refusal> {
        let has_key = self.next_is(key);
        self.taken += 1;
        if !has_key {
            return Err(self.refuse(number::SHEET_KEY));
        }
        let value = self.take_value(key);
        if !rule.admits(value) {
            return Err(self.refuse(number::SHEET_VALUE));
        }
        Ok(value)
    }

    fn take_value(&mut self, key: &str) -> &'s [u8] {
        let after_key = &self.rest[key.len() + 1..];
        let end = after_key.iter().position(|&byte| byte == LINE_END);
        let (value, rest) = after_key.split_at(end.unwrap_or(after_key.len()));
        self.rest = rest.get(1..).unwrap_or_default();
        value
    }

    /// A refusal of the line read last.
    fn refuse(&self, number: u8) -> Refusal {
        Refusal::at_line(number, self.taken)
    }
}
