//! Document 01's table of the places that the profile reads. It stands here once: the readers of
//! messages and sheets, the generated cases, the tests and the bench take it from here.

use crate::report::ValueType::{self, Number as NM, Structured as SN, Text as ST};
use crate::rules::Form::{Code, Date, Digits, Number, OneOf, Text, Time};
use crate::rules::{optional, required, Rule};
use crate::segments::SegmentName::{self, Msh, Obr, Obx, Orc, Pid, Pv1, Spm};

/// A component of a field that the profile reads.
#[derive(Clone, Copy, Debug)]
pub struct Place {
    pub segment: SegmentName,
    pub field: usize,
    pub component: usize,
    /// In OBX-5: the type of the results that have this place.
    pub value_type: Option<ValueType>,
    pub rule: Rule,
}

pub const SENT: Place = at(Msh, 7, 1, required(Time));
pub const MESSAGE_CODE: Place = at(Msh, 9, 1, required(OneOf(&["OUL"])));
pub const MESSAGE_EVENT: Place = at(Msh, 9, 2, required(OneOf(&["R22"])));
pub const MESSAGE_STRUCTURE: Place = at(Msh, 9, 3, required(OneOf(&["OUL_R22"])));
pub const CONTROL: Place = at(Msh, 10, 1, required(Text(20)));
pub const MODE: Place = at(Msh, 11, 1, required(OneOf(&["P", "T", "D"])));
pub const HL7_VERSION: Place = at(Msh, 12, 1, required(OneOf(&["2.5"])));
/// The whole field is compared raw; the rule is for what follows the repetition separator.
pub const CHARACTER_SET: Place = at(Msh, 18, 1, required(OneOf(&["ISO IR87"])));

pub const PATIENT: Place = at(Pid, 3, 1, required(Text(20)));
/// In the repetition of the kanji name, and in that of the kana name where there is one.
pub const FAMILY: Place = at(Pid, 5, 1, required(Text(48)));
pub const GIVEN: Place = at(Pid, 5, 2, optional(Text(48)));
pub const BIRTH: Place = at(Pid, 7, 1, optional(Date));
pub const SEX: Place = at(Pid, 8, 1, required(OneOf(&["M", "F", "O", "U"])));

pub const CLASS: Place = at(Pv1, 2, 1, required(OneOf(&["I", "O"])));

pub const SPECIMEN: Place = at(Spm, 4, 1, required(Digits(3)));
pub const SPECIMEN_TABLE: Place = at(Spm, 4, 3, required(OneOf(&["JC10"])));
pub const COLLECTED: Place = at(Spm, 17, 1, required(Time));

pub const ORDER_NUMBER: Place = at(Obr, 2, 1, required(Digits(15)));
pub const GROUP: Place = at(Obr, 4, 1, required(Code(8)));
pub const GROUP_TABLE: Place = at(Obr, 4, 3, required(OneOf(&["99003"])));

pub const ORDER_CONTROL: Place = at(Orc, 1, 1, required(OneOf(&["RE"])));
pub const ORDER_NUMBER_AGAIN: Place = at(Orc, 2, 1, ORDER_NUMBER.rule);

pub const VALUE_TYPE: Place = at(Obx, 2, 1, required(OneOf(&["NM", "SN", "ST"])));
pub const ITEM: Place = at(Obx, 3, 1, required(Code(17)));
pub const ITEM_NAME: Place = at(Obx, 3, 2, optional(Text(48)));
pub const ITEM_TABLE: Place = at(Obx, 3, 3, required(OneOf(&["JC10"])));
pub const NUMBER: Place = value(NM, 1, optional(Number));
pub const STRING: Place = value(ST, 1, optional(Text(200)));
pub const COMPARATOR: Place = value(SN, 1, optional(OneOf(&[">", "<", ">=", "<=", "=", "<>"])));
pub const FIRST_NUMBER: Place = value(SN, 2, optional(Number));
pub const JOINER: Place = value(SN, 3, optional(OneOf(&["-", "+", "/", ".", ":"])));
pub const SECOND_NUMBER: Place = value(SN, 4, optional(Number));
pub const UNIT: Place = at(Obx, 6, 1, optional(Text(20)));
pub const FLAG: Place = at(
    Obx,
    8,
    1,
    optional(OneOf(&["L", "H", "LL", "HH", "N", "A"])),
);
pub const STATUS: Place = at(Obx, 11, 1, required(OneOf(&["F", "P", "C", "I", "X"])));

/// Every read place, in the order of segments and fields.
#[rustfmt::skip]
pub const READ: [Place; 35] = [
    SENT, MESSAGE_CODE, MESSAGE_EVENT, MESSAGE_STRUCTURE, CONTROL, MODE, HL7_VERSION, CHARACTER_SET,
    PATIENT, FAMILY, GIVEN, BIRTH, SEX,
    CLASS,
    SPECIMEN, SPECIMEN_TABLE, COLLECTED,
    ORDER_NUMBER, GROUP, GROUP_TABLE,
    ORDER_CONTROL, ORDER_NUMBER_AGAIN,
    VALUE_TYPE, ITEM, ITEM_NAME, ITEM_TABLE,
    NUMBER, STRING, COMPARATOR, FIRST_NUMBER, JOINER, SECOND_NUMBER,
    UNIT, FLAG, STATUS,
];

/// The component of PID-5 that tells which name a repetition holds. It is only compared.
pub const NAME_MARK: usize = 8;

/// The fields that are closed to additions.
pub const CLOSED: [(SegmentName, usize); 5] = [
    (Msh, 1),
    (Msh, 2),
    (Msh, CHARACTER_SET.field),
    (Pid, FAMILY.field),
    (Obx, NUMBER.field),
];

/// The components of a field that are read, in their order; none for an unread field.
pub fn read_components(segment: SegmentName, field: usize) -> Vec<usize> {
    READ.iter()
        .filter(|place| (place.segment, place.field) == (segment, field))
        .map(|place| place.component)
        .collect()
}

const fn at(segment: SegmentName, field: usize, component: usize, rule: Rule) -> Place {
    Place {
        segment,
        field,
        component,
        value_type: None,
        rule,
    }
}

/// A part of OBX-5.
const fn value(value_type: ValueType, component: usize, rule: Rule) -> Place {
    Place {
        value_type: Some(value_type),
        ..at(Obx, 5, component, rule)
    }
}

impl Place {
    /// The same place where it may not be empty.
    pub const fn or_refused_when_empty(self) -> Self {
        Self {
            rule: self.rule.or_refused_when_empty(),
            ..self
        }
    }

    /// Whether a result of this type has the place; any other segment has each of its places.
    pub fn is_for(&self, value_type: ValueType) -> bool {
        self.value_type.is_none_or(|own| own == value_type)
    }
}

#[cfg(test)]
mod tests {
    use super::*;

    #[test]
    fn no_place_stands_twice_and_all_stand_in_order() {
        let order = |place: &Place| (place.segment, place.field, place.component);
        for value_type in [NM, SN, ST] {
            let places: Vec<_> = READ.iter().filter(|p| p.is_for(value_type)).collect();
            assert!(places.windows(2).all(|two| order(two[0]) < order(two[1])));
            assert_eq!(places.len(), if value_type == SN { 33 } else { 30 });
        }
    }

    #[test]
    fn the_texts_have_their_limits() {
        let texts: Vec<usize> = READ
            .iter()
            .filter(|place| place.rule.is_of_text())
            .filter_map(|place| place.rule.limit())
            .collect();
        assert_eq!(texts, [20, 20, 48, 48, 48, 200, 20]);
    }
}
