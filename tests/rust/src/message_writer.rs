//! Writing a report as a message.

use crate::delimiters::Delimiters;
use crate::refusal::{number, Refusal};
use crate::report::{Entry, Header, LabResult, Name, Order, Patient, Specimen, ValueType, Visit};
use crate::segments::{SEGMENTS_LIMIT, SEGMENT_END};
use crate::MESSAGE_LIMIT;

/// Writes the entries of a sheet as the segments of a message.
#[derive(Default)]
pub struct MessageWriter {
    message: Vec<u8>,
    segments: usize,
    /// SPM-1 counts the specimens of the message.
    specimens: usize,
    /// OBX-1 counts the results of the order.
    results: usize,
}

impl MessageWriter {
    pub fn write(&mut self, entry: Entry) {
        match entry {
            Entry::Header(header) => self.write_header(&header),
            Entry::Patient(patient) => self.write_patient(&patient),
            Entry::Visit(visit) => self.write_visit(&visit),
            Entry::Specimen(specimen) => self.write_specimen(&specimen),
            Entry::Order(order) => self.write_order(&order),
            Entry::Result(result) => self.write_result(&result),
        }
    }

    /// The message, unless it passes a limit: 44.
    pub fn into_message(self) -> Result<Vec<u8>, Refusal> {
        if self.message.len() > MESSAGE_LIMIT || self.segments > SEGMENTS_LIMIT {
            return Err(Refusal::of_whole(number::MESSAGE_WOULD_PASS_LIMITS));
        }
        Ok(self.message)
    }

    fn write_header(&mut self, header: &Header) {
        self.raw(r"MSH|^~\&|||||");
        self.text(header.sent);
        self.raw("||OUL^R22^OUL_R22|");
        self.text(header.control);
        self.raw("|");
        self.text(header.mode);
        self.raw("|2.5||||||~ISO IR87||ISO 2022-1994");
        self.end_segment();
    }

    fn write_patient(&mut self, patient: &Patient) {
        self.raw("PID|||");
        self.text(patient.number);
        self.raw("||");
        self.write_name(&patient.kanji, "I");
        if !patient.kana.family.is_empty() {
            self.raw("~");
            self.write_name(&patient.kana, "P");
        }
        self.raw("||");
        self.text(patient.birth);
        self.raw("|");
        self.text(patient.sex);
        self.end_segment();
    }

    /// A repetition of PID-5; `mark` says in its component 8 which script it is in.
    fn write_name(&mut self, name: &Name, mark: &str) {
        self.text(name.family);
        self.raw("^");
        self.text(name.given);
        self.raw("^^^^^L^");
        self.raw(mark);
    }

    fn write_visit(&mut self, visit: &Visit) {
        self.raw("PV1||");
        self.text(visit.class);
        self.end_segment();
    }

    fn write_specimen(&mut self, specimen: &Specimen) {
        self.specimens += 1;
        self.raw("SPM|");
        self.count(self.specimens);
        self.raw("|||");
        self.text(specimen.code);
        self.raw("^^JC10|||||||||||||");
        self.text(specimen.collected);
        self.end_segment();
    }

    fn write_order(&mut self, order: &Order) {
        self.results = 0;
        self.raw("OBR||");
        self.text(order.number);
        self.raw("||");
        self.text(order.group);
        self.raw("^^99003");
        self.end_segment();
        self.raw("ORC|RE|");
        self.text(order.number);
        self.end_segment();
    }

    fn write_result(&mut self, result: &LabResult) {
        self.results += 1;
        self.raw("OBX|");
        self.count(self.results);
        self.raw("|");
        self.text(result.value_type.code());
        self.raw("|");
        self.text(result.item);
        self.raw("^");
        self.text(result.name);
        self.raw("^JC10||");
        self.write_value(result);
        self.raw("|");
        self.text(result.unit);
        self.raw("||");
        self.text(result.flag);
        self.raw("|||");
        self.text(result.status);
        self.end_segment();
    }

    /// A filled SN has all three component separators; an unfilled value is an empty field.
    fn write_value(&mut self, result: &LabResult) {
        let value = &result.value;
        if result.value_type != ValueType::Structured || value.main.is_empty() {
            return self.text(value.main);
        }
        self.text(value.compare);
        self.raw("^");
        self.text(value.main);
        self.raw("^");
        self.text(value.join);
        self.raw("^");
        self.text(value.second);
    }

    fn end_segment(&mut self) {
        self.message.push(SEGMENT_END);
        self.segments += 1;
    }

    fn raw(&mut self, bytes: &str) {
        self.message.extend_from_slice(bytes.as_bytes());
    }

    fn count(&mut self, count: usize) {
        self.raw(&count.to_string());
    }

    /// A value of the sheet, its delimiters escaped.
    fn text(&mut self, plain: &[u8]) {
        Delimiters::USUAL.escape_into(plain, &mut self.message);
    }
}
