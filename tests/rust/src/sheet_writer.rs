//! Writing a report as a sheet.

use crate::delimiters::Delimiters;
use crate::report::{Entry, Header, LabResult, Order, Patient, Specimen, Visit};

/// Writes the entries of an accepted message as the lines of a sheet.
pub struct SheetWriter {
    delimiters: Delimiters,
    sheet: Vec<u8>,
}

impl SheetWriter {
    /// `delimiters` are those of the message, whose values are still escaped.
    pub fn new(delimiters: Delimiters) -> Self {
        Self {
            delimiters,
            sheet: Vec::new(),
        }
    }

    pub fn into_sheet(self) -> Vec<u8> {
        self.sheet
    }

    pub fn write(&mut self, entry: Entry) {
        match entry {
            Entry::Header(header) => self.write_header(&header),
            Entry::Patient(patient) => self.write_patient(&patient),
            Entry::Visit(visit) => self.write_visit(&visit),
            Entry::Specimen(specimen) => self.write_specimen(&specimen),
            Entry::Order(order) => self.write_order(&order),
            Entry::Result(result) => self.write_result(&result),
        }
    }

    fn write_header(&mut self, header: &Header) {
        self.line("version", b"1");
        self.line("mode", header.mode);
        self.line("sent", header.sent);
        self.line("control", header.control);
    }

    fn write_patient(&mut self, patient: &Patient) {
        self.line("patient", patient.number);
        self.line("family", patient.kanji.family);
        self.line("given", patient.kanji.given);
        self.line("kanafamily", patient.kana.family);
        self.line("kanagiven", patient.kana.given);
        self.line("birth", patient.birth);
        self.line("sex", patient.sex);
    }

    fn write_visit(&mut self, visit: &Visit) {
        self.line("class", visit.class);
    }

    fn write_specimen(&mut self, specimen: &Specimen) {
        self.line("specimen", specimen.code);
        self.line("collected", specimen.collected);
    }

    fn write_order(&mut self, order: &Order) {
        self.line("order", order.number);
        self.line("group", order.group);
    }

    fn write_result(&mut self, result: &LabResult) {
        self.line("item", result.item);
        self.line("name", result.name);
        self.line("type", result.value_type.code());
        self.line("compare", result.value.compare);
        self.line("value", result.value.main);
        self.line("join", result.value.join);
        self.line("second", result.value.second);
        self.line("unit", result.unit);
        self.line("flag", result.flag);
        self.line("status", result.status);
    }

    fn line(&mut self, key: &str, escaped: &[u8]) {
        self.sheet.extend_from_slice(key.as_bytes());
        self.sheet.push(b'=');
        self.delimiters.unescape_into(escaped, &mut self.sheet);
        self.sheet.push(b'\n');
    }
}
