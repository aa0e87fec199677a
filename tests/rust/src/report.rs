//! What a report says, as message and sheet have it in common.
//!
//! The values lie as they were found: escaped in a message, plain in a sheet.

/// How many specimens (SPM), orders (OBR) and results (OBX) a message holds.
#[derive(Clone, Copy, Debug, Default, PartialEq, Eq)]
pub struct Counts {
    pub specimens: usize,
    pub orders: usize,
    pub results: usize,
}

/// One entry of a report. They come in this order: header, patient, visit, then each specimen
/// with its orders, each order with its results.
#[derive(Clone, Copy, Debug)]
pub enum Entry<'a> {
    Header(Header<'a>),
    Patient(Patient<'a>),
    Visit(Visit<'a>),
    Specimen(Specimen<'a>),
    Order(Order<'a>),
    Result(LabResult<'a>),
}

#[derive(Clone, Copy, Debug)]
pub struct Header<'a> {
    pub mode: &'a [u8],
    pub sent: &'a [u8],
    pub control: &'a [u8],
}

#[derive(Clone, Copy, Debug)]
pub struct Patient<'a> {
    pub number: &'a [u8],
    pub kanji: Name<'a>,
    /// Both texts are blank for a patient without a kana name.
    pub kana: Name<'a>,
    pub birth: &'a [u8],
    pub sex: &'a [u8],
}

#[derive(Clone, Copy, Debug, Default)]
pub struct Name<'a> {
    pub family: &'a [u8],
    pub given: &'a [u8],
}

#[derive(Clone, Copy, Debug)]
pub struct Visit<'a> {
    pub class: &'a [u8],
}

#[derive(Clone, Copy, Debug)]
pub struct Specimen<'a> {
    pub code: &'a [u8],
    pub collected: &'a [u8],
}

#[derive(Clone, Copy, Debug)]
pub struct Order<'a> {
    pub number: &'a [u8],
    pub group: &'a [u8],
}

#[derive(Clone, Copy, Debug)]
pub struct LabResult<'a> {
    pub item: &'a [u8],
    pub name: &'a [u8],
    pub value_type: ValueType,
    pub value: Value<'a>,
    pub unit: &'a [u8],
    pub flag: &'a [u8],
    pub status: &'a [u8],
}

impl LabResult<'_> {
    /// Status F, P or C needs a value (for SN its first number); I or X needs none.
    pub fn value_fits_status(&self) -> bool {
        let without_value = matches!(self.status, b"I" | b"X");
        self.value.main.is_empty() == without_value
    }
}

#[derive(Clone, Copy, Debug, PartialEq, Eq)]
pub enum ValueType {
    /// NM
    Number,
    /// SN
    Structured,
    /// ST
    Text,
}

impl ValueType {
    /// The type behind a code that has passed the rule of OBX-2.
    pub fn of_code(code: &[u8]) -> Self {
        match code {
            b"NM" => Self::Number,
            b"SN" => Self::Structured,
            _ => Self::Text,
        }
    }

    pub fn code(self) -> &'static [u8] {
        match self {
            Self::Number => b"NM",
            Self::Structured => b"SN",
            Self::Text => b"ST",
        }
    }
}

/// A result's value. Only SN fills more than `main`, and then never without it.
#[derive(Clone, Copy, Debug, Default)]
pub struct Value<'a> {
    pub compare: &'a [u8],
    pub main: &'a [u8],
    pub join: &'a [u8],
    pub second: &'a [u8],
}

impl<'a> Value<'a> {
    /// The value of NM or ST.
    pub fn single(main: &'a [u8]) -> Self {
        Self {
            main,
            ..Self::default()
        }
    }

    /// Whether SN says something beside its first number.
    pub fn has_companions(&self) -> bool {
        !(self.compare.is_empty() && self.join.is_empty() && self.second.is_empty())
    }

    /// A second number needs a joiner.
    pub fn lacks_joiner(&self) -> bool {
        !self.second.is_empty() && self.join.is_empty()
    }
}
