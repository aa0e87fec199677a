//! The value rules: what a place that the profile reads, or a line of a sheet, admits.

/// What a filled value must look like.
#[derive(Clone, Copy, Debug)]
pub(crate) enum Form {
    /// Any text of at most so many bytes.
    Text(usize),
    /// NM: an optional sign, then digits with at most one point; at most 16 bytes.
    Number,
    /// YYYYMMDDHHMMSS.
    Time,
    /// YYYYMMDD.
    Date,
    /// Exactly so many digits.
    Digits(usize),
    /// One up to so many capitals or digits.
    Code(usize),
    /// One of these words.
    OneOf(&'static [&'static str]),
}

/// What a read place admits.
#[derive(Clone, Copy, Debug)]
pub struct Rule {
    form: Form,
    required: bool,
}

use Form::{Code, Date, Digits, Number, OneOf, Text, Time};

/// The value that stands for "delete this" in HL7, and that no read place admits.
pub const DOUBLE_QUOTES: &[u8] = b"\"\"";

const NUMBER_LIMIT: usize = 16;

pub(crate) const fn required(form: Form) -> Rule {
    Rule {
        form,
        required: true,
    }
}

pub(crate) const fn optional(form: Form) -> Rule {
    Rule {
        form,
        required: false,
    }
}

impl Rule {
    /// The same rule for a place that may not be empty.
    pub const fn or_refused_when_empty(self) -> Self {
        required(self.form)
    }

    /// The same rule for a place that may be empty.
    pub const fn or_empty(self) -> Self {
        optional(self.form)
    }

    pub const fn is_required(&self) -> bool {
        self.required
    }

    /// The most unescaped bytes of a text or a number; any other rule fixes its own lengths.
    pub const fn limit(&self) -> Option<usize> {
        match self.form {
            Text(limit) => Some(limit),
            Number => Some(NUMBER_LIMIT),
            Time | Date | Digits(_) | Code(_) | OneOf(_) => None,
        }
    }

    /// Whether a value of so many unescaped bytes is too long.
    pub fn is_too_long(&self, length: usize) -> bool {
        self.limit().is_some_and(|limit| length > limit)
    }

    /// Whether any bytes that are not too long keep the rule.
    pub const fn is_of_text(&self) -> bool {
        matches!(self.form, Text(_))
    }

    /// Whether a filled value that is not too long keeps the rule.
    ///
    /// It may be given raw. Text admits anything, and no other rule admits a delimiter: so a
    /// value with an escape breaks such a rule whether it is unescaped or not.
    pub fn holds(&self, value: &[u8]) -> bool {
        match self.form {
            Text(_) => true,
            Number => is_number(value),
            Time => is_time(value),
            Date => is_date(value),
            Digits(count) => value.len() == count && is_digits(value),
            Code(limit) => value.len() <= limit && is_code(value),
            OneOf(words) => words.iter().any(|word| word.as_bytes() == value),
        }
    }

    /// The whole rule for a plain value, as it stands in a sheet.
    pub fn admits(&self, value: &[u8]) -> bool {
        if value.is_empty() {
            return !self.required;
        }
        value != DOUBLE_QUOTES && !self.is_too_long(value.len()) && self.holds(value)
    }
}

/// Whether a text is an NM: a filled one, of at most 16 bytes.
pub fn is_nm(text: &[u8]) -> bool {
    required(Number).admits(text)
}

fn is_digits(value: &[u8]) -> bool {
    value.iter().all(u8::is_ascii_digit)
}

fn is_code(value: &[u8]) -> bool {
    let in_code = |byte: &u8| byte.is_ascii_uppercase() || byte.is_ascii_digit();
    !value.is_empty() && value.iter().all(in_code)
}

/// An optional sign, then digits with at most one point before, among or after them, at least
/// one digit.
fn is_number(value: &[u8]) -> bool {
    let unsigned = match value {
        [b'+' | b'-', unsigned @ ..] => unsigned,
        _ => value,
    };
    let points = unsigned.iter().filter(|&&byte| byte == b'.').count();
    let digits = unsigned.iter().filter(|byte| byte.is_ascii_digit()).count();
    points <= 1 && digits >= 1 && points + digits == unsigned.len()
}

fn is_time(value: &[u8]) -> bool {
    let Some((date, clock)) = value.split_at_checked(8) else {
        return false;
    };
    is_date(date)
        && clock.len() == 6
        && is_digits(clock)
        && decimal(&clock[..2]) <= 23
        && decimal(&clock[2..4]) <= 59
        && decimal(&clock[4..]) <= 59
}

fn is_date(value: &[u8]) -> bool {
    if value.len() != 8 || !is_digits(value) {
        return false;
    }
    let (year, month, day) = (
        decimal(&value[..4]),
        decimal(&value[4..6]),
        decimal(&value[6..]),
    );
    (1900..=2099).contains(&year)
        && (1..=12).contains(&month)
        && (1..=days_of_month(year, month)).contains(&day)
}

fn days_of_month(year: u32, month: u32) -> u32 {
    match month {
        2 if is_leap(year) => 29,
        2 => 28,
        4 | 6 | 9 | 11 => 30,
        _ => 31,
    }
}

fn is_leap(year: u32) -> bool {
    year.is_multiple_of(4) && (!year.is_multiple_of(100) || year.is_multiple_of(400))
}

fn decimal(digits: &[u8]) -> u32 {
    digits
        .iter()
        .fold(0, |sum, digit| sum * 10 + u32::from(digit - b'0'))
}

#[cfg(test)]
mod tests {
    use super::*;

    fn admits(rule: Rule, value: &str) -> bool {
        rule.admits(value.as_bytes())
    }

    #[test]
    fn numbers() {
        for good in ["-0", "01.20", ".5", "5.", "+1", "1234567890123456", "+.5"] {
            assert!(admits(optional(Number), good), "{good}");
        }
        for bad in [
            ".",
            "<12",
            "1e3",
            "+",
            "-",
            "+-1",
            "1-",
            "1.2.3",
            " 1",
            "12345678901234567",
        ] {
            assert!(!admits(optional(Number), bad), "{bad}");
        }
    }

    #[test]
    fn dates() {
        for good in ["20240229", "20000229", "19000101", "20991231", ""] {
            assert!(admits(optional(Date), good), "{good}");
        }
        for bad in [
            "20230229",
            "21000228",
            "19000229",
            "18991231",
            "20240431",
            "20240100",
            "20240001",
            "20241301",
            "2024010",
            "202401011",
            "2024-1-1",
        ] {
            assert!(!admits(optional(Date), bad), "{bad}");
        }
    }

    #[test]
    fn times() {
        for good in ["20240401093000", "20240229235959", "19000101000000"] {
            assert!(admits(required(Time), good), "{good}");
        }
        for bad in [
            "",
            "20240401",
            "20240401240000",
            "20240401096000",
            "20240401093060",
            "202404010930",
            "20240401093000+0900",
            "2024040109300a",
        ] {
            assert!(!admits(required(Time), bad), "{bad}");
        }
    }

    #[test]
    fn words_and_codes() {
        let words = OneOf(&["L", "HH"]);
        assert!(admits(required(words), "L") && !admits(required(words), "l"));
        assert!(admits(optional(words), "") && !admits(required(words), ""));
        assert!(admits(optional(words), "HH") && !admits(optional(words), "HHH"));
        assert!(admits(required(Code(4)), "E000") && !admits(required(Code(4)), "E0000"));
        assert!(!admits(required(Code(4)), "e") && !admits(required(Code(4)), ""));
        assert!(admits(required(Digits(3)), "023"));
        assert!(!admits(required(Digits(3)), "23") && !admits(required(Digits(3)), "0023"));
    }

    #[test]
    fn texts() {
        let text = optional(Text(20));
        assert!(admits(text, &"a".repeat(20)) && !admits(text, &"a".repeat(21)));
        assert!(!admits(text, "\"\"") && admits(text, "\"\" "));
        assert!(text.is_of_text() && !optional(Number).is_of_text());
        assert_eq!([text.limit(), optional(Date).limit()], [Some(20), None]);
    }
}
