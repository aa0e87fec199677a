//! The five delimiters of a message, and the escapes that stand for them.

use crate::shift::find_unshifted;

/// The bytes that document 01 admits as delimiters.
pub const ADMITTED: &[u8; 12] = br"!#%&*;?@\^|~";

/// How many bytes the header has: `MSH`, the five delimiters, and the first of them again.
pub const HEADER_LENGTH: usize = 9;

/// How many bytes an escape has: the escape byte, a letter, the escape byte.
const ESCAPE_LENGTH: usize = 3;

#[derive(Clone, Copy, Debug, PartialEq, Eq)]
pub struct Delimiters {
    pub field: u8,
    pub component: u8,
    pub repetition: u8,
    pub escape: u8,
    pub subcomponent: u8,
}

impl Delimiters {
    /// The delimiters that the writer uses.
    pub const USUAL: Self = Self::in_order(*br"|^~\&");

    /// The delimiters in the header's order.
    pub const fn in_order(bytes: [u8; 5]) -> Self {
        let [field, component, repetition, escape, subcomponent] = bytes;
        Self {
            field,
            component,
            repetition,
            escape,
            subcomponent,
        }
    }

    /// Reads the header rule off the first nine bytes: five different, admitted delimiters, and
    /// the first of them again.
    pub fn of_header(message: &[u8]) -> Option<Self> {
        let &[b'M', b'S', b'H', f, c, r, e, s, again, ..] = message else {
            return None;
        };
        let bytes = [f, c, r, e, s];
        let admitted = bytes.iter().all(|byte| ADMITTED.contains(byte));
        let different = (1..bytes.len()).all(|n| !bytes[..n].contains(&bytes[n]));
        (admitted && different && again == f).then_some(Self::in_order(bytes))
    }

    /// How long a raw component is once unescaped, shift bytes counted; none if it holds a bad
    /// escape or an unescaped subcomponent separator.
    pub fn plain_length(&self, component: &[u8]) -> Option<usize> {
        let mut length = 0;
        let mut rest = component;
        while let Some(at) = find_unshifted(rest, |b| b == self.escape || b == self.subcomponent) {
            self.escaped_byte(&rest[at..])?;
            length += at + 1;
            rest = &rest[at + ESCAPE_LENGTH..];
        }
        Some(length + rest.len())
    }

    /// The text of a raw component; none if it holds a bad escape or an unescaped subcomponent
    /// separator.
    pub fn plain(&self, component: &[u8]) -> Option<Vec<u8>> {
        let mut plain = Vec::with_capacity(self.plain_length(component)?);
        self.unescape_into(component, &mut plain);
        Some(plain)
    }

    /// Appends a judged component to `plain`, its escapes replaced by what they stand for.
    pub fn unescape_into(&self, component: &[u8], plain: &mut Vec<u8>) {
        let mut rest = component;
        while let Some(at) = find_unshifted(rest, |b| b == self.escape) {
            plain.extend_from_slice(&rest[..at]);
            plain.extend(self.escaped_byte(&rest[at..]));
            rest = &rest[at + ESCAPE_LENGTH..];
        }
        plain.extend_from_slice(rest);
    }

    /// Appends plain text to `component`, each delimiter in one-byte mode as its escape.
    pub fn escape_into(&self, plain: &[u8], component: &mut Vec<u8>) {
        let mut rest = plain;
        while let Some(at) = find_unshifted(rest, |b| self.letter(b).is_some()) {
            component.extend_from_slice(&rest[..at]);
            if let Some(letter) = self.letter(rest[at]) {
                component.extend([self.escape, letter, self.escape]);
            }
            rest = &rest[at + 1..];
        }
        component.extend_from_slice(rest);
    }

    /// What the escape at the start of `stretch` stands for; none if no good escape is there.
    fn escaped_byte(&self, stretch: &[u8]) -> Option<u8> {
        match *stretch {
            [before, letter, after, ..] if before == self.escape && after == self.escape => {
                self.byte(letter)
            }
            _ => None,
        }
    }

    /// What the escape with this letter stands for.
    fn byte(&self, letter: u8) -> Option<u8> {
        match letter {
            b'F' => Some(self.field),
            b'S' => Some(self.component),
            b'T' => Some(self.subcomponent),
            b'R' => Some(self.repetition),
            b'E' => Some(self.escape),
            _ => None,
        }
    }

    /// The letter of the escape that stands for a delimiter.
    fn letter(&self, byte: u8) -> Option<u8> {
        match byte {
            _ if byte == self.field => Some(b'F'),
            _ if byte == self.component => Some(b'S'),
            _ if byte == self.subcomponent => Some(b'T'),
            _ if byte == self.repetition => Some(b'R'),
            _ if byte == self.escape => Some(b'E'),
            _ => None,
        }
    }
}

#[cfg(test)]
mod tests {
    use super::*;

    fn plain_length(component: &str) -> Option<usize> {
        Delimiters::USUAL.plain_length(component.as_bytes())
    }

    #[test]
    fn the_five_escapes_stand_for_the_delimiters() {
        let plain = Delimiters::USUAL.plain(br"a\F\\S\\T\\R\\E\b").unwrap();
        assert_eq!(plain, br"a|^&~\b");
        let mut component = Vec::new();
        Delimiters::USUAL.escape_into(&plain, &mut component);
        assert_eq!(component, br"a\F\\S\\T\\R\\E\b");
    }

    #[test]
    fn any_other_escape_is_bad() {
        for bad in [
            r"\Q\",
            r"\f\",
            r"\\",
            r"\",
            r"\F",
            r"\F|",
            "\\\x1B$B\x1B(B\\",
            "a&b",
        ] {
            assert_eq!(plain_length(bad), None, "{bad}");
        }
        assert_eq!(plain_length(r"\E\F\E\"), Some(3));
    }

    #[test]
    fn shift_bytes_count_and_hide_escapes() {
        assert_eq!(plain_length("\x1B$B\\&\x1B(B"), Some(8));
    }

    #[test]
    fn the_header_needs_five_different_delimiters() {
        assert_eq!(
            Delimiters::of_header(br"MSH|^~\&|"),
            Some(Delimiters::USUAL)
        );
        for bad in [
            r"",
            r"MSH|^~\&",
            r"MSH||~\&|",
            r"MSH|^~\&^",
            r"MSH|^~\$|",
            r"msh|^~\&|",
        ] {
            assert_eq!(Delimiters::of_header(bad.as_bytes()), None, "{bad}");
        }
    }
}
