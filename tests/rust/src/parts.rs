//! Splitting a stretch into its numbered parts: a segment into fields, a field into
//! repetitions, a repetition into components.
//!
//! Splitting is raw: at separators in one-byte mode, before any unescaping.

use crate::shift::find_unshifted;
use std::ops::Range;

/// Walks the parts of a stretch by rising number. A missing part is empty.
pub struct Parts<'m> {
    rest: &'m [u8],
    separator: u8,
    next: usize,
}

impl<'m> Parts<'m> {
    /// The parts of `stretch`, counted from 1.
    pub fn new(stretch: &'m [u8], separator: u8) -> Self {
        Self::counted_from(1, stretch, separator)
    }

    pub fn counted_from(first: usize, stretch: &'m [u8], separator: u8) -> Self {
        Self {
            rest: stretch,
            separator,
            next: first,
        }
    }

    /// Part `number`, which lies behind all that were taken before.
    pub fn take(&mut self, number: usize) -> &'m [u8] {
        self.skip_to(number);
        let end = find_unshifted(self.rest, |byte| byte == self.separator);
        self.cut(end)
    }

    /// The same, but none if `banned` stands in that part.
    pub fn take_without(&mut self, number: usize, banned: u8) -> Option<&'m [u8]> {
        self.skip_to(number);
        let end = find_unshifted(self.rest, |byte| byte == self.separator || byte == banned);
        match end {
            Some(at) if self.rest[at] == banned => None,
            _ => Some(self.cut(end)),
        }
    }

    fn skip_to(&mut self, number: usize) {
        debug_assert!(number >= self.next);
        while self.next < number && !self.rest.is_empty() {
            let end = find_unshifted(self.rest, |byte| byte == self.separator);
            self.cut(end);
        }
        self.next = number;
    }

    /// Takes the next part, which ends at a separator or with the stretch.
    fn cut(&mut self, end: Option<usize>) -> &'m [u8] {
        let part = &self.rest[..end.unwrap_or(self.rest.len())];
        self.rest = end.map_or(&[], |end| &self.rest[end + 1..]);
        self.next += 1;
        part
    }
}

/// All parts of `stretch` in turn; there is always one, be it empty.
pub fn split(stretch: &[u8], separator: u8) -> impl Iterator<Item = &[u8]> {
    let mut rest = Some(stretch);
    std::iter::from_fn(move || {
        let stretch = rest?;
        let at = find_unshifted(stretch, |byte| byte == separator);
        rest = at.map(|at| &stretch[at + 1..]);
        Some(&stretch[..at.unwrap_or(stretch.len())])
    })
}

/// Where part `number` of the stretch `within` lies in `m`; a missing one is empty and lies at
/// the stretch's end.
pub fn locate_part(m: &[u8], within: Range<usize>, separator: u8, number: usize) -> Range<usize> {
    let end = within.end;
    let mut start = within.start;
    for _ in 1..number {
        match find_unshifted(&m[start..end], |byte| byte == separator) {
            Some(at) => start += at + 1,
            None => return end..end,
        }
    }
    let length = find_unshifted(&m[start..end], |byte| byte == separator);
    start..length.map_or(end, |length| start + length)
}

#[cfg(test)]
mod tests {
    use super::*;

    #[test]
    fn an_empty_part_is_not_closed_up() {
        let mut parts = Parts::new(b"a||b|", b'|');
        assert_eq!(parts.take(1), b"a");
        assert_eq!(parts.take(2), b"");
        assert_eq!(parts.take(3), b"b");
        assert_eq!(parts.take(4), b"");
        assert_eq!(parts.take(9), b"");
    }

    #[test]
    fn parts_between_may_be_passed_over() {
        let mut parts = Parts::counted_from(3, b"a|b|\x1B$BF|\x1B(B|d", b'|');
        assert_eq!(parts.take(5), b"\x1B$BF|\x1B(B");
        assert_eq!(parts.take(6), b"d");
    }

    #[test]
    fn splitting_gives_every_part() {
        let parts = |stretch| split(stretch, b'~').collect::<Vec<_>>();
        assert_eq!(parts(b""), [b""]);
        assert_eq!(parts(b"a~~b~"), [b"a" as &[u8], b"", b"b", b""]);
    }

    #[test]
    fn a_missing_part_lies_at_the_end() {
        let m = b"--a^b--";
        assert_eq!(locate_part(m, 2..5, b'^', 1), 2..3);
        assert_eq!(locate_part(m, 2..5, b'^', 2), 4..5);
        assert_eq!(locate_part(m, 2..5, b'^', 3), 5..5);
        assert_eq!(locate_part(m, 2..5, b'^', usize::MAX), 5..5);
    }
}
