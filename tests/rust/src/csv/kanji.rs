//! From Shift_JIS to the bytes and shifts of a sheet (01.9 to 01.11).

use crate::shift::{TO_ONE_BYTE, TO_TWO_BYTE};

/// The shifted pair of a two-byte character, by document 02's arithmetic.
pub fn pair(lead: u8, trail: u8) -> Option<[u8; 2]> {
    let first = match lead {
        0x81..=0x9F => 2 * (lead - 0x71) + 1,
        0xE0..=0xEF => 2 * (lead - 0xB1) + 1,
        _ => return None,
    };
    match trail {
        0x40..=0x7E => Some([first, trail - 0x1F]),
        0x80..=0x9E => Some([first, trail - 0x20]),
        0x9F..=0xFC => Some([first + 1, trail - 0x7E]),
        _ => None,
    }
}

/// The two-byte character of a shifted pair, both of whose bytes are 21 to 7E.
pub fn unpaired([first, second]: [u8; 2]) -> [u8; 2] {
    let row = (first - 0x21) / 2;
    let lead = match row {
        0..=0x1E => 0x81 + row,
        _ => 0xC1 + row,
    };
    let trail = match (first % 2, second) {
        (0, _) => second + 0x7E,
        (_, 0x21..=0x5F) => second + 0x1F,
        _ => second + 0x20,
    };
    [lead, trail]
}

/// An item as it lies between its quotes, converted: two quotes are one, each run of adjoining pairs
/// stands between two shifts, and 20 to 7E pass as they are. None where a byte cannot be converted.
pub fn converted(item: &[u8]) -> Option<Vec<u8>> {
    let mut text = Vec::with_capacity(item.len());
    let mut rest = item;
    let mut shifted = false;
    loop {
        let pair = match *rest {
            [lead, trail, ..] => pair(lead, trail),
            _ => None,
        };
        if pair.is_some() != shifted {
            text.extend(if shifted { TO_ONE_BYTE } else { TO_TWO_BYTE });
            shifted = !shifted;
        }
        rest = match (pair, rest) {
            (Some(pair), [_, _, after @ ..]) => {
                text.extend(pair);
                after
            }
            (_, [b'"', b'"', after @ ..]) => {
                text.push(b'"');
                after
            }
            (_, [byte @ 0x20..=0x7E, after @ ..]) => {
                text.push(*byte);
                after
            }
            (_, []) => return Some(text),
            _ => return None,
        };
    }
}

#[cfg(test)]
mod tests {
    use super::*;
    use std::collections::BTreeSet;

    /// Every character that the ranges of lead and trail give.
    fn characters() -> impl Iterator<Item = [u8; 2]> {
        let leads = (0x81..=0x9F).chain(0xE0..=0xEF);
        let trails = || (0x40..=0x7E).chain(0x80..=0xFC);
        leads.flat_map(move |lead| trails().map(move |trail| [lead, trail]))
    }

    #[test]
    fn every_pair_is_met_once() {
        let met: BTreeSet<[u8; 2]> = characters()
            .map(|[lead, trail]| pair(lead, trail).unwrap())
            .collect();
        let pairs = (0x21..=0x7E).flat_map(|first| (0x21..=0x7E).map(move |b| [first, b]));
        assert!(met.into_iter().eq(pairs));
        assert_eq!(characters().count(), 47 * 188);
    }

    #[test]
    fn no_other_two_bytes_are_a_pair() {
        let good: BTreeSet<[u8; 2]> = characters().collect();
        for lead in 0..=u8::MAX {
            for trail in 0..=u8::MAX {
                assert_eq!(pair(lead, trail).is_some(), good.contains(&[lead, trail]));
            }
        }
    }

    #[test]
    fn a_pair_goes_back_to_its_character() {
        for [lead, trail] in characters() {
            assert_eq!(unpaired(pair(lead, trail).unwrap()), [lead, trail]);
        }
    }

    #[test]
    fn the_listed_pairs() {
        for (character, pair_of) in [
            ([0x81, 0x40], [0x21, 0x21]),
            ([0x93, 0xFA], [0x46, 0x7C]),
            ([0x9F, 0xFC], [0x5E, 0x7E]),
            ([0xE0, 0x40], [0x5F, 0x21]),
            ([0xEF, 0xFC], [0x7E, 0x7E]),
        ] {
            assert_eq!(pair(character[0], character[1]), Some(pair_of));
        }
    }

    #[test]
    fn adjoining_pairs_share_one_shift() {
        for (item, text) in [
            (b"" as &[u8], b"" as &[u8]),
            (b"a\\~ ", b"a\\~ "),
            (b"a\"\"b", b"a\"b"),
            (b"\"\"\"\"", b"\"\""),
            (b"\x93\xFA", b"\x1B$BF|\x1B(B"),
            (b"\x93\xFA\x96\x7B", b"\x1B$BF|K\\\x1B(B"),
            (b"a\x93\xFAb\x96\x7B", b"a\x1B$BF|\x1B(Bb\x1B$BK\\\x1B(B"),
        ] {
            assert_eq!(converted(item).as_deref(), Some(text));
        }
    }

    #[test]
    fn what_cannot_be_converted() {
        for byte in (0..0x20).chain(0x7F..=0xFF) {
            assert_eq!(converted(&[b'a', byte]), None, "{byte:02X}");
            let goes_on = pair(byte, b'a').is_some();
            assert_eq!(converted(&[byte, b'a']).is_some(), goes_on, "{byte:02X}");
        }
        assert_eq!(converted(b"\x81\"\""), None);
        assert_eq!(converted(b"\x93\xFA\x81"), None);
        assert_eq!(converted(b"\x93\x7Fa"), None);
    }
}
