//! Bytes and shifts: one-byte mode, two-byte mode, and what may stand in each.

/// The byte that begins every shift sequence.
pub const SHIFT: u8 = 0x1B;
/// Enters two-byte mode.
pub const TO_TWO_BYTE: [u8; 3] = [SHIFT, 0x24, 0x42];
/// Returns to one-byte mode.
pub const TO_ONE_BYTE: [u8; 3] = [SHIFT, 0x28, 0x42];

/// Whether `bytes` keep the byte and shift rule from one-byte mode back to one-byte mode.
///
/// `line_end` is the one control byte allowed in one-byte mode: 0D in a message, 0A in a sheet.
pub fn keeps_shift_rule(bytes: &[u8], line_end: u8) -> bool {
    let allowed = |byte: u8| matches!(byte, 0x20..=0x7E) || byte == line_end;
    let mut rest = bytes;
    while let Some(at) = rest.iter().position(|&byte| !allowed(byte)) {
        let after = rest[at..].strip_prefix(&TO_TWO_BYTE).and_then(after_pairs);
        match after {
            Some(after) => rest = after,
            None => return false,
        }
    }
    true
}

/// How many bytes stand before the first one that breaks the byte and shift rule, whatever
/// follows it; all of them where the rule is broken off at the end, or kept.
pub fn kept_bytes(bytes: &[u8], line_end: u8) -> usize {
    let mut at = 0;
    loop {
        at += leading(&bytes[at..], |byte| {
            matches!(byte, 0x20..=0x7E) || byte == line_end
        });
        let entered = in_common(&bytes[at..], &TO_TWO_BYTE);
        at += entered;
        if entered < TO_TWO_BYTE.len() {
            return at;
        }
        let pairs = leading(&bytes[at..], |byte| matches!(byte, 0x21..=0x7E));
        at += pairs;
        if pairs % 2 == 1 {
            return at;
        }
        let returned = in_common(&bytes[at..], &TO_ONE_BYTE);
        at += returned;
        if returned < TO_ONE_BYTE.len() {
            return at;
        }
    }
}

/// How many bytes at the start are `wanted`.
fn leading(bytes: &[u8], wanted: impl Fn(u8) -> bool) -> usize {
    bytes.iter().take_while(|&&byte| wanted(byte)).count()
}

/// How many bytes at the start are those of the sequence.
fn in_common(bytes: &[u8], sequence: &[u8]) -> usize {
    bytes
        .iter()
        .zip(sequence)
        .take_while(|(one, other)| one == other)
        .count()
}

/// Walks the pairs of two-byte mode; gives what follows the return to one-byte mode.
fn after_pairs(mut rest: &[u8]) -> Option<&[u8]> {
    loop {
        match rest {
            [0x21..=0x7E, 0x21..=0x7E, after @ ..] => rest = after,
            _ => return rest.strip_prefix(&TO_ONE_BYTE),
        }
    }
}

/// Where the first byte that is `wanted` stands in one-byte mode.
///
/// `bytes` begin in one-byte mode and keep the byte and shift rule. Bytes inside a shift are
/// passed over: 日 is 46 7C, and its 7C is no bar.
pub fn find_unshifted(bytes: &[u8], wanted: impl Fn(u8) -> bool) -> Option<usize> {
    let mut at = 0;
    while let Some(&byte) = bytes.get(at) {
        if wanted(byte) {
            return Some(at);
        }
        at = if byte == SHIFT {
            end_of_shift(bytes, at)
        } else {
            at + 1
        };
    }
    None
}

/// Where one-byte mode begins again after the shift that starts at `at`.
///
/// No pair holds 1B, so the next 1B is the return.
fn end_of_shift(bytes: &[u8], at: usize) -> usize {
    let pairs = at + TO_TWO_BYTE.len();
    let length = bytes[pairs..].iter().position(|&byte| byte == SHIFT);
    length.map_or(bytes.len(), |length| pairs + length + TO_ONE_BYTE.len())
}

#[cfg(test)]
mod tests {
    use super::*;

    fn keeps(bytes: &[u8]) -> bool {
        keeps_shift_rule(bytes, b'\r')
    }

    #[test]
    fn an_immediate_return_is_allowed() {
        assert!(keeps(b"a\x1B$B\x1B(Bb\r"));
    }

    #[test]
    fn two_byte_mode_holds_pairs_only() {
        assert!(keeps(b"\x1B$BF|\x1B(B"));
        for inside in ["F", "F|F", "F ", "\r\r", "F\x7F", "\x1B$BF|"] {
            let bytes = format!("\x1B$B{inside}\x1B(B");
            assert!(!keeps(bytes.as_bytes()), "{inside:?}");
        }
    }

    #[test]
    fn one_byte_mode_must_be_shifted_out_of_and_returned_to() {
        for bad in [
            "\x1B(B", "\x1B$B", "\x1B$BF|", "\x1B$", "\x1B", "\n", "\x7F",
        ] {
            assert!(!keeps(bad.as_bytes()), "{bad:?}");
        }
        assert!(!keeps(&[0x80]) && !keeps(&[0xFF]));
    }

    /// What is left of a shift that is broken off, from each place in it.
    const REMAINDERS: [&[u8]; 7] = [
        b"",
        b"$B\x1B(B",
        b"B\x1B(B",
        b"\x1B(B",
        b"!\x1B(B",
        b"(B",
        b"B",
    ];

    /// Every text of up to six of the bytes that the rule tells apart.
    #[test]
    fn the_kept_bytes_can_be_gone_on_with_and_one_more_cannot() {
        const TOLD_APART: [u8; 7] = [0x1B, 0x24, 0x28, 0x42, b'\r', b' ', 0x80];
        let may_go_on = |start: &[u8]| REMAINDERS.iter().any(|end| keeps(&[start, end].concat()));
        for length in 0..=6 {
            for number in 0..TOLD_APART.len().pow(length) {
                let bytes: Vec<u8> = (0..length)
                    .map(|n| TOLD_APART[number / TOLD_APART.len().pow(n) % TOLD_APART.len()])
                    .collect();
                let kept = kept_bytes(&bytes, b'\r');
                assert!(may_go_on(&bytes[..kept]), "{bytes:?}");
                assert!(kept == bytes.len() || !may_go_on(&bytes[..kept + 1]));
            }
        }
    }

    #[test]
    fn a_bar_inside_kanji_is_no_bar() {
        let bar = |byte| byte == b'|';
        assert_eq!(find_unshifted(b"\x1B$BF|||\x1B(B|", bar), Some(10));
        assert_eq!(find_unshifted(b"\x1B$BF|\x1B(B\x1B$B||\x1B(B", bar), None);
    }
}
