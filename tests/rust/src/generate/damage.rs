//! Damage to bytes, without regard to what they say.

use super::random::Random;
use super::words;

/// Bytes that mean something somewhere.
#[rustfmt::skip]
pub const MEANINGFUL: &[&[u8]] = &[
    b"|", b"^", b"~", b"\\", b"&", b"=", b"\r", b"\n", b"\r\r", b"\n\n", b"\x1B", b"\x1B$B",
    b"\x1B(B", b"\x1B$B\x1B(B", b"\"\"", b"\\F\\", b"\\Q\\", b" ", b"\x7F", b"\x00", b"\x80",
    b"\x1B$BF|\x1B(B", b"\x1B$BF\x1B(B", b"\x1B$B",
];

/// Bytes that break the byte and shift rule.
#[rustfmt::skip]
const BREACHES: &[&[u8]] = &[
    b"\x1B", b"\x1B$B", b"\x1B(B", b"\x1B$BF\x1B(B", b"\x1B$BF \x1B(B", b"\x1B$B\x1B$B\x1B(B",
    b"\x1B$@F|\x1B(B", b"\x1B$BF|\x1B(J", b"\x7F", b"\xFF",
];

/// One to three strokes of damage; `line_end` parts the segments or lines.
pub fn damage(random: &mut Random, bytes: &mut Vec<u8>, line_end: u8) {
    for _ in 0..random.pick(&[1, 1, 1, 2, 3]) {
        match random.below(8) {
            0 | 1 => flip_bit(random, bytes),
            2 => delete(random, bytes),
            3 => insert(random, bytes),
            4 => replace(random, bytes),
            5 => truncate(random, bytes),
            6 => repeat_stretch(random, bytes),
            _ => swap_lines(random, bytes, line_end),
        }
    }
}

/// Damage that is meant for the byte and shift rule.
pub fn damage_shifts(random: &mut Random, bytes: &mut Vec<u8>) {
    let at = random.within(9.min(bytes.len())..=bytes.len());
    bytes.splice(at..at, random.pick(BREACHES).iter().copied());
}

fn flip_bit(random: &mut Random, bytes: &mut [u8]) {
    if !bytes.is_empty() {
        let at = random.below(bytes.len());
        bytes[at] ^= 1 << random.below(8);
    }
}

fn delete(random: &mut Random, bytes: &mut Vec<u8>) {
    let start = random.within(0..=bytes.len());
    let end = bytes.len().min(start + random.within(1..=4));
    bytes.drain(start..end);
}

fn insert(random: &mut Random, bytes: &mut Vec<u8>) {
    let at = random.within(0..=bytes.len());
    bytes.splice(at..at, random.pick(MEANINGFUL).iter().copied());
}

fn replace(random: &mut Random, bytes: &mut [u8]) {
    if !bytes.is_empty() {
        let at = random.below(bytes.len());
        bytes[at] = words::letter(random);
    }
}

fn truncate(random: &mut Random, bytes: &mut Vec<u8>) {
    bytes.truncate(random.within(0..=bytes.len()));
}

fn repeat_stretch(random: &mut Random, bytes: &mut Vec<u8>) {
    let start = random.within(0..=bytes.len());
    let end = bytes.len().min(start + random.within(1..=80));
    let stretch = bytes[start..end].to_vec();
    bytes.splice(start..start, stretch);
}

fn swap_lines(random: &mut Random, bytes: &mut Vec<u8>, line_end: u8) {
    let mut lines: Vec<&[u8]> = bytes.split_inclusive(|&byte| byte == line_end).collect();
    if !lines.is_empty() {
        let (one, other) = (random.below(lines.len()), random.below(lines.len()));
        lines.swap(one, other);
        *bytes = lines.concat();
    }
}
