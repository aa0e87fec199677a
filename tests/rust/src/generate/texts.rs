//! Texts for the calls that take any bytes: messages, sheets, and loose pieces of both.

use super::damage::MEANINGFUL;
use super::random::Random;
use super::{messages, sheets};
use crate::{SEGMENT_LIMIT, SHEET_LIMIT};

/// Beginnings of segments and of headers, good and bad.
#[rustfmt::skip]
const BEGINNINGS: &[&[u8]] = &[
    b"MSH|^~\\&|", b"PID", b"PV1|", b"SPM#", b"OBR|1", b"ORC\r", b"OBX", b"ZZZ|", b"Z9A\r", b"9ZZ|",
    b"pid|", b"PI", b"PIDS|",
];

/// The text of a turn: a message, a sheet and loose pieces in turn.
pub fn text(turn: usize, random: &mut Random) -> Vec<u8> {
    let recipe = turn / 3;
    match turn % 3 {
        0 => messages::message(recipe, random),
        1 => sheets::sheet(recipe, random),
        _ => loose_pieces(random),
    }
}

/// Up to twenty pieces; most begin a segment. Some follow a segment as long as may be, or by a byte
/// longer; some are filled up to the longest text that has a spot, or to one byte more.
fn loose_pieces(random: &mut Random) -> Vec<u8> {
    let mut text = Vec::new();
    if random.one_in(16) {
        text.extend(b"ZZZ|");
        text.resize(SEGMENT_LIMIT + random.below(2), b'x');
        text.push(b'\r');
    }
    for _ in 0..random.below(20) {
        let piece = random.pick(&[BEGINNINGS, BEGINNINGS, MEANINGFUL]);
        text.extend(random.pick(piece));
        if random.one_in(3) {
            text.push(b'\r');
        }
    }
    if random.one_in(16) {
        text.resize(SHEET_LIMIT + random.below(2), b' ');
    }
    text
}
