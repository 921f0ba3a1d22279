//! The lines of a capture.

use memchr::{memchr, memchr_iter};
use std::str;

/// The most bytes of a line, its line feed not counted.
const LONGEST_LINE: usize = 262_200;
pub const MOST_INPUT: u64 = 16_777_216;

pub enum Line<'a> {
    Tick(u64),
    /// A payload of this port, which has a space after it, at this moment.
    Payload(&'a [u8], u64),
}

/// Puts the bytes that digits stand for in the place of what was there, if there are two for each.
pub fn read_digits(digits: &[u8], bytes: &mut Vec<u8>) -> Option<()> {
    bytes.resize(digits.len() / 2, 0);
    hex::decode_to_slice(digits, bytes).ok()
}

fn read_moment(word: &[u8]) -> Option<u64> {
    str::from_utf8(word).ok()?.parse().ok()
}

/// What a line says, if it is well formed. Its payload replaces the last one.
fn parse<'a>(line: &'a [u8], payload: &mut Vec<u8>) -> Option<Line<'a>> {
    if line.len() > LONGEST_LINE {
        return None;
    }
    if let Some(word) = line.strip_prefix(b"tick ") {
        return read_moment(word).map(Line::Tick);
    }
    let (port, rest) = line.split_at_checked(4)?;
    let space = memchr(b' ', &rest[..rest.len().min(21)])?;
    let moment = read_moment(&rest[..space])?;
    read_digits(&rest[space + 1..], payload)?;
    Some(Line::Payload(port, moment))
}

/// Gives each line's number, what it says, and its payload, until one isn't good.
pub fn each_line(input: &[u8], mut act: impl FnMut(u64, Line, &[u8]) -> Option<()>) -> Option<()> {
    let (mut payload, mut start) = (Vec::new(), 0);
    for (number, end) in (1..).zip(memchr_iter(b'\n', input)) {
        let line = parse(&input[start..end], &mut payload)?;
        act(number, line, &payload)?;
        start = end + 1;
    }
    (start == input.len()).then_some(())
}
