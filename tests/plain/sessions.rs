//! The session packets in segments of TCP: each direction by its sequence numbers. What is lost, cut
//! or sent otherwise is none of this program's.

use crate::datagrams::two_bytes;
use std::collections::{BTreeMap, HashMap};

const SYN: u8 = 0x02;
const RST: u8 = 0x04;
const HEADER: usize = 4;
/// How many of the bytes in order are kept at least, to compare those that come again.
const TAIL: usize = 65_536;

/// From where to where segments go, and the ports of both.
pub type Ends = ([u8; 4], [u8; 4], [u16; 2]);

/// One direction: the number of its first byte, how many are in order, those before and after these,
/// and those of the packet that isn't whole yet.
#[derive(Default)]
struct Direction {
    first: u32,
    handed: usize,
    past: Vec<u8>,
    early: BTreeMap<usize, Vec<u8>>,
    held: Vec<u8>,
}

#[derive(Default)]
pub struct Sessions(HashMap<Ends, Direction>);

impl Sessions {
    /// Takes a segment, and says each packet that it completes.
    pub fn take(
        &mut self,
        ends: Ends,
        sequence: u32,
        flags: u8,
        payload: &[u8],
        say: impl FnMut(&[u8]) -> Option<()>,
    ) -> Option<()> {
        let number = sequence.wrapping_add((flags & SYN != 0) as u32);
        let direction = self.0.entry(ends).or_insert_with(|| Direction { first: number, ..Direction::default() });
        if flags & SYN != 0 && direction.first != number {
            *direction = Direction { first: number, ..Direction::default() };
        }
        if payload.is_empty() {
            return Some(());
        }
        let ahead = number.wrapping_sub(direction.first.wrapping_add(direction.handed as u32)) as i32;
        let place = direction.handed.checked_add_signed(ahead as isize).filter(|_| flags & RST == 0)?;
        direction.read(place, payload, say)
    }
}

impl Direction {
    fn read(&mut self, place: usize, payload: &[u8], say: impl FnMut(&[u8]) -> Option<()>) -> Option<()> {
        if place == self.handed && self.early.is_empty() && self.held.is_empty() {
            self.pass(payload);
            let rest = cut(payload, say)?;
            self.held.extend_from_slice(rest);
            return Some(());
        }
        let new = self.without_past(place, payload)?;
        if !new.is_empty() {
            self.early.insert(place.max(self.handed), new.to_vec());
        }
        while let Some(entry) = self.early.first_entry().filter(|entry| *entry.key() <= self.handed) {
            let (at, bytes) = entry.remove_entry();
            let bytes = bytes.get(self.handed - at..).unwrap_or(&[]);
            self.pass(bytes);
            self.held.extend_from_slice(bytes);
        }
        let left = cut(&self.held, say)?.len();
        self.held.drain(..self.held.len() - left);
        Some(())
    }

    /// The bytes that aren't in order yet, where the others are those that came before.
    fn without_past<'a>(&self, place: usize, payload: &'a [u8]) -> Option<&'a [u8]> {
        let again = self.handed.saturating_sub(place).min(payload.len());
        let start = self.past.len().checked_sub(self.handed.saturating_sub(place))?;
        self.past[start..].starts_with(&payload[..again]).then(|| &payload[again..])
    }

    fn pass(&mut self, bytes: &[u8]) {
        self.handed += bytes.len();
        self.past.extend_from_slice(bytes);
        if self.past.len() > 2 * TAIL {
            self.past.drain(..self.past.len() - TAIL);
        }
    }
}

/// Says the packets at the front of some bytes, and gives the rest.
fn cut(mut bytes: &[u8], mut say: impl FnMut(&[u8]) -> Option<()>) -> Option<&[u8]> {
    while let Some(&[_, flags, ..]) = bytes.first_chunk::<HEADER>() {
        let Some((packet, rest)) = bytes.split_at_checked(HEADER + ((flags as usize) << 16 | two_bytes(bytes, 2) as usize)) else {
            break;
        };
        say(packet)?;
        bytes = rest;
    }
    Some(bytes)
}
