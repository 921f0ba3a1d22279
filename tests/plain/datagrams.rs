//! The packets of port 138.

use crate::names::read_name;
use crate::report::Report;

/// The sender's address and port and the datagram's identifier, in this order in one number.
pub type Key = u64;

pub const KINDS: [&str; 7] = ["unique", "group", "broadcast", "error", "find", "found", "missing"];

pub struct Fragment<'a> {
    pub kind: u8,
    pub is_first: bool,
    pub has_more: bool,
    pub key: Key,
    pub offset: u32,
    /// The spellings of the source's name and the destination's, and the length of the first one.
    pub names: &'a [u8],
    source_length: usize,
    pub data: &'a [u8],
}

impl Fragment<'_> {
    /// The offset after its data.
    pub fn reach(&self) -> u32 {
        self.offset + self.data.len() as u32
    }

    /// The spelling of the source's name, and the destination's.
    pub fn both_names(&self) -> (&[u8], &[u8]) {
        self.names.split_at(self.source_length)
    }
}

pub fn two_bytes(bytes: &[u8], at: usize) -> u16 {
    u16::from_be_bytes([bytes[at], bytes[at + 1]])
}

pub fn four_bytes(bytes: &[u8], at: usize) -> u32 {
    (two_bytes(bytes, at) as u32) << 16 | two_bytes(bytes, at + 2) as u32
}

/// The key that stands in the header of a packet.
fn key_of(packet: &[u8]) -> Key {
    (four_bytes(packet, 4) as u64) << 32 | (two_bytes(packet, 8) as u64) << 16 | two_bytes(packet, 2) as u64
}

/// The fragment that a packet is, if it is a good one.
pub fn fragment(packet: &[u8]) -> Option<Fragment<'_>> {
    let header = packet.get(..14).filter(|header| (0x10..=0x12).contains(&header[0]))?;
    let whole = packet.get(..14 + two_bytes(header, 10) as usize)?;
    let middle = read_name(whole, 14)?;
    let end = read_name(whole, middle)?;
    Some(Fragment {
        kind: header[0],
        is_first: header[1] & 2 != 0,
        has_more: header[1] & 1 != 0,
        key: key_of(header),
        offset: two_bytes(header, 12) as u32,
        names: &whole[14..end],
        source_length: middle - 14,
        data: &whole[end..],
    })
}

pub fn show_datagram(packet: &[u8], report: &mut Report) -> Option<()> {
    let header = packet.get(..10)?;
    let kind = KINDS.get(header[0].wrapping_sub(0x10) as usize)?;
    report.words(kind).words(" flags=").digits(&header[1..2]).words(" key=").key(key_of(header));
    let used = match header[0] {
        0x13 => {
            report.words(" code=").digits(packet.get(10..11)?);
            11
        }
        0x14.. => {
            report.words(" destination=").domain(packet, 10);
            read_name(packet, 10)?
        }
        _ => {
            let fragment = fragment(packet)?;
            let (source, destination) = fragment.both_names();
            report.words(" offset=").number(fragment.offset).words(" source=").domain(source, 0);
            report.words(" destination=").domain(destination, 0).words(" data=").data(fragment.data);
            14 + two_bytes(packet, 10) as usize
        }
    };
    report.words(" used=").number(used as u64);
    Some(())
}
