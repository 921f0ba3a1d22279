//! Names as packets spell them.

use std::array;

const LONGEST_SPELLING: usize = 255;

/// The sixteen bytes that a label stands for, if it is the first one of a NetBIOS name: each letter
/// is a half of one.
pub fn sixteen(label: &[u8]) -> Option<[u8; 16]> {
    let letters: &[u8; 32] = label.try_into().ok()?;
    let halves = letters.map(|letter| letter.wrapping_sub(b'A'));
    let all = halves.iter().fold(0, |seen, half| seen | half);
    (all < 16).then(|| array::from_fn(|at| halves[2 * at] << 4 | halves[2 * at + 1]))
}

/// The offset after the NetBIOS name that stands at an offset of the packet, if one does.
pub fn read_name(packet: &[u8], start: usize) -> Option<usize> {
    let end = read_domain(packet, start)?;
    sixteen(labels(packet, start).next()?).map(|_| end)
}

/// The offset after the domain name that stands at an offset of the packet, if one does: after a
/// zero, or the first pointer, each of which leads to labels before those in front of it.
pub fn read_domain(packet: &[u8], start: usize) -> Option<usize> {
    let (mut row, mut at, mut spelled, mut after) = (start, start, 1, None);
    loop {
        match *packet.get(at)? {
            0 => return Some(after.unwrap_or(at + 1)),
            length @ 1..=63 => {
                at += 1 + length as usize;
                spelled += 1 + length as usize;
                if spelled > LONGEST_SPELLING {
                    return None;
                }
            }
            192.. if at + 1 < packet.len() && target(packet, at) < row => {
                after = after.or(Some(at + 2));
                row = target(packet, at);
                at = row;
            }
            _ => return None,
        }
    }
}

/// Where the pointer at an offset leads to.
fn target(packet: &[u8], at: usize) -> usize {
    (packet[at] as usize & 63) << 8 | packet[at + 1] as usize
}

/// The labels of the domain name that was read at an offset of the packet.
pub fn labels(packet: &[u8], mut at: usize) -> impl Iterator<Item = &[u8]> {
    std::iter::from_fn(move || {
        while packet[at] >= 192 {
            at = target(packet, at);
        }
        let start = at + 1;
        at = start + packet[at] as usize;
        (at > start).then(|| &packet[start..at])
    })
}

/// The spelling of a name of plain letters without a scope, as of FRED<20>.
pub fn spelling_of(text: &str) -> Option<Vec<u8>> {
    let (front, last) = text.strip_suffix('>')?.split_once('<')?;
    let last = u8::from_str_radix(last, 16).ok()?;
    let bytes = format!("{front:15}").into_bytes();
    let letters = bytes.iter().chain([&last]).flat_map(|byte| [b'A' + (byte >> 4), b'A' + (byte & 15)]);
    Some([32].into_iter().chain(letters).chain([0]).collect())
}
