//! Packets of port 138.

use crate::{joined, refused, FRED, JOE};
use nbt::datagram::{read, read_front, Kind, Packet, Query};
use nbt::Status;

/// A group datagram from `JOE<00>` at 10.0.0.5:138 to `FRED<20>`, whole in one packet.
fn hello() -> Vec<u8> {
    let header = b"\x11\x02\0\x0a\x0a\0\0\x05\0\x8a\0\x49\0\0";
    joined(&[header, JOE, FRED, b"hello"])
}

#[test]
fn flags_have_words() {
    for (flags, is_first, has_more) in [(0, false, false), (1, false, true), (2, true, false), (0xff, true, true)] {
        let mut payload = hello();
        payload[1] = flags;
        let (packet, header) = (read(&payload).unwrap(), read_front(&payload).header.unwrap());
        assert_eq!((packet.is_first(), packet.has_more()), (is_first, has_more));
        assert_eq!((header.is_first(), header.has_more()), (is_first, has_more));
    }
}

#[test]
fn numbers_are_kinds() {
    let shown = |number: u8| match (Kind::try_from(number), Query::try_from(number)) {
        (Ok(kind), Err(_)) => Some(kind.to_string()),
        (Err(_), Ok(query)) => Some(query.to_string()),
        _ => None,
    };
    let found: Vec<_> = (0..=255).filter_map(shown).collect();
    assert_eq!(found, ["unique", "group", "broadcast", "find", "found", "missing"]);
    assert_eq!(refused(Kind::try_from(0x13)), (Status::UnknownType, None));
    assert_eq!(refused(Query::try_from(0x17)), (Status::UnknownType, None));
}

#[test]
fn slices_are_packets() {
    let payload = hello();
    assert_eq!(Packet::try_from(&payload[..]), read(&payload));
    assert_eq!(refused(Packet::try_from(&payload[..9])), (Status::Truncated, Some(9)));
}
