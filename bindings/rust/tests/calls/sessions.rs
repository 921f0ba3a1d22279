//! Packets of port 139.

use crate::{joined, refused};
use nbt::session::{packets, read, Kind, Next, Packet};
use nbt::Status;

#[test]
fn bytes_are_missing() {
    for (bytes, missing) in [(&b""[..], 4), (b"\x85", 3), (b"\0\0\0\x05he", 3), (b"\0\x01\xff\xff", 131_071)] {
        assert_eq!(read(bytes), Ok(Next::More(missing)));
        let error = Packet::try_from(bytes).unwrap_err();
        let told = (error.status(), error.missing(), error.at());
        assert_eq!(told, (Status::More, Some(missing), Some(missing)));
    }
}

#[test]
fn numbers_are_kinds() {
    let kinds: Vec<_> = (0..=255).filter_map(|it| Kind::try_from(it).ok()).collect();
    assert!(kinds.iter().all(|it| Kind::try_from(*it as u8) == Ok(*it)));
    let shown: Vec<_> = kinds.iter().map(Kind::to_string).collect();
    assert_eq!(shown, ["message", "request", "positive", "negative", "retarget", "keepalive"]);
    assert_eq!(refused(Kind::try_from(0x86)), (Status::UnknownType, None));
}

#[test]
fn streams_are_cut() {
    let front = b"\0\0\0\x05hello\x85\0\0\0";
    for (rest, missing) in [(&b""[..], 0), (b"\x85", 3), (b"\0\0\0\x05he", 3), (b"\0\0\0", 1)] {
        let bytes = joined(&[front, rest]);
        let mut stream = packets(&bytes);
        assert_eq!((stream.rest(), stream.missing()), (&bytes[..], 0));
        let found: Vec<_> = (&mut stream).map(|it| it.unwrap().body()).collect();
        assert_eq!(found, [&b"hello"[..], b""]);
        assert_eq!((stream.rest(), stream.missing(), stream.next()), (rest, missing, None));
    }
}

#[test]
fn streams_end_where_no_packet_begins() {
    let bytes = joined(&[b"\x85\0\0\0", b"\x86\0\0\0", b"\x85\0\0\0"]);
    let mut stream = packets(&bytes);
    assert_eq!(stream.next().unwrap().unwrap().kind(), Kind::KeepAlive);
    assert_eq!(refused(stream.next().unwrap()), (Status::UnknownType, None));
    assert_eq!((stream.next(), stream.rest(), stream.missing()), (None, &bytes[4..], 0));
}
