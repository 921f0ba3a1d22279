//! Packets of port 137: what flags and numbers say, and how far the lists of a packet go.

use crate::{joined, FRED};
use nbt::service::{read, read_front, Entry, NodeName, NodeType, Operation, Packet, Rdata, Request, ResultCode};

#[test]
fn flags_have_words() {
    let payload = Request::Query.write(2, "FRED<20>", true).unwrap();
    let header = read(&payload).unwrap().header;
    assert!(header.is_broadcast() && header.wants_recursion() && !header.has_recursion());
    assert!(!header.is_response() && !header.is_truncated() && !header.is_authoritative());
    let header = read(b"\0\0\x86\x80\0\0\0\0\0\0\0\0").unwrap().header;
    assert!(!header.is_broadcast() && !header.wants_recursion() && header.has_recursion());
    assert!(header.is_response() && header.is_truncated() && header.is_authoritative());
    let entry = |nb_flags| Entry { nb_flags, address: "10.0.0.5".parse().unwrap() };
    for (flags, is_group, node_type) in [
        (0xe000, true, NodeType::H),
        (0x2000, false, NodeType::P),
        (0x4000, false, NodeType::M),
        (0x9fff, true, NodeType::B),
    ] {
        assert_eq!((entry(flags).is_group(), entry(flags).node_type()), (is_group, node_type));
    }
    let node = |flags| NodeName { name: "JOE<00>".parse().unwrap(), flags };
    for (bit, said) in [
        (0x8000, NodeName::is_group as fn(&NodeName) -> bool),
        (0x1000, NodeName::is_deregistered),
        (0x0800, NodeName::is_in_conflict),
        (0x0400, NodeName::is_active),
        (0x0200, NodeName::is_permanent),
    ] {
        assert!(said(&node(bit)) && !said(&node(!bit)));
    }
    assert_eq!(node(0x6000).node_type(), NodeType::H);
}

#[test]
fn packets_show_themselves_in_a_line() {
    let payload = joined(&[&Request::Query.write(2, "FRED<20>", true).unwrap(), b"not looked at"]);
    let packet = Packet::try_from(&payload[..]).unwrap();
    let shown = format!("{packet:?}");
    assert!(packet.used == 50 && shown.contains("name: FRED<20>") && !shown.contains('\n'), "{shown}");
}

/// A payload with a chain of so many pointers in the RDATA of its first record, and so many records of servers that point to its
/// end.
fn chained(pointers: u16, records: u16) -> Vec<u8> {
    let (counted, size) = ((records + 1).to_be_bytes(), (2 * pointers).to_be_bytes());
    let head = b"\0\0\x0a\0\x01\0\0\0\0";
    let mut payload = joined(&[b"\0\x01\x85\0\0\0", &counted, &[0; 4], head, &size]);
    let mut last: u16 = 11;
    for _ in 0..pointers {
        let here = payload.len() as u16;
        payload.extend((0xc000 | last).to_be_bytes());
        last = here;
    }
    for _ in 0..records {
        payload.extend(b"\0\0\x02\0\x01\0\0\0\0\0\x02");
        payload.extend((0xc000 | last).to_be_bytes());
    }
    payload
}

#[test]
fn a_chain_of_pointers_is_followed_for_many_records() {
    let payload = chained(8_176, 3_776);
    let packet = read(&payload).unwrap();
    let servers =
        packet.records().skip(1).filter(|it| matches!(it.rdata(), Rdata::NameServer(name) if name.as_bytes() == [0]));
    assert_eq!((servers.count(), packet.used), (3_776, payload.len()));
    let front = read_front(&payload[..payload.len() - 1]).packet.unwrap();
    assert_eq!(front.records().len(), 3_776);
    assert_eq!(front.used, payload.len() - 13);
}

#[test]
fn numbers_without_a_name() {
    for number in 0..16u8 {
        let payload = joined(&[&[0, 0, 0x80 | number << 3, number], &[0; 8]]);
        let header = read(&payload).unwrap().header;
        let known = [0, 5, 6, 7, 8, 9].contains(&number);
        assert!(header.is_response());
        assert_eq!(header.operation().map(|it| it as u8), if known { Ok(number) } else { Err(number) });
        assert_eq!(header.result().map(|it| it as u8), if number < 8 { Ok(number) } else { Err(number) });
    }
    let shown: Vec<_> = Operation::ALL.iter().map(Operation::to_string).collect();
    assert_eq!(shown, ["query", "registration", "release", "wack", "refresh", "refresh"]);
    assert_eq!(format!("{:>8}", ResultCode::NameError), " NAM_ERR");
}

/// Four records in three sections, of which the first has two addresses and the second two names.
#[test]
fn lists_are_as_long_as_they_say() {
    let record =
        |kind: u8, data: &[u8]| joined(&[b"\xc0\x0c\0", &[kind], b"\0\x01\0\0\0\0\0", &[data.len() as u8], data]);
    let payload = joined(&[
        b"\0\x03\x85\0\0\x01\0\x01\0\x02\0\x01",
        FRED,
        b"\0\x20\0\x01",
        &record(0x20, &[0; 12]),
        &record(0x21, &[&[2][..], &[0; 36]].concat()),
        &record(0x0a, b""),
        &record(0x0a, b""),
    ]);
    let packet = read(&payload).unwrap();
    let mut questions = packet.questions();
    assert_eq!((questions.len(), questions.next().is_some(), questions.len()), (1, true, 0));
    assert_eq!(questions.next(), None);
    for (mut section, count) in
        [(packet.answers(), 1), (packet.authorities(), 2), (packet.additional(), 1), (packet.records(), 4)]
    {
        assert_eq!((section.len(), section.next().is_some(), section.len()), (count, true, count - 1));
        assert_eq!(section.count(), count - 1);
    }
    for record in packet.records() {
        match record.rdata() {
            Rdata::Addresses(mut found) => {
                assert_eq!((found.len(), found.next().is_some(), found.len()), (2, true, 1));
                assert_eq!(found.count(), 1);
            }
            Rdata::NodeStatus(mut found) => {
                assert_eq!((found.names.len(), found.names.next().is_some(), found.names.len()), (2, true, 1));
                assert_eq!(found.names.count(), 1);
            }
            Rdata::Other(data) => assert!(data.is_empty() && record.data().is_empty()),
            other => panic!("{other:?}"),
        }
    }
}
