//! What serde is given of the values, as JSON, and what is read back of it. tests/library/answers.rs has what packets of port 137 say.

use std::fmt::{Debug, Display};

use nbt::datagram::{self, write_error, write_query, Datagram, Query};
use nbt::service::{self, Entry, NodeName, NodeType, Operation, Question, Request, ResultCode, Section};
use nbt::session::{self, write};
use nbt::station::{Key, Outcome, OwnedDelivery};
use nbt::{Error, Limits, Line, Name, Spelling, Status};
use serde::de::DeserializeOwned;
use serde::Serialize;
use serde_json::{from_str, from_value, json, to_string, to_value, Value};

use crate::stations::{pieces, station};
use crate::{joined, FRED, JOE};

/// That a value has this JSON, and is read back from it.
#[track_caller]
fn both_ways<T: Serialize + DeserializeOwned + PartialEq + Debug>(value: T, wanted: Value) {
    let text = to_string(&value).unwrap();
    assert_eq!(from_str::<Value>(&text).unwrap(), wanted);
    assert_eq!(from_str::<T>(&text).unwrap(), value);
    assert_eq!(from_value::<T>(wanted).unwrap(), value);
}

/// The same of a value whose JSON is the text that it shows itself as.
#[track_caller]
fn as_text<T: Serialize + DeserializeOwned + PartialEq + Debug + Display>(value: T) {
    let text = value.to_string();
    both_ways(value, text.into());
}

/// Why JSON isn't read as a value of this type.
#[track_caller]
fn refused<T: DeserializeOwned + Debug>(given: Value) -> String {
    from_value::<T>(given).unwrap_err().to_string()
}

fn name(text: &str) -> Name {
    text.parse().unwrap()
}

fn entry() -> Entry {
    Entry { nb_flags: 0x6000, address: "10.0.0.6".parse().unwrap() }
}

fn key() -> Key {
    Key { sender: "10.0.0.5:138".parse().unwrap(), identifier: 7 }
}

#[test]
fn names() {
    as_text(name("FRED<20>"));
    as_text(name("FRED<20>.NETBIOS.COM"));
    as_text(name(r"\00\22\ff<00>"));
    both_ways(Name::from(*b"JOE            \0"), json!("JOE<00>"));
    let spelling = Spelling::try_from(JOE).unwrap();
    assert_eq!(to_value(spelling).unwrap(), "JOE<00>");
    assert_eq!(refused::<Name>(json!("FRED")), "bad text 4");
    assert_eq!(refused::<Name>(json!("SIXTEENLETTERS..<00>")), "bad text 14");
    assert!(refused::<Name>(json!(7)).starts_with("invalid type: integer `7`"));
}

#[test]
fn kinds_are_words() {
    for number in 0..=255 {
        let _ = datagram::Kind::try_from(number).map(as_text);
        let _ = Query::try_from(number).map(as_text);
        let _ = session::Kind::try_from(number).map(as_text);
    }
    ResultCode::ALL.into_iter().for_each(as_text);
    let types = [NodeType::B, NodeType::P, NodeType::M, NodeType::H];
    types.into_iter().for_each(as_text);
    Operation::ALL.into_iter().take(5).for_each(as_text);
    both_ways(Operation::OtherRefresh, json!("other_refresh"));
    both_ways(Section::Answer, json!("answer"));
    assert!(refused::<datagram::Kind>(json!("Group")).starts_with("unknown variant `Group`"));
}

#[test]
fn statuses_are_names() {
    both_ways(Status::BadText, json!("BAD_TEXT"));
    both_ways(Status::SecondNotCanonical, json!("SECOND_NOT_CANONICAL"));
    for status in Status::ALL {
        let text = to_string(&status).unwrap();
        assert_eq!(from_str::<Status>(&text).unwrap(), status);
        let letters = text.replace(['_', '"'], "").to_lowercase();
        assert_eq!(letters, format!("{status:?}").to_lowercase());
    }
    let error: Error = nbt::spell("FRED").unwrap_err();
    let wanted = json!({"status": "BAD_TEXT", "number": 10, "at": 4});
    assert_eq!(to_value(error).unwrap(), wanted);
}

#[test]
fn values_that_lend_nothing() {
    both_ways(entry(), json!({"nb_flags": 0x6000, "address": "10.0.0.6"}));
    both_ways(key(), json!({"sender": "10.0.0.5:138", "identifier": 7}));
    let node = NodeName { name: name("FRED<20>"), flags: 0x0400 };
    both_ways(node, json!({"name": "FRED<20>", "flags": 0x0400}));
    let question = Question { name: name("FRED<20>"), kind: 32, class: 1 };
    both_ways(question, json!({"name": "FRED<20>", "kind": 32, "class": 1}));
    let header = service::Header { identifier: 2, word: 0x2910, counts: [1, 0, 0, 1] };
    both_ways(header, json!({"identifier": 2, "word": 0x2910, "counts": [1, 0, 0, 1]}));
    both_ways(Limits { keys: 9, per_source: u32::MAX }, json!({"keys": 9, "per_source": u32::MAX}));
    both_ways(Request::NodeStatus, json!("node_status"));
    let wanted = json!({"registration": [{"nb_flags": 0x6000, "address": "10.0.0.6"}, 9]});
    both_ways(Request::Registration(entry(), 9), wanted);
    let front = session::read_front(b"\x85\x01\0\x02");
    let wanted = json!({"packet_type": 0x85, "flags": 1, "body_length": 0x10002});
    both_ways(front.header.unwrap(), wanted.clone());
    let fault = json!({"status": "BAD_LENGTH", "number": 54, "at": null});
    assert_eq!(to_value(front).unwrap(), json!({"header": wanted, "fault": fault}));
}

#[test]
fn a_domain_name_is_not_read_back() {
    let payload = joined(&[&[0, 1, 0, 0, 0, 1, 0, 0, 0, 0, 0, 0], b"\x02ns\x03com\0", &[0, 2, 0, 1]]);
    let packet = service::read(&payload).unwrap();
    let question = packet.questions().next().unwrap();
    let said = to_value(question).unwrap();
    assert_eq!(said, json!({"name": "ns.com", "kind": 2, "class": 1}));
    assert_eq!(refused::<Question>(said), "bad text 2");
}

#[test]
fn datagram_packets() {
    let sender = "10.0.0.5:138".parse().unwrap();
    let datagram = Datagram {
        kind: datagram::Kind::Group,
        identifier: 7,
        sender,
        source: "JOE<00>",
        destination: "FRED<20>",
        data: b"\x00\xff",
    };
    let packets = datagram.cut(512).unwrap();
    let payload = packets.iter().next().unwrap();
    let fragment = json!({
        "kind": "group", "offset": 0, "source": "JOE<00>", "destination": "FRED<20>", "data": "00ff",
    });
    let wanted = json!({
        "flags": 2, "identifier": 7, "sender": "10.0.0.5:138", "body": {"fragment": fragment}, "used": 84,
    });
    assert_eq!(to_value(datagram::read(payload).unwrap()).unwrap(), wanted);
    let error = write_error(7, sender, 0x82).unwrap();
    let said = to_value(datagram::read(&error).unwrap()).unwrap();
    assert_eq!(said["body"], json!({"error": 0x82}));
    let query = write_query(Query::Find, 7, sender, "FRED<20>").unwrap();
    let said = to_value(datagram::read(&query).unwrap()).unwrap();
    assert_eq!(said["body"], json!({"query": ["find", "FRED<20>"]}));
    let front = to_value(datagram::read_front(&payload[..60])).unwrap();
    assert_eq!(front["header"]["source"], "JOE<00>");
    assert_eq!(front["header"]["destination"], Value::Null);
    assert_eq!(front["fault"]["status"], "TRUNCATED");
}

#[test]
fn session_packets() {
    let said = |bytes: &[u8]| to_value(session::read(bytes).unwrap()).unwrap();
    let request = write(session::Kind::Request, &joined(&[FRED, JOE])).unwrap();
    let packet = said(&request)["packet"].clone();
    assert_eq!((&packet["kind"], &packet["used"]), (&json!("request"), &json!(72)));
    assert_eq!(packet["names"], json!(["FRED<20>", "JOE<00>"]));
    let wanted = json!({"kind": "message", "body": "6869", "names": null, "retarget": null, "used": 6});
    assert_eq!(said(b"\0\0\0\x02hi"), json!({ "packet": wanted }));
    let retarget = said(b"\x84\0\0\x06\x0a\0\0\x09\0\x8b");
    assert_eq!(retarget["packet"]["retarget"], "10.0.0.9:139");
    assert_eq!(said(b"\0\0\0\x02h"), json!({"more": 1}));
}

#[test]
fn what_a_station_says() {
    let mut station = station(&["FRED<20>"]);
    let key = json!({"sender": "10.0.0.5:138", "identifier": 7});
    let [first, second] = pieces(7, "FRED<20>");
    let kept = to_value(station.take(0, &first).unwrap()).unwrap();
    assert_eq!(kept, json!({ "kept": key }));
    let taken = station.take(0, &second).unwrap();
    let delivery = json!({
        "kind": "unique", "key": key, "source": "JOE<00>", "destination": "FRED<20>",
        "data": "68656c6c6f2c2046524544",
    });
    assert_eq!(to_value(taken).unwrap(), json!({ "delivered": delivery }));
    let owned = match taken {
        Outcome::Delivered(it) => it.to_owned(),
        other => panic!("{other:?}"),
    };
    both_ways(owned, delivery.clone());
    for odd in ["6", "6g", "+6", "\u{e9}"] {
        let mut changed = delivery.clone();
        changed["data"] = odd.into();
        let wanted = format!("invalid value: string \"{odd}\", expected two hexadecimal digits for each byte");
        assert_eq!(refused::<OwnedDelivery>(changed), wanted);
    }
    let refusal = to_value(station.take(0, &first[..5]).unwrap()).unwrap();
    let error = json!({"status": "TRUNCATED", "number": 50, "at": 5});
    assert_eq!(refusal, json!({"refused": {"error": error, "answer": null}}));
    let [first, second] = pieces(8, "ANN<20>");
    station.take(0, &first).unwrap();
    let unheard = to_value(station.take(0, &second).unwrap()).unwrap();
    assert_eq!(unheard["unheard"]["answer"], "130200080a000009008a82");
}

#[test]
fn lines_of_captures() {
    let packet = Line::Packet { port: 138, moment: u64::MAX, payload: vec![0, 0xff] };
    let wanted = json!({"port": 138, "moment": u64::MAX, "payload": "00ff"});
    both_ways(packet, json!({ "packet": wanted }));
    both_ways(Line::Tick { now: 9 }, json!({"tick": {"now": 9}}));
}
