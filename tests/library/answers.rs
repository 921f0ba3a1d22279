//! What the crate answers to rows on standard input, a line each: rows.py says how both are written.

use std::collections::HashMap;
use std::io;
use std::net::SocketAddrV4;

use nbt::datagram::{self, write_error, write_query, Body, Datagram};
use nbt::service::{self, Answer, Entry, Front, Rdata, Request, Response};
use nbt::session;
use nbt::station::{Delivery, Outcome};
use nbt::{brief, capture_line, differ, list_table, merge, show, spell, table_json, text};
use nbt::{Limits, Line, Result, Station, Status};
use serde_json::{json, Value};

fn main() {
    let mut stations = Stations::new();
    for line in io::stdin().lines() {
        let line = line.unwrap();
        let words: Vec<_> = line.split(' ').collect();
        let said = answer(words[0], &words[1..], &mut stations);
        println!("{}", said.unwrap_or_else(|error| format!("! {error}")));
    }
}

type Stations = HashMap<String, Station>;

/// What a call answers that is given these words.
fn answer(call: &str, words: &[&str], stations: &mut Stations) -> Result<String> {
    let of = |at: usize| bytes_of(words[at]);
    let limits = |at: usize| Limits { keys: number(words[at]), per_source: number(words[at + 1]) };
    Ok(match call {
        "137" => format!(": {}", service_values(&of(0))),
        "138" => format!(": {}", datagram_values(&of(0))),
        "139" => format!(": {}", session_values(&of(0))),
        "status_text" => written(Status::try_from(number::<u32>(words[0]))?.to_string()),
        "name_spell" => written(spell(&text_of(words[0]))?),
        "name_text" => written(text(&of(0))?),
        "show" => written(show(number(words[0]), &of(1))?),
        "json" => written(nbt::json(number(words[0]), &of(1))?),
        "brief" => written(brief(number(words[0]), &of(1))?),
        "capture_line" => format!(": {}", line_words(capture_line(&of(0))?)),
        "table_merge" => written(merge(&of(0), &of(1), limits(2))?),
        "table_list" => written(list_table(&of(0))?),
        "table_json" => written(table_json(&of(0))?),
        "table_differ" => format!(": {}", differ(&of(0), &of(1))?.map_or("none".into(), |key| key.to_string())),
        "station_create" => {
            let texts = text_of(words[0]);
            let texts = texts.split(' ').filter(|_| !texts.is_empty());
            stations.insert(words[5].into(), Station::new(texts, sender(words, 1), limits(3))?);
            ":".into()
        }
        _ => match stations.get_mut(words[0]) {
            Some(station) => on_station(call, station, words)?,
            None => written(packet(call, words)?),
        },
    })
}

/// The same of a call that asks a station.
fn on_station(call: &str, station: &mut Station, words: &[&str]) -> Result<String> {
    Ok(match call {
        "station_take" => format!(": {}", taken(station.take(number(words[1]), &bytes_of(words[2]))?)),
        "station_tick" => format!(": {}", station.tick(number(words[1]))?),
        "station_save" => written(station.save()?),
        "station_list" => written(station.list()?),
        _ => {
            let table = bytes_of(words[2]);
            let found = station.absorb(number(words[1]), &table)?;
            let said: Vec<_> = found.map(handed).collect();
            format!(": {}", if said.is_empty() { "none".into() } else { said.join(" and ") })
        }
    })
}

/// The same of a call that writes a packet.
fn packet(call: &str, words: &[&str]) -> Result<Vec<u8>> {
    let text = |at: usize| text_of(words[at]);
    match call {
        "service_request" => {
            let entry = Entry { nb_flags: number(words[5]), address: number::<u32>(words[6]).into() };
            let requests = [
                Request::Query,
                Request::NodeStatus,
                Request::Registration(entry, number(words[4])),
                Request::Refresh(entry, number(words[4])),
                Request::Release(entry),
            ];
            requests[number::<usize>(words[0])].write(number(words[1]), &text(3), words[2] == "1")
        }
        "service_response" => response(Response {
            identifier: number(words[0]),
            word: number(words[1]),
            name: &text(2),
            time_to_live: number(words[4]),
            answer: Answer::Other(number(words[3]), &bytes_of(words[5])),
        }),
        "datagram_write" => {
            let (source, destination, data) = (&text(4), &text(5), &bytes_of(words[6]));
            let (kind, identifier) = (number::<u8>(words[0]).try_into()?, number(words[1]));
            let datagram = Datagram { kind, identifier, sender: sender(words, 2), source, destination, data };
            let pieces = datagram.cut(number(words[7]))?;
            Ok(pieces.iter().flat_map(|it| [&(it.len() as u16).to_be_bytes(), it].concat()).collect())
        }
        "datagram_error" => write_error(number(words[0]), sender(words, 1), number(words[3])),
        "datagram_query" => {
            write_query(number::<u8>(words[0]).try_into()?, number(words[1]), sender(words, 2), &text(4))
        }
        "session_write" => session::write(number::<u8>(words[0]).try_into()?, &bytes_of(words[1])),
        other => panic!("{other}: no call"),
    }
}

// What words stand for, and what is said of answers.

/// A number, which has to fit.
#[track_caller]
fn number<T: TryFrom<u64>>(word: &str) -> T {
    T::try_from(word.parse().unwrap()).ok().unwrap()
}

/// The bytes with these digits; none for the word `empty`.
fn bytes_of(digits: &str) -> Vec<u8> {
    let digits = if digits == "empty" { "" } else { digits };
    (0..digits.len()).step_by(2).map(|at| u8::from_str_radix(&digits[at..at + 2], 16).unwrap()).collect()
}

fn text_of(digits: &str) -> String {
    String::from_utf8(bytes_of(digits)).unwrap()
}

fn sender(words: &[&str], at: usize) -> SocketAddrV4 {
    SocketAddrV4::new(number::<u32>(words[at]).into(), number(words[at + 1]))
}

fn hexadecimal(bytes: &[u8]) -> String {
    bytes.iter().map(|it| format!("{it:02x}")).collect()
}

/// Bytes as digits.
fn digits_of(bytes: &[u8]) -> String {
    if bytes.is_empty() { "empty".into() } else { hexadecimal(bytes) }
}

fn written(bytes: impl AsRef<[u8]>) -> String {
    format!("= {}", digits_of(bytes.as_ref()))
}

fn line_words(found: Option<Line>) -> String {
    match found {
        None => "blank".into(),
        Some(Line::Tick { now }) => format!("tick {now}"),
        Some(Line::Packet { port, moment, payload }) => format!("packet {port} {moment} {}", digits_of(&payload)),
    }
}

/// The words of `nbt replay` for a datagram that is handed over.
fn handed(it: Delivery<'_>) -> String {
    format!("{} {} {} {} {}", it.key, it.kind, it.source, it.destination, digits_of(it.data))
}

/// The words of `nbt replay` for what became of a payload.
fn taken(outcome: Outcome<'_>) -> String {
    let error = |answer: Option<&[u8]>| answer.map_or(String::new(), |it| format!(" error {}", digits_of(it)));
    match outcome {
        Outcome::Delivered(it) => format!("delivered {}", handed(it)),
        Outcome::Kept(key) => format!("kept {key}"),
        Outcome::Spoilt(key) => format!("spoilt {key}"),
        Outcome::Unheard { key, answer } => format!("unheard {key}{}", error(answer)),
        Outcome::Other => "other".into(),
        Outcome::Refused { error: fault, answer } => format!("refused {fault}{}", error(answer)),
    }
}

/// A response of bytes, which is also that of the values that are read of it.
fn response(response: Response<'_>) -> Result<Vec<u8>> {
    let payload = response.write()?;
    let packet = service::read(&payload)?;
    let record = packet.answers().next().unwrap();
    let (identifier, word) = (packet.header.identifier, packet.header.word);
    let (name, time_to_live) = (&*record.name.to_string(), record.time_to_live);
    let of = |answer: Answer<'_>| Response { identifier, word, name, time_to_live, answer }.write();
    let again = match record.rdata() {
        Rdata::Addresses(found) => of(Answer::Addresses(&found.collect::<Vec<_>>())),
        Rdata::NodeStatus(found) => of(Answer::NodeStatus(&found.names.collect::<Vec<_>>(), found.unit)),
        Rdata::NameServer(name) => of(Answer::NameServer(&name)),
        Rdata::Other(data) => of(Answer::Other(record.kind(), data)),
        _ => panic!("a view that this program doesn't know"),
    };
    assert_eq!(again.as_ref(), Ok(&payload));
    again
}

// Payloads, in the words of tests/model/values.py.

fn service_values(payload: &[u8]) -> Value {
    let Front { packet, fault } = service::read_front(payload);
    if let Some(packet) = packet {
        let parts = [packet.answers(), packet.authorities(), packet.additional()];
        assert_eq!(json!(parts.into_iter().flatten().collect::<Vec<_>>()), json!(packet.records()));
    }
    json!({"front": packet, "fault": fault, "packet": service::read(payload).ok()})
}

fn datagram_values(payload: &[u8]) -> Value {
    let datagram::Front { header, fault } = datagram::read_front(payload);
    let front = header.map(|it| {
        json!({"type": it.message_type, "flags": it.flags, "identifier": it.identifier, "address": it.sender.ip(),
            "port": it.sender.port(), "offset": it.offset, "source": it.source, "destination": it.destination})
    });
    let packet = datagram::read(payload).ok().map(|it| {
        let (kind, offset, source, destination, data) = match it.body {
            Body::Fragment(it) => (it.kind as u8, it.offset, Some(it.source), Some(it.destination), hexadecimal(it.data)),
            Body::Error(code) => (0x13, 0, None, None, hexadecimal(&[code])),
            Body::Query(query, name) => (query as u8, 0, None, Some(name), String::new()),
        };
        json!({"type": kind, "flags": it.flags, "identifier": it.identifier, "address": it.sender.ip(), "data": data,
            "port": it.sender.port(), "offset": offset, "source": source, "destination": destination, "used": it.used})
    });
    json!({"front": front, "fault": fault, "packet": packet})
}

fn session_values(payload: &[u8]) -> Value {
    let session::Front { header, fault } = session::read_front(payload);
    let front = header.map(|it| json!({"type": it.packet_type, "flags": it.flags, "length": it.body_length}));
    let packet = session::Packet::try_from(payload).ok().map(|it| {
        let (called, calling) = it.names().unzip();
        let retarget = it.retarget().map(|it| (*it.ip(), it.port()));
        json!({"type": it.kind() as u8, "body": hexadecimal(it.body()), "called": called, "calling": calling,
            "retarget": retarget, "used": it.used()})
    });
    json!({"front": front, "fault": fault, "packet": packet})
}
