//! Stations: names in lists of any kind, threads, and what is kept of what they hand over.

use std::thread;

use crate::refused;
use nbt::datagram::{Datagram, Kind};
use nbt::station::{Outcome, OwnedDelivery};
use nbt::{Limits, Station, Status};

/// A station at 10.0.0.9:138 with these names.
#[track_caller]
pub fn station(names: &[&str]) -> Station {
    Station::new(names, "10.0.0.9:138".parse().unwrap(), Limits::default()).unwrap()
}

/// The two pieces of a datagram from `JOE<00>` at 10.0.0.5:138.
pub fn pieces(identifier: u16, destination: &str) -> [Vec<u8>; 2] {
    let datagram = Datagram {
        kind: Kind::Unique,
        identifier,
        sender: "10.0.0.5:138".parse().unwrap(),
        source: "JOE<00>",
        destination,
        data: b"hello, FRED",
    };
    let packets = datagram.cut(6).unwrap();
    let pieces: Vec<_> = packets.iter().map(<[u8]>::to_vec).collect();
    pieces.try_into().unwrap()
}

#[test]
fn a_station_has_so_many_names() {
    let many: Vec<_> = (0..255).map(|it| format!("N{it}<20>")).collect();
    let last = many[..254].join(" ").len() + 1;
    let address = "10.0.0.9:138".parse().unwrap();
    assert_eq!(refused(Station::new(&many, address, Limits::default())), (Status::TooManyNames, Some(last)));
    assert!(Station::new(&many[..254], address, Limits::default()).is_ok());
    for names in [&[""][..], &["", ""]] {
        assert_eq!(refused(Station::new(names, address, Limits::default())), (Status::BadText, Some(0)));
    }
}

#[test]
fn a_station_goes_to_another_thread() {
    let [first, second] = pieces(7, "FRED<20>");
    let mut station = station(&["FRED<20>"]);
    station.take(0, &first).unwrap();
    let heard = thread::spawn(move || matches!(station.take(0, &second), Ok(Outcome::Delivered(_))));
    assert!(heard.join().unwrap());
}

#[test]
fn lists_of_names() {
    fn heard<N: IntoIterator>(names: N) -> bool
    where
        N::Item: AsRef<str>,
    {
        let address = "10.0.0.9:138".parse().unwrap();
        let mut station = Station::new(names, address, Limits::default()).unwrap();
        let [first, second] = pieces(7, "FRED<20>");
        station.take(0, &first).unwrap();
        matches!(station.take(0, &second), Ok(Outcome::Delivered(_)))
    }
    let owned = vec!["ANN<20>".to_string(), "FRED<20>".to_string()];
    assert!(heard(&owned) && heard(owned.iter().rev()) && heard(owned));
    assert!(heard(["FRED<20>"]) && heard("FRED<20> ANN<20>".split(' ')));
    assert!(!heard(["ANN<20>"]) && !heard(Vec::<String>::new()));
}

#[test]
fn deliveries_are_kept() {
    let mut station = station(&["FRED<20>"]);
    let mut kept = Vec::new();
    for identifier in 1..4 {
        for payload in pieces(identifier, "FRED<20>") {
            if let Outcome::Delivered(it) = station.take(0, &payload).unwrap() {
                kept.push(it.to_owned());
                let copy = kept.last().unwrap();
                assert_eq!((copy.kind, copy.key), (it.kind, it.key));
                assert_eq!((copy.source, copy.destination), (it.source.into(), it.destination.into()));
                assert_eq!(copy.data, it.data);
            }
        }
    }
    drop(station);
    let shown = |it: &OwnedDelivery| format!("{} {} {} {}", it.key, it.kind, it.source, it.destination);
    let shown: Vec<_> = kept.iter().map(shown).collect();
    let wanted = [1, 2, 3].map(|it| format!("10.0.0.5:138/{it:04x} unique JOE<00> FRED<20>"));
    assert_eq!(shown, wanted);
}
