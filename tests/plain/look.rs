//! What nbt-look prints of a pcap file: a line for each packet of ports 137, 138 and 139, and counts.
//! The file is little-endian, of microseconds, and of Ethernet without tags; its packets are whole,
//! and of IPv4 without fragments.

use crate::datagrams::{four_bytes, fragment, two_bytes};
use crate::names::read_name;
use crate::report::Report;
use crate::service::{rdata, read, Entry, ADDRESSES};
use crate::sessions::Sessions;
use std::io::{self, BufReader, ErrorKind, Read};
use std::net::Ipv4Addr;

const HEADER: usize = 24;
const RECORD: usize = 16;
const MAGIC: [u8; 4] = [0xd4, 0xc3, 0xb2, 0xa1];
const TCP: u8 = 6;
const UDP: u8 = 17;
const WITHOUT: [&str; 3] = [
    " TCP segments without data",
    " TCP segments of a packet that another frame completes",
    " frames of other ports and protocols",
];

/// How many frames there are, and what is said before their lines.
#[derive(Default)]
struct List {
    frames: u64,
    packets: u64,
    /// Segments without data, those of a packet that another frame completes, and other frames.
    without: [u64; 3],
    first: Option<u64>,
    widths: [usize; 4],
    entries: Vec<Entry>,
}

/// A packet: from where to where, its ports, that of its service, and what it carries.
struct Packet<'a> {
    source: Ipv4Addr,
    target: Ipv4Addr,
    ports: [u16; 2],
    service: u16,
    payload: &'a [u8],
}

pub fn look(report: &mut Report) -> io::Result<()> {
    let mut input = BufReader::with_capacity(65_536, io::stdin().lock());
    let (mut list, mut sessions, mut header, mut frame) = (List::new(), Sessions::default(), [0; HEADER], Vec::new());
    input.read_exact(&mut header)?;
    if header[..4] != MAGIC || header[20] != 1 {
        return Err(ErrorKind::InvalidData.into());
    }
    while let Some(time) = next_frame(&mut input, &mut frame)? {
        list.take(time, &frame, &mut sessions, report).ok_or(ErrorKind::InvalidData)?;
        report.pass_on()?;
    }
    list.say_counts(report);
    report.print()
}

/// Reads a frame, and gives its time in microseconds; none at the end.
fn next_frame(input: &mut impl Read, frame: &mut Vec<u8>) -> io::Result<Option<u64>> {
    let mut record = [0; RECORD];
    if let Err(error) = input.read_exact(&mut record) {
        return if error.kind() == ErrorKind::UnexpectedEof { Ok(None) } else { Err(error) };
    }
    let number = |at: usize| u32::from_le_bytes([record[at], record[at + 1], record[at + 2], record[at + 3]]);
    frame.resize(number(8) as usize, 0);
    input.read_exact(frame)?;
    Ok(Some(number(0) as u64 * 1_000_000 + number(4) as u64))
}

impl List {
    fn new() -> List {
        List { widths: [5, 9, 15, 15], ..List::default() }
    }

    fn take(&mut self, time: u64, frame: &[u8], sessions: &mut Sessions, report: &mut Report) -> Option<()> {
        self.frames += 1;
        let first = *self.first.get_or_insert(time);
        let packet = frame.get(14..).filter(|_| frame[12..14] == [8, 0])?;
        let length = two_bytes(packet, 2) as usize;
        let header = (packet[0] as usize & 15) * 4;
        let body = packet.get(header..length).filter(|_| two_bytes(packet, 6) & 0x3fff == 0)?;
        let ports = [two_bytes(body, 0), two_bytes(body, 2)];
        let address = |at: usize| Ipv4Addr::new(packet[at], packet[at + 1], packet[at + 2], packet[at + 3]);
        let (source, target, since) = (address(12), address(16), time.checked_sub(first)?);
        match packet[9] {
            TCP if ports.contains(&139) => {
                let payload = body.get((body[12] >> 4) as usize * 4..)?;
                let (ends, before) = ((source.octets(), target.octets(), ports), self.packets);
                sessions.take(ends, four_bytes(body, 4), body[13], payload, |payload| {
                    self.say(since, &Packet { source, target, ports, service: 139, payload }, report)
                })?;
                self.without[payload.len().min(1)] += (self.packets == before) as u64;
            }
            UDP if ports[1] == 137 || ports[1] == 138 => {
                let payload = body.get(8..two_bytes(body, 4) as usize)?;
                self.say(since, &Packet { source, target, ports, service: ports[1], payload }, report)?;
            }
            _ => self.without[2] += 1,
        }
        Some(())
    }

    /// A line.
    fn say(&mut self, since: u64, packet: &Packet, report: &mut Report) -> Option<()> {
        let (number, [source, target]) = (self.frames, packet.ports);
        self.packets += 1;
        let seconds = (since / 1_000_000, since % 1_000_000);
        report.padded_left(&mut self.widths[0], |report| {
            report.number(number);
        });
        report.padded_left(&mut self.widths[1], |report| {
            report.number(seconds.0).words(".").six_digits(seconds.1);
        });
        for (at, address, port) in [(2, packet.source, source), (3, packet.target, target)] {
            report.padded(&mut self.widths[at], |report| {
                report.address(&address.octets());
                if port != packet.service {
                    report.words(":").number(port);
                }
            });
        }
        match packet.service {
            137 => say_service(packet.payload, &mut self.entries, report)?,
            138 => say_datagram(packet.payload, report)?,
            _ => say_session(packet.payload, report)?,
        }
        report.words("\n");
        Some(())
    }

    fn say_counts(&self, report: &mut Report) {
        report.number(self.frames).words(" frames, ").number(self.packets).words(" packets, 0 malformed, ");
        report.words("0 left out\n");
        let all: u64 = self.without.iter().sum();
        if all > 0 {
            report.number(all).words(" frames without a packet: ");
        }
        for (number, (count, words)) in self.without.iter().zip(WITHOUT).filter(|(count, _)| **count > 0).enumerate() {
            report.words(if number > 0 { ", " } else { "" }).number(*count).words(words);
        }
        report.words(if all > 0 { "\n" } else { "" });
    }
}

/// A query, or a positive response to one.
fn say_service(packet: &[u8], entries: &mut Vec<Entry>, report: &mut Report) -> Option<()> {
    read(packet, entries).filter(|used| *used == packet.len())?;
    let (word, first) = (two_bytes(packet, 2), entries.first()?);
    match (word >> 11, word & 15) {
        (0, _) => {
            report.words("asks for ").domain(packet, first.name);
        }
        (16, 0) => {
            report.words("answers: ").domain(packet, first.name).words(" is at ");
            let fields = entries.last().filter(|it| two_bytes(packet, it.fields) == ADDRESSES)?.fields;
            let data = rdata(packet, fields).filter(|data| data.len() == 6 && data[0] & 0x80 == 0)?;
            report.address(&data[2..]);
        }
        _ => return None,
    }
    Some(())
}

/// A datagram in one piece.
fn say_datagram(packet: &[u8], report: &mut Report) -> Option<()> {
    let fragment = fragment(packet).filter(|it| it.is_first && !it.has_more && it.offset == 0)?;
    let (source, destination) = fragment.both_names();
    report.words(["", "group ", "broadcast "][fragment.kind as usize - 0x10]).words("datagram from ").domain(source, 0);
    report.words(" to ").domain(destination, 0).words(", ").number(fragment.data.len() as u64);
    report.words(if fragment.data.len() == 1 { " byte" } else { " bytes" });
    Some(())
}

/// A packet of port 139.
fn say_session(packet: &[u8], report: &mut Report) -> Option<()> {
    let length = packet.len() as u64 - 4;
    match (packet[0], length) {
        (0x00, 1) => drop(report.words("sends 1 byte")),
        (0x00, _) => drop(report.words("sends ").number(length).words(" bytes")),
        (0x81, _) => {
            let middle = read_name(packet, 4)?;
            read_name(packet, middle).filter(|end| *end == packet.len())?;
            report.words("calls ").domain(packet, 4).words(" as ").domain(packet, middle);
        }
        (0x82, 0) => drop(report.words("accepts")),
        (0x85, 0) => drop(report.words("keeps the session alive")),
        _ => return None,
    }
    Some(())
}
