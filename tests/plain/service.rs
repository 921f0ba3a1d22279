//! The packets of port 137.

use crate::datagrams::{four_bytes, two_bytes};
use crate::names::read_domain;
use crate::report::Report;
use std::slice::ChunksExact;

const HEADER: usize = 12;
/// The section whose items are no records.
pub const QUESTIONS: usize = 0;
pub const ADDRESSES: u16 = 0x0020;
pub const STATUS: u16 = 0x0021;
/// What an item of a section is, how its count is called, and where that stands.
const SECTIONS: [(&str, &str, usize); 4] =
    [("question", " qd=", 4), ("answer", " an=", 6), ("authority", " ns=", 8), ("additional", " ar=", 10)];
const OPS: [&str; 9] = ["query", "1", "2", "3", "4", "registration", "release", "wack", "refresh"];
const FLAGS: [(u16, &str); 5] = [(0x0400, "AA"), (0x0200, "TC"), (0x0100, "RD"), (0x0080, "RA"), (0x0010, "B")];
const NAME_FLAGS: [(u16, &str); 5] =
    [(0x8000, "G"), (0x1000, "DRG"), (0x0800, "CNF"), (0x0400, "ACT"), (0x0200, "PRM")];
const RCODES: [&str; 8] = ["ok", "FMT_ERR", "SRV_ERR", "NAM_ERR", "IMP_ERR", "RFS_ERR", "ACT_ERR", "CFT_ERR"];

/// Where a question or a record stands: its section, its name, and the fields after it.
pub struct Entry {
    pub section: usize,
    pub name: usize,
    pub fields: usize,
}

/// The RDATA of the record with these fields.
pub fn rdata(packet: &[u8], fields: usize) -> Option<&[u8]> {
    let data = packet.get(fields + 10..)?;
    data.get(..two_bytes(packet, fields + 8) as usize)
}

/// Judges all of a packet, lists its questions and records, and gives the offset after the last one.
pub fn read(packet: &[u8], entries: &mut Vec<Entry>) -> Option<usize> {
    entries.clear();
    let header = packet.get(..HEADER)?;
    let mut at = HEADER;
    for (section, (_, _, place)) in SECTIONS.iter().enumerate() {
        for _ in 0..two_bytes(header, *place) {
            let fields = read_domain(packet, at)?;
            entries.push(Entry { section, name: at, fields });
            at = match section {
                QUESTIONS => fields + packet.get(fields..fields + 4)?.len(),
                _ => fields + 10 + rdata(packet, fields)?.len(),
            };
        }
    }
    Some(at)
}

fn show_header(packet: &[u8], used: usize, report: &mut Report) -> Option<()> {
    let word = two_bytes(packet, 2);
    report.words("id=").digits(&packet[..2]).words(" word=").digits(&packet[2..4]);
    report.words(" op=").words(OPS.get((word >> 11 & 15) as usize)?);
    report.words(" flags=").set(word, &FLAGS).words(" rcode=").words(RCODES.get(word as usize & 15)?);
    for (_, title, place) in SECTIONS {
        report.words(title).number(two_bytes(packet, place));
    }
    report.words(" used=").number(used as u64);
    Some(())
}

fn show_entry(packet: &[u8], entry: &Entry, report: &mut Report) -> Option<()> {
    let fields = &packet[entry.fields..];
    report.words("\n  ").words(SECTIONS[entry.section].0).words(" ").domain(packet, entry.name);
    report.words(" type=").digits(&fields[..2]).words(" class=").digits(&fields[2..4]);
    if entry.section == QUESTIONS {
        return Some(());
    }
    let rdata = rdata(packet, entry.fields)?;
    report.words(" ttl=").number(four_bytes(fields, 4)).words(" data=").data(rdata);
    match two_bytes(fields, 0) {
        ADDRESSES if rdata.len() % 6 == 0 => show_addresses(rdata, report),
        STATUS => show_status(rdata, report)?,
        _ => {}
    }
    Some(())
}

fn show_addresses(rdata: &[u8], report: &mut Report) {
    for entry in rdata.chunks_exact(6) {
        report.words("\n    entry");
        show_flags(&entry[..2], report).words(" address=").address(&entry[2..]);
    }
}

fn show_flags<'a>(flags: &[u8], report: &'a mut Report) -> &'a mut Report {
    report.words(" flags=").digits(flags).words(" ont=").number(flags[0] >> 5 & 3)
}

/// The names in the RDATA of a node status, and the unit's address after them, if all of them are there.
pub fn nodes(rdata: &[u8]) -> Option<(ChunksExact<'_, u8>, &[u8])> {
    let (count, rest) = rdata.split_first()?;
    let (names, statistics) = rest.split_at_checked(18 * *count as usize)?;
    Some((names.chunks_exact(18), statistics.get(..6)?))
}

fn show_status(rdata: &[u8], report: &mut Report) -> Option<()> {
    let (names, unit) = nodes(rdata)?;
    for name in names {
        report.words("\n    name ").sixteen(&name[..16]);
        show_flags(&name[16..], report).words(" set=").set(two_bytes(name, 16), &NAME_FLAGS);
    }
    report.words("\n    unit=").digits(unit);
    Some(())
}

pub fn show_service(packet: &[u8], entries: &mut Vec<Entry>, report: &mut Report) -> Option<()> {
    let used = read(packet, entries)?;
    show_header(packet, used, report)?;
    entries.iter().try_for_each(|entry| show_entry(packet, entry, report))
}
