//! What tests/bench/service_loop.c does of packets of port 137: judges each and lists where its
//! questions and records stand, reads each, and prints the sum of what was read, and the
//! nanoseconds of processor time that it took.

use crate::capture::each_line;
use crate::datagrams::{four_bytes, two_bytes};
use crate::names::{labels, sixteen};
use crate::report::Report;
use crate::service::{nodes, rdata, read, Entry, ADDRESSES, QUESTIONS, STATUS};

/// The sum of a packet's values.
fn sum_of_packet(packet: &[u8], entries: &mut Vec<Entry>) -> Option<u64> {
    let mut sum = two_bytes(packet, 0) as u64 + two_bytes(packet, 2) as u64 + read(packet, entries)? as u64;
    for entry in entries {
        sum += sum_of_name(packet, entry) + sum_of_fields(packet, entry)?;
    }
    Some(sum)
}

/// The sum of what a question and a record have alike.
fn sum_of_name(packet: &[u8], entry: &Entry) -> u64 {
    let (mut spelled, mut netbios, mut first) = (1, false, 0);
    for label in labels(packet, entry.name) {
        if spelled == 1 {
            (netbios, first) = (sixteen(label).is_some(), label[0]);
        }
        spelled += 1 + label.len();
    }
    let kind_and_class = two_bytes(packet, entry.fields) as u64 + two_bytes(packet, entry.fields + 2) as u64;
    spelled as u64 + netbios as u64 + first as u64 + kind_and_class
}

fn sum_of_fields(packet: &[u8], entry: &Entry) -> Option<u64> {
    if entry.section == QUESTIONS {
        return Some((entry.fields + 4) as u64);
    }
    let rdata = rdata(packet, entry.fields)?;
    let parts = match two_bytes(packet, entry.fields) {
        ADDRESSES if rdata.len() % 6 == 0 => {
            rdata.chunks_exact(6).map(|entry| two_bytes(entry, 0) as u64 + four_bytes(entry, 2) as u64).sum()
        }
        STATUS => {
            let (names, unit) = nodes(rdata)?;
            let names = names.map(|node| two_bytes(node, 16) as u64 + node[0] as u64 + node[15] as u64);
            names.sum::<u64>() + unit[5] as u64
        }
        _ => 0,
    };
    let place_and_end = entry.section + entry.fields + 10 + rdata.len();
    Some(four_bytes(packet, entry.fields + 4) as u64 + place_and_end as u64 + parts)
}

extern "C" {
    /// The microseconds of processor time of this process.
    fn clock() -> i64;
}

pub fn sum(input: &[u8], rounds: &str, report: &mut Report) -> Option<()> {
    let (rounds, mut payloads): (usize, _) = (rounds.parse().ok()?, Vec::new());
    each_line(input, |_, _, payload| Some(payloads.push(payload.to_vec())))?;
    let (mut entries, mut sum) = (Vec::new(), 0);
    let began = unsafe { clock() };
    for payload in (0..rounds).flat_map(|_| &payloads) {
        sum += sum_of_packet(payload, &mut entries)?;
    }
    let spent = unsafe { clock() } - began;
    report.number(sum).words(" ").number(spent as u64 * 1_000).words("\n");
    Some(())
}
