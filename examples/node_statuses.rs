//! Prints what each node status response of port 137 says: the unit of the node, and its names. A capture comes on standard
//! input:
//!     nbt-look --lines samba.pcap | cargo run
//! in a program of which this is src/main.rs, and whose Cargo.toml has a line for nbt, as docs/CALLING.md says.

use std::io::{self, BufRead, Write};

use nbt::service::{read, NodeStatus, Rdata};
use nbt::{capture_line, Line};

fn main() -> io::Result<()> {
    let mut out = io::stdout().lock();
    for line in io::stdin().lock().lines() {
        if let Some(payload) = payload_of(&line?)? {
            write_statuses(&mut out, &payload)?;
        }
    }
    Ok(())
}

/// Writes a line for each node status in a payload of port 137, if a packet stands there.
fn write_statuses(out: &mut impl Write, payload: &[u8]) -> io::Result<()> {
    if let Ok(packet) = read(payload) {
        for record in packet.answers() {
            if let Rdata::NodeStatus(status) = record.rdata() {
                writeln!(out, "{}", said(status))?;
            }
        }
    }
    Ok(())
}

/// The payload of a line of a capture, if it came to port 137.
fn payload_of(line: &str) -> nbt::Result<Option<Vec<u8>>> {
    match capture_line(line.as_bytes())? {
        Some(Line::Packet {
            port: 137, payload, ..
        }) => Ok(Some(payload)),
        _ => Ok(None),
    }
}

/// The unit of a node, and its names.
fn said(status: NodeStatus<'_>) -> String {
    let unit = match status.unit {
        Some([a, b, c, d, e, f]) => format!("{a:02x}:{b:02x}:{c:02x}:{d:02x}:{e:02x}:{f:02x}"),
        None => "no unit".to_string(),
    };
    let names = status.names.map(|it| {
        let group = if it.is_group() { " (group)" } else { "" };
        format!("{}{group}", it.name)
    });
    format!("{unit}: {}", names.collect::<Vec<_>>().join(", "))
}
