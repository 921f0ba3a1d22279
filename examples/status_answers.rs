//! Answers the node status requests of port 137 that ask for a node with these names. A capture comes on standard input, and the
//! answers go to standard output, as lines of a capture too:
//!     nbt build status 0001 'FRED<20>' | cargo run | nbt show
//! in a program of which this is src/main.rs, and whose Cargo.toml has a line for nbt, as docs/CALLING.md says.

use std::io::{self, BufRead, Write};

use nbt::service::{read, NodeName, Response, NBSTAT};
use nbt::{capture_line, Line, Name};

/// The names of the node, and NAME_FLAGS of each: G 0x8000, a group's name, and ACT 0x0400.
const NAMES: [(&str, u16); 3] = [
    ("FRED<00>", 0x0400),
    ("FRED<20>", 0x0400),
    ("OFFICE<00>", 0x8400),
];
/// Its unit, an address that no device has (RFC 7042 section 2.1.2).
const UNIT: [u8; 6] = [0, 0, 0x5e, 0, 0x53, 1];
/// The name by which any node is asked.
const ANY: [u8; 16] = *b"*\0\0\0\0\0\0\0\0\0\0\0\0\0\0\0";

fn main() -> io::Result<()> {
    let (names, mut packet) = (own_names()?, Vec::new());
    let mut out = io::stdout().lock();
    for line in io::stdin().lock().lines() {
        let payload = payload_of(&line?)?.unwrap_or_default();
        if let Some((identifier, name)) = asked(&payload, &names) {
            let name = name.to_string();
            Response::node_status(identifier, &name, &names, UNIT).write_into(&mut packet)?;
            writeln!(out, "137 0 {}", digits_of(&packet))?;
        }
    }
    Ok(())
}

/// The names of the node, as they stand in a packet.
fn own_names() -> nbt::Result<Vec<NodeName>> {
    let node_name = |(text, flags): (&str, u16)| {
        let name = text.parse()?;
        Ok(NodeName { name, flags })
    };
    NAMES.into_iter().map(node_name).collect()
}

/// The identifier and the name of a node status request, if it asks for this node.
fn asked(payload: &[u8], names: &[NodeName]) -> Option<(u16, Name)> {
    let packet = read(payload).ok()?;
    let question = packet.questions().next()?;
    let is_ours = |name| name == Name::from(ANY) || names.iter().any(|it| it.name == name);
    let is_request = !packet.header.is_response() && question.kind == NBSTAT;
    (is_request && is_ours(question.name)).then_some((packet.header.identifier, question.name))
}

/// The payload of a line of a capture, if it came to port 137.
fn payload_of(line: &str) -> nbt::Result<Option<Vec<u8>>> {
    match capture_line(line.as_bytes())? {
        Some(Line::Packet {
            port: 137, payload, ..
        }) => Ok(Some(payload)),
        _ => Ok(None),
    }
}

/// Bytes as digits.
fn digits_of(bytes: &[u8]) -> String {
    bytes.iter().map(|byte| format!("{byte:02x}")).collect()
}
