//! What `show` prints of each line of a capture, and of the packets of port 139.

use crate::capture::{each_line, Line};
use crate::datagrams::{show_datagram, two_bytes};
use crate::names::read_name;
use crate::report::Report;
use crate::service::show_service;

pub fn show(input: &[u8], report: &mut Report) -> Option<()> {
    let mut entries = Vec::new();
    each_line(input, |number, line, payload| {
        report.number(number);
        match line {
            Line::Tick(now) => drop(report.words(" tick ").number(now)),
            Line::Payload(b"137 ", _) => show_service(payload, &mut entries, report.words(" 137 "))?,
            Line::Payload(b"138 ", _) => show_datagram(payload, report.words(" 138 "))?,
            Line::Payload(b"139 ", _) => show_session(payload, report.words(" 139 "))?,
            Line::Payload(..) => return None,
        }
        report.words("\n");
        Some(())
    })
}

fn show_session(bytes: &[u8], report: &mut Report) -> Option<()> {
    let &[kind, flags, ..] = bytes.first_chunk::<4>()?;
    let end = 4 + ((flags as usize) << 16 | two_bytes(bytes, 2) as usize);
    let whole = bytes.get(..end).filter(|_| flags <= 1)?;
    let body = &whole[4..];
    match (kind, body.len()) {
        (0x00, length) => report.words("message length=").number(length as u64).words(" data=").data(body),
        (0x81, 68..=510) => {
            let middle = read_name(whole, 4)?;
            read_name(whole, middle).filter(|it| *it == end)?;
            report.words("request called=").domain(whole, 4).words(" calling=").domain(whole, middle)
        }
        (0x82, 0) => report.words("positive"),
        (0x83, 1) => report.words("negative code=").digits(body),
        (0x84, 6) => report.words("retarget address=").address(&body[..4]).words(" port=").number(two_bytes(body, 4)),
        (0x85, 0) => report.words("keepalive"),
        _ => return None,
    };
    report.words(" used=").number(end as u64);
    Some(())
}
