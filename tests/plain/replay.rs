//! A station that puts datagrams together: `replay` reports what it does, `save` prints the table that it then has.

use crate::capture::{each_line, Line};
use crate::datagrams::{fragment, KINDS};
use crate::names::spelling_of;
use crate::report::Report;
use crate::tables::Table;

/// Acts on a payload of port 138 in a station with this name, and reports it.
fn take(table: &mut Table, name: &[u8], moment: u64, payload: &[u8], report: &mut Report) -> Option<()> {
    let fragment = fragment(payload)?;
    let (source, destination) = fragment.both_names();
    match table.insert(moment, &fragment)? {
        None => report.words("kept ").key(fragment.key),
        Some(_) if name != destination => report.words("unheard ").key(fragment.key),
        Some(data) => {
            report.words("delivered ").key(fragment.key).words(" ").words(KINDS[fragment.kind as usize - 0x10]);
            report.words(" ").domain(source, 0).words(" ").domain(destination, 0).words(" ").data(data)
        }
    };
    Some(())
}

pub fn replay(input: &[u8], text: &str, report: &mut Report) -> Option<()> {
    let (mut table, name) = (Table::default(), spelling_of(text)?);
    each_line(input, |number, line, payload| {
        report.number(number).words(" ");
        match line {
            Line::Tick(now) => drop(report.words("dropped ").number(table.tick(now) as u64)),
            Line::Payload(b"138 ", moment) => take(&mut table, &name, moment, payload, report)?,
            Line::Payload(..) => return None,
        }
        report.words("\n");
        Some(())
    })
}

pub fn save(input: &[u8], report: &mut Report) -> Option<()> {
    let mut table = Table::default();
    each_line(input, |_, line, payload| match line {
        Line::Tick(now) => Some(table.tick(now)).map(drop),
        Line::Payload(b"138 ", moment) => table.insert(moment, &fragment(payload)?).map(drop),
        Line::Payload(..) => None,
    })?;
    table.save(report);
    Some(())
}
