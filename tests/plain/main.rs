//! Commands of `nbt` in plain Rust without proofs, on the crates that `nbt` stands on: what
//! tests/bench.py compares with. It judges all that stands in the captures and tables that are
//! measured there, and prints what `nbt` does. What none of them has ends it, as fragments that
//! overlap or disagree do.
//!
//! usage: plain replay NAME | plain show | plain save | plain merge | plain look | plain ROUNDS

mod capture;
mod datagrams;
mod look;
mod merge;
mod names;
mod replay;
mod report;
mod service;
mod sessions;
mod show;
mod sum;
mod tables;

use report::Report;
use std::io::{self, Read};

fn main() -> io::Result<()> {
    let words: Vec<String> = std::env::args().skip(1).collect();
    let (mut input, mut report) = (Vec::new(), Report::default());
    if words == ["look"] {
        return look::look(&mut report);
    }
    io::stdin().lock().take(capture::MOST_INPUT).read_to_end(&mut input)?;
    let done = match words.iter().map(String::as_str).collect::<Vec<_>>()[..] {
        ["replay", name] => replay::replay(&input, name, &mut report),
        ["show"] => show::show(&input, &mut report),
        ["save", ..] => replay::save(&input, &mut report),
        ["merge", ..] => merge::merge(&input, &mut report),
        [rounds] => sum::sum(&input, rounds, &mut report),
        _ => None,
    };
    done.ok_or(io::ErrorKind::InvalidData)?;
    report.print()
}
