//! What the calls answer, by examples: the bytes that several of them have, and how a refusal looks.

mod datagrams;
mod names;
mod responses;
#[cfg(feature = "serde")]
mod serialized;
mod service;
mod sessions;
mod shown;
mod stations;

use nbt::{Result, Status};

/// The spelling of `FRED<20>` (RFC 1001 section 14.1 has these letters).
pub const FRED: &[u8] = b"\x20EGFCEFEECACACACACACACACACACACACA\0";
/// The spelling of `JOE<00>`.
pub const JOE: &[u8] = b"\x20EKEPEFCACACACACACACACACACACACAAA\0";

/// The parts, one after the other.
pub fn joined(parts: &[&[u8]]) -> Vec<u8> {
    parts.concat()
}

/// Why a call did nothing, and where the fault stands.
#[track_caller]
pub fn refused<T: std::fmt::Debug>(answer: Result<T>) -> (Status, Option<usize>) {
    let error = answer.unwrap_err();
    (error.status(), error.at())
}
