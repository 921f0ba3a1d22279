//! NetBIOS packets over TCP and UDP (RFC 1001, RFC 1002), read and written by the library libnbt, whose calls are
//! proved to do what they say.
//!
//! - [`spell`] and [`text`]: names as texts, and as packets spell them
//! - [`Name`], [`Spelling`]: names that lie in place, and names that are lent from a packet
//! - [`show`], [`brief`], [`json`]: what the command `nbt show` prints of a payload, and what with `--brief` and `--json`
//! - [`service`]: packets of port 137
//! - [`datagram`]: packets of port 138
//! - [`session`]: packets of port 139
//! - [`station`]: stations, which put datagrams together
//! - [`capture_line`]: lines of captures
//! - [`merge`], [`differ`], [`list_table`], [`table_json`]: saved tables, joined, compared and listed
//!
//! ```
//! use nbt::service::{read, Entry, Operation, Rdata, Request};
//!
//! let entry = Entry { nb_flags: 0, address: "10.0.0.6".parse()? };
//! let payload = Request::Registration(entry, 300_000).write(2, "FRED<20>", true)?;
//! let packet = read(&payload)?;
//! assert_eq!(packet.header.operation(), Ok(Operation::Registration));
//! for record in packet.additional() {
//!     assert_eq!(record.name.to_string(), "FRED<20>");
//!     if let Rdata::Addresses(mut claimants) = record.rdata() {
//!         assert_eq!(claimants.next(), Some(entry));
//!     }
//! }
//! let refused = read(&payload[..40]).unwrap_err();
//! assert_eq!((refused.status(), refused.at()), (nbt::Status::NameTruncated, Some(40)));
//! assert_eq!(refused.to_string(), "name: truncated 40");
//! # Ok::<(), Box<dyn std::error::Error>>(())
//! ```
//!
//! Names as texts are written as in `FRED<20>` or `FRED<20>.NETBIOS.COM` (our choice): the characters of the name, its
//! sixteenth byte as two hexadecimal digits between `<` and `>`, and the labels of its scope, each after a full stop. A
//! byte that isn't one of the plain ones is a backslash and two hexadecimal digits.
//!
//! Each call may be made from any thread, those on one station one at a time. One that needs memory may answer
//! [`Status::NoMemory`], and then nothing has changed.
//!
//! With the feature `serde` the values have serde's `Serialize`, and those that lend nothing `Deserialize`: names as their texts,
//! from which a NetBIOS [`Name`] is read back, bytes as hexadecimal digits, kinds and statuses as their names, structures by
//! their fields. [`json`] is another form, that of `nbt show --json`.
//!
//! The build script finds the library by `pkg-config`: `make install-lib` installs it, and `PKG_CONFIG_PATH` may name
//! the folder of `nbt.pc`. With `NBT_STATIC=1` it is linked into the program.
#![deny(missing_docs, unsafe_op_in_unsafe_fn)]

mod codes;
mod error;
// Made, line by line.
#[allow(dead_code)]
#[rustfmt::skip]
mod header;
mod names;
mod packets;
mod rdata;
mod responses;
mod room;
#[cfg(feature = "serde")]
mod serialized;
mod service_packets;
mod tables;

pub mod datagram;
pub mod service;
pub mod session;
pub mod station;

pub use error::Error;
pub use header::Status;
pub use names::{spell, text, Labels, Name, Spelling};
pub use packets::{brief, brief_into, capture_line, json, json_into, show, show_into, version, Line};
pub use station::Station;
pub use tables::{differ, list_table, merge, table_json, Limits};

/// What a call answers: a value, or why it did nothing.
pub type Result<T> = std::result::Result<T, Error>;
