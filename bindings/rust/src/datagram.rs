//! Packets of the datagram service, port 138: RFC 1002 section 4.4.
//!
//! ```
//! use nbt::datagram::{read, Body, Datagram, Kind};
//!
//! let (kind, sender, data) = (Kind::Group, "10.0.0.5:138".parse()?, b"hello, FRED");
//! let datagram = Datagram { kind, identifier: 10, sender, source: "JOE<00>", destination: "FRED<20>", data };
//! for payload in &datagram.cut(4)? {
//!     let packet = read(payload)?;
//!     if let Body::Fragment(fragment) = packet.body {
//!         assert_eq!(fragment.destination.text()?, "FRED<20>");
//!         assert_eq!(packet.has_more(), fragment.offset < 8);
//!     }
//! }
//! # Ok::<(), Box<dyn std::error::Error>>(())
//! ```

use std::net::{Ipv4Addr, SocketAddrV4};

use crate::codes::flags;
use crate::header::{
    datagram_flag, nbt_datagram_error, nbt_datagram_front, nbt_datagram_query, nbt_datagram_read, nbt_datagram_write,
    FoundDatagram, FoundDatagramFront, DONE,
};
use crate::room::{found, written};
use crate::{Error, Result, Spelling};

pub use crate::header::datagram::{Kind, Query};

/// A packet of port 138, whose names and data are lent from the payload.
#[derive(Clone, Copy, Debug, PartialEq, Eq, Hash)]
#[cfg_attr(feature = "serde", derive(serde::Serialize))]
#[non_exhaustive]
pub struct Packet<'a> {
    /// FLAGS, all eight bits.
    pub flags: u8,
    /// DGM_ID.
    pub identifier: u16,
    /// SOURCE_IP and SOURCE_PORT.
    pub sender: SocketAddrV4,
    /// What it says.
    pub body: Body<'a>,
    /// The bytes of the packet; what follows it isn't looked at.
    pub used: usize,
}

/// What a packet says.
#[derive(Clone, Copy, Debug, PartialEq, Eq, Hash)]
#[cfg_attr(feature = "serde", derive(serde::Serialize), serde(rename_all = "lowercase"))]
pub enum Body<'a> {
    /// A piece of a datagram, or the whole of it.
    Fragment(Fragment<'a>),
    /// Why a datagram wasn't taken: 0x82 the destination isn't there, 0x83 and 0x84 the source's and the destination's
    /// names have a bad form; others come through.
    Error(u8),
    /// A question for a name, or its answer.
    Query(Query, Spelling<'a>),
}

/// A piece of a datagram (RFC 1002 section 4.4.2). That each carries both names is our choice.
#[derive(Clone, Copy, Debug, PartialEq, Eq, Hash)]
#[cfg_attr(feature = "serde", derive(serde::Serialize))]
#[non_exhaustive]
pub struct Fragment<'a> {
    /// For whom the datagram is.
    pub kind: Kind,
    /// PACKET_OFFSET: where the data begins in the datagram's, in bytes.
    pub offset: u16,
    /// SOURCE_NAME.
    pub source: Spelling<'a>,
    /// DESTINATION_NAME.
    pub destination: Spelling<'a>,
    /// The piece's data.
    #[cfg_attr(feature = "serde", serde(serialize_with = "crate::serialized::digits"))]
    pub data: &'a [u8],
}

flags! { Packet<'_>, flags:
    /// Whether more fragments follow.
    has_more datagram_flag::MORE;
    /// Whether it is the first fragment.
    is_first datagram_flag::FIRST;
}

/// Reads the packet at the front of a payload of port 138. No memory is taken.
///
/// # Errors
///
/// `Truncated` for less than the ten bytes of a header, `UnknownType`, `Truncated`, `SourceTruncated` to
/// `SourceNotNetbios`, `DestinationTruncated` to `DestinationNotNetbios`, judged in this order.
pub fn read(payload: &[u8]) -> Result<Packet<'_>> {
    let (status, found, at) = found!(FoundDatagram, nbt_datagram_read([payload]));
    if status != DONE {
        return Err(Error::new(status, at));
    }
    Ok(Packet {
        flags: found.flags,
        identifier: found.identifier,
        sender: SocketAddrV4::new(Ipv4Addr::from(found.address), found.port),
        body: body_of(payload, &found)?,
        used: found.used,
    })
}

/// The packet at the front of a payload. Errors are those of [`read`].
impl<'a> TryFrom<&'a [u8]> for Packet<'a> {
    type Error = Error;

    fn try_from(payload: &'a [u8]) -> Result<Packet<'a>> {
        read(payload)
    }
}

/// What the packet says that was found in this payload.
fn body_of<'a>(payload: &'a [u8], found: &FoundDatagram) -> Result<Body<'a>> {
    let part = |start: usize, length: usize| &payload[start..start + length];
    let destination = Spelling(part(found.destination, found.destination_length));
    let data = part(found.data, found.data_length);
    if let Ok(kind) = Kind::try_from(found.kind) {
        return Ok(Body::Fragment(Fragment {
            kind,
            offset: found.offset,
            source: Spelling(part(found.source, found.source_length)),
            destination,
            data,
        }));
    }
    if let Ok(query) = Query::try_from(found.kind) {
        return Ok(Body::Query(query, destination));
    }
    // The library answers no other: an error's data is its code.
    match data {
        &[code] => Ok(Body::Error(code)),
        _ => Err(Error::UNKNOWN_TYPE),
    }
}

/// The header of a packet of port 138, whether or not the packet stands, and the names of a fragment that are there whole.
#[derive(Clone, Copy, Debug, PartialEq, Eq, Hash)]
#[cfg_attr(feature = "serde", derive(serde::Serialize))]
#[non_exhaustive]
pub struct Header<'a> {
    /// MSG_TYPE, also one that no packet has; [`Kind`] and [`Query`] are made of it.
    pub message_type: u8,
    /// FLAGS, all eight bits.
    pub flags: u8,
    /// DGM_ID.
    pub identifier: u16,
    /// SOURCE_IP and SOURCE_PORT.
    pub sender: SocketAddrV4,
    /// PACKET_OFFSET; 0 but in a fragment.
    pub offset: u16,
    /// SOURCE_NAME; `None` but in a fragment, and where it isn't there whole.
    pub source: Option<Spelling<'a>>,
    /// DESTINATION_NAME; `None` but in a fragment, and where not both names are there whole.
    pub destination: Option<Spelling<'a>>,
}

flags! { Header<'_>, flags:
    /// Whether more fragments follow.
    has_more datagram_flag::MORE;
    /// Whether it is that of the first fragment.
    is_first datagram_flag::FIRST;
}

/// What stands of a payload, and why it isn't a packet.
#[derive(Clone, Copy, Debug, PartialEq, Eq, Hash)]
#[cfg_attr(feature = "serde", derive(serde::Serialize))]
pub struct Front<'a> {
    /// What stands; `None` where the header isn't there whole: the fourteen bytes of a fragment, ten of any other payload.
    pub header: Option<Header<'a>>,
    /// The fault with which [`read`] refuses the payload; `None` of a packet that stands whole.
    pub fault: Option<Error>,
}

/// Reads what stands at the front of a payload of port 138: the header and, of a fragment, the names that are there whole, inside
/// the bytes that DGM_LENGTH counts, of which some may be missing (our choice). No memory is taken.
///
/// ```
/// use nbt::datagram::{read, read_front, Datagram, Kind};
///
/// let (kind, sender, data) = (Kind::Group, "10.0.0.5:138".parse()?, b"hello, FRED");
/// let datagram = Datagram { kind, identifier: 10, sender, source: "JOE<00>", destination: "FRED<20>", data };
/// let whole = datagram.cut(512)?;
/// for payload in &whole {
///     let front = read_front(&payload[..60]);
///     let header = front.header.ok_or("a header")?;
///     assert_eq!(header.sender, datagram.sender);
///     assert_eq!(header.source.map(|it| it.to_string()), Some("JOE<00>".into()));
///     assert_eq!(header.destination, None);
///     assert_eq!(front.fault, read(&payload[..60]).err());
/// }
/// # Ok::<(), Box<dyn std::error::Error>>(())
/// ```
pub fn read_front(payload: &[u8]) -> Front<'_> {
    let (status, found, _) = found!(FoundDatagramFront, nbt_datagram_front([payload]));
    Front { header: (status == DONE).then(|| header_of(payload, &found)), fault: read(payload).err() }
}

/// The header that was found in this payload.
fn header_of<'a>(payload: &'a [u8], found: &FoundDatagramFront) -> Header<'a> {
    let name = |start: usize, length: usize| (length > 0).then(|| Spelling(&payload[start..start + length]));
    Header {
        message_type: found.kind,
        flags: found.flags,
        identifier: found.identifier,
        sender: SocketAddrV4::new(Ipv4Addr::from(found.address), found.port),
        offset: found.offset,
        source: name(found.source, found.source_length),
        destination: name(found.destination, found.destination_length),
    }
}

/// A datagram that is to be sent.
#[derive(Clone, Copy, Debug, PartialEq, Eq, Hash)]
pub struct Datagram<'a> {
    /// For whom it is.
    pub kind: Kind,
    /// DGM_ID: no two datagrams that a sender sends within some seconds should have the same.
    pub identifier: u16,
    /// SOURCE_IP and SOURCE_PORT.
    pub sender: SocketAddrV4,
    /// The text of the source's name.
    pub source: &'a str,
    /// The text of the destination's name.
    pub destination: &'a str,
    /// Its data, at most 65,535 bytes.
    pub data: &'a [u8],
}

impl Datagram<'_> {
    /// Its packets, each with at most `most` bytes of data, in order.
    ///
    /// # Errors
    ///
    /// `SourceBadText` to `DestinationLongText`, `LongData` for data over 65,535 bytes, `ZeroPiece`, `LongData` where
    /// the longest packet would pass 65,535 bytes, `NoMemory`.
    pub fn cut(&self, most: u16) -> Result<Packets> {
        let Datagram { kind, identifier, sender, source, destination, data } = *self;
        let (kind, address, port) = (kind as u8, u32::from(*sender.ip()), sender.port());
        written!(nbt_datagram_write(kind, identifier, address, port, [source], [destination], [data], most, at))
            .map(Packets)
    }
}

/// The packets of a datagram, in order: what goes to the network, one payload each.
#[derive(Clone, Debug, PartialEq, Eq, Hash)]
pub struct Packets(Vec<u8>);

impl Packets {
    /// The payloads, in order.
    pub fn iter(&self) -> Iter<'_> {
        Iter(&self.0)
    }
}

impl<'a> IntoIterator for &'a Packets {
    type Item = &'a [u8];
    type IntoIter = Iter<'a>;

    fn into_iter(self) -> Iter<'a> {
        self.iter()
    }
}

/// The payloads of a datagram that haven't been handed out yet, each after its length in two bytes.
#[derive(Clone, Debug)]
pub struct Iter<'a>(&'a [u8]);

impl<'a> Iterator for Iter<'a> {
    type Item = &'a [u8];

    fn next(&mut self) -> Option<&'a [u8]> {
        let length = self.0.get(..2)?;
        let end = 2 + usize::from(u16::from_be_bytes([length[0], length[1]]));
        let payload = self.0.get(2..end)?;
        self.0 = &self.0[end..];
        Some(payload)
    }
}

/// An error packet with this code, as of [`Body::Error`]. The identifier is the datagram's, and the sender is the station that
/// sends the error.
///
/// ```
/// let packet = nbt::datagram::write_error(7, "10.0.0.9:138".parse()?, 0x82)?;
/// assert_eq!(packet, b"\x13\x02\0\x07\x0a\0\0\x09\0\x8a\x82");
/// # Ok::<(), Box<dyn std::error::Error>>(())
/// ```
///
/// # Errors
///
/// `NoMemory`.
pub fn write_error(identifier: u16, sender: SocketAddrV4, code: u8) -> Result<Vec<u8>> {
    let (address, port) = (u32::from(*sender.ip()), sender.port());
    written!(nbt_datagram_error(identifier, address, port, code))
}

/// A query to a distribution server about the name with this text, or its answer.
///
/// # Errors
///
/// `BadText`, `LongText`, `NoMemory`, judged in this order.
pub fn write_query(query: Query, identifier: u16, sender: SocketAddrV4, name: &str) -> Result<Vec<u8>> {
    let (address, port) = (u32::from(*sender.ip()), sender.port());
    written!(nbt_datagram_query(query as u8, identifier, address, port, [name], at))
}
