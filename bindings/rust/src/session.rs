//! Packets of the session service, port 139: RFC 1002 section 4.3.
//!
//! ```
//! use nbt::session::{packets, write, Kind};
//!
//! let mut stream = packets(b"\0\0\0\x05hello\x85\0\0\0\0\0\0\x05he");
//! let mut bodies = Vec::new();
//! for packet in &mut stream {
//!     let packet = packet?;
//!     bodies.push((packet.kind(), packet.body()));
//! }
//! assert_eq!(bodies, [(Kind::Message, &b"hello"[..]), (Kind::KeepAlive, b"")]);
//! assert_eq!((stream.rest(), stream.missing()), (&b"\0\0\0\x05he"[..], 3));
//! assert_eq!(write(Kind::Message, b"hello")?, b"\0\0\0\x05hello");
//! # Ok::<(), nbt::Error>(())
//! ```

use std::iter::FusedIterator;
use std::net::{Ipv4Addr, SocketAddrV4};

use crate::header::{
    nbt_session_front, nbt_session_names, nbt_session_read, nbt_session_retarget, nbt_session_write, FoundSession,
    FoundSessionFront, FoundSessionNames, FoundSessionRetarget, DONE, MORE,
};
use crate::room::{found, written};
use crate::{Error, Result, Spelling};

pub use crate::header::session::Kind;

/// A packet of port 139, whose body is lent from what was read. Nobody can give it another.
///
/// ```compile_fail
/// fn other(packet: &mut nbt::session::Packet) {
///     packet.body = b"";
/// }
/// ```
#[derive(Clone, Copy, Debug, PartialEq, Eq, Hash)]
pub struct Packet<'a> {
    kind: Kind,
    body: &'a [u8],
    used: usize,
    /// All of its bytes, from the header on.
    whole: &'a [u8],
}

impl<'a> Packet<'a> {
    /// What it is.
    pub fn kind(&self) -> Kind {
        self.kind
    }

    /// What follows the four bytes of its header.
    pub fn body(&self) -> &'a [u8] {
        self.body
    }

    /// The bytes of the packet; what follows it isn't looked at.
    pub fn used(&self) -> usize {
        self.used
    }

    /// CALLED_NAME and CALLING_NAME, of a request.
    pub fn names(&self) -> Option<(Spelling<'a>, Spelling<'a>)> {
        let (status, found, _) = found!(FoundSessionNames, nbt_session_names([self.whole]));
        if status != DONE {
            return None;
        }
        // The body is both spellings.
        let called = usize::from(found.called_length);
        let end = called + usize::from(found.calling_length);
        let calling = self.body.get(called..end)?;
        Some((Spelling(self.body.get(..called)?), Spelling(calling)))
    }

    /// Whom to call instead: RETARGET_IP_ADDRESS and RETARGET_PORT, of a retarget.
    pub fn retarget(&self) -> Option<SocketAddrV4> {
        let (status, found, _) = found!(FoundSessionRetarget, nbt_session_retarget([self.whole]));
        let other = SocketAddrV4::new(Ipv4Addr::from(found.address), found.port);
        (status == DONE).then_some(other)
    }
}

/// What stands at the front of what came over a connection.
#[derive(Clone, Copy, Debug, PartialEq, Eq, Hash)]
#[cfg_attr(feature = "serde", derive(serde::Serialize), serde(rename_all = "lowercase"))]
pub enum Next<'a> {
    /// A packet.
    Packet(Packet<'a>),
    /// The front of a packet, of which so many bytes are missing, at least.
    More(usize),
}

/// Reads the packet at the front of what came over a connection to port 139. No memory is taken.
///
/// # Errors
///
/// `UnknownType`, `ReservedFlags`, `BadLength`, and of a request `NameTruncated` to `NameNotNetbios`, `TrailingBytes`,
/// judged in this order.
pub fn read(bytes: &[u8]) -> Result<Next<'_>> {
    let (status, found, at) = found!(FoundSession, nbt_session_read([bytes]));
    match status {
        DONE => Ok(Next::Packet(Packet {
            kind: Kind::try_from(found.kind)?,
            body: &bytes[found.body..found.body + found.body_length],
            used: found.used,
            whole: &bytes[..found.used],
        })),
        MORE => Ok(Next::More(at)),
        _ => Err(Error::new(status, at)),
    }
}

/// The packet at the front of what came over a connection. Errors are those of [`read`], and `More`, whose place is how many
/// bytes are missing, at least.
impl<'a> TryFrom<&'a [u8]> for Packet<'a> {
    type Error = Error;

    fn try_from(bytes: &'a [u8]) -> Result<Packet<'a>> {
        match read(bytes)? {
            Next::Packet(packet) => Ok(packet),
            Next::More(missing) => Err(Error::new(MORE, missing)),
        }
    }
}

/// The header of a packet of port 139, whether or not the packet stands: RFC 1002 section 4.3.1.
#[derive(Clone, Copy, Debug, PartialEq, Eq, Hash)]
#[cfg_attr(feature = "serde", derive(serde::Serialize, serde::Deserialize))]
pub struct Header {
    /// TYPE, also one that no packet has; a [`Kind`] is made of it.
    pub packet_type: u8,
    /// FLAGS, all eight bits.
    pub flags: u8,
    /// How many bytes the body has: LENGTH, and 65,536 where the lowest bit of FLAGS is set.
    pub body_length: usize,
}

/// What stands of bytes, and why they aren't a packet.
#[derive(Clone, Copy, Debug, PartialEq, Eq, Hash)]
#[cfg_attr(feature = "serde", derive(serde::Serialize))]
pub struct Front {
    /// The header; `None` where its four bytes aren't there.
    pub header: Option<Header>,
    /// The fault with which a [`Packet`] isn't made of the bytes; `None` of one that stands whole.
    pub fault: Option<Error>,
}

/// Reads the header at the front of what came over a connection to port 139. No memory is taken.
///
/// ```
/// use nbt::session::{read_front, Kind};
/// use nbt::Status;
///
/// let front = read_front(b"\x82\0\0\x01");
/// let header = front.header.unwrap();
/// assert_eq!(Kind::try_from(header.packet_type), Ok(Kind::Positive));
/// assert_eq!(header.body_length, 1);
/// assert_eq!(front.fault.map(|it| it.status()), Some(Status::BadLength));
/// ```
pub fn read_front(bytes: &[u8]) -> Front {
    let (status, found, _) = found!(FoundSessionFront, nbt_session_front([bytes]));
    let header = Header { packet_type: found.kind, flags: found.flags, body_length: found.body_length };
    Front { header: (status == DONE).then_some(header), fault: Packet::try_from(bytes).err() }
}

/// The packets of what came over a connection to port 139, one after the other. Those that are there whole are handed out, and
/// after them the error with which [`read`] refuses what follows, if it does.
pub fn packets(bytes: &[u8]) -> Packets<'_> {
    Packets { rest: bytes, missing: 0, ended: false }
}

/// The packets that haven't been handed out yet.
#[derive(Clone, Debug)]
pub struct Packets<'a> {
    rest: &'a [u8],
    missing: usize,
    ended: bool,
}

impl<'a> Packets<'a> {
    /// What follows the packets that were handed out.
    pub fn rest(&self) -> &'a [u8] {
        self.rest
    }

    /// How many bytes are missing, at least, of the packet that begins there; 0 where nothing follows, and before the end.
    pub fn missing(&self) -> usize {
        self.missing
    }
}

impl<'a> Iterator for Packets<'a> {
    type Item = Result<Packet<'a>>;

    fn next(&mut self) -> Option<Result<Packet<'a>>> {
        if self.ended || self.rest.is_empty() {
            return None;
        }
        match read(self.rest) {
            Ok(Next::Packet(packet)) => {
                self.rest = &self.rest[packet.used..];
                Some(Ok(packet))
            }
            Ok(Next::More(missing)) => {
                (self.missing, self.ended) = (missing, true);
                None
            }
            Err(error) => {
                self.ended = true;
                Some(Err(error))
            }
        }
    }
}

impl FusedIterator for Packets<'_> {}

/// The packet of this kind with this body. What is written is what [`read`] reads.
///
/// # Errors
///
/// `BadLength`, and of a request `NameTruncated` to `NameNotNetbios`, `TrailingBytes`, whose places count from the front
/// of the packet; `NoMemory`.
pub fn write(kind: Kind, body: &[u8]) -> Result<Vec<u8>> {
    written!(nbt_session_write(kind as u8, [body], at))
}
