//! Stations, which put the payloads of port 138 together to datagrams: RFC 1002 section 5.3.
//!
//! ```
//! use nbt::datagram::{Datagram, Kind};
//! use nbt::station::{Outcome, Station};
//! use nbt::Limits;
//!
//! let (kind, sender, data) = (Kind::Unique, "10.0.0.5:138".parse()?, b"hello, FRED");
//! let datagram = Datagram { kind, identifier: 7, sender, source: "JOE<00>", destination: "FRED<20>", data };
//! let mut station = Station::new(&["FRED<20>"], "10.0.0.9:138".parse()?, Limits::default())?;
//! let mut heard = Vec::new();
//! for payload in &datagram.cut(6)? {
//!     match station.take(0, payload)? {
//!         Outcome::Delivered(it) => heard.push((it.source.text()?, it.data.to_vec())),
//!         Outcome::Unheard { answer: Some(packet), .. } => println!("to be sent: {packet:?}"),
//!         _ => {}
//!     }
//! }
//! assert_eq!(heard, [("JOE<00>".to_string(), b"hello, FRED".to_vec())]);
//! assert_eq!(station.tick(2_000)?, 1);
//! # Ok::<(), Box<dyn std::error::Error>>(())
//! ```

use std::net::{Ipv4Addr, SocketAddrV4};
use std::{fmt, ptr};

use crate::datagram::Kind;
use crate::header::{
    nbt_station_absorb, nbt_station_create, nbt_station_free, nbt_station_list, nbt_station_save, nbt_station_take,
    nbt_station_tick, FoundTaken, Handle, DELIVERED, DONE, KEPT, OTHER, REFUSED, SPOILT, UNHEARD,
};
use crate::names::spelled_length;
use crate::room::{passed, text_of, write_into, written};
use crate::{spell, Error, Limits, Name, Result, Spelling, Status};

/// A station: its names, and a table that the payloads of port 138 fill and the clock empties. A datagram is handed over
/// once, by the payload that makes it whole, if one of the names hears it: the name that it is for or, of a broadcast, a
/// name of that name's scope.
pub struct Station {
    handle: Handle,
    /// What the last payload or table that was taken in gave, to be lent.
    given: Vec<u8>,
}

// SAFETY: the library's calls may be made from any thread, those on one station one at a time. What it keeps is this
// value's alone, and each call takes the value as `&mut`.
unsafe impl Send for Station {}

/// By what the fragments of a datagram belong together.
#[derive(Clone, Copy, Debug, PartialEq, Eq, PartialOrd, Ord, Hash)]
#[cfg_attr(feature = "serde", derive(serde::Serialize, serde::Deserialize))]
pub struct Key {
    /// SOURCE_IP and SOURCE_PORT.
    pub sender: SocketAddrV4,
    /// DGM_ID.
    pub identifier: u16,
}

impl Key {
    /// That of numbers.
    pub(crate) fn of(address: u32, port: u16, identifier: u16) -> Key {
        Key { sender: SocketAddrV4::new(Ipv4Addr::from(address), port), identifier }
    }
}

impl fmt::Display for Key {
    fn fmt(&self, out: &mut fmt::Formatter<'_>) -> fmt::Result {
        write!(out, "{}/{:04x}", self.sender, self.identifier)
    }
}

/// A datagram that is handed over, lent from the station until its next call.
#[derive(Clone, Copy, Debug, PartialEq, Eq, Hash)]
#[cfg_attr(feature = "serde", derive(serde::Serialize))]
pub struct Delivery<'a> {
    /// For whom it is.
    pub kind: Kind,
    /// Who sent it, and its identifier.
    pub key: Key,
    /// SOURCE_NAME.
    pub source: Spelling<'a>,
    /// DESTINATION_NAME.
    pub destination: Spelling<'a>,
    /// Its data, at most 65,535 bytes.
    #[cfg_attr(feature = "serde", serde(serialize_with = "crate::serialized::digits"))]
    pub data: &'a [u8],
}

impl Delivery<'_> {
    /// The same, with a copy of its names and of its data, to be kept.
    // On a reference, by which that of ToOwned would come first, too.
    #[allow(clippy::wrong_self_convention)]
    pub fn to_owned(&self) -> OwnedDelivery {
        OwnedDelivery {
            kind: self.kind,
            key: self.key,
            source: self.source.into(),
            destination: self.destination.into(),
            data: self.data.to_vec(),
        }
    }
}

/// A datagram that was handed over, and is kept.
#[derive(Clone, Debug, PartialEq, Eq, Hash)]
#[cfg_attr(feature = "serde", derive(serde::Serialize, serde::Deserialize))]
pub struct OwnedDelivery {
    /// For whom it is.
    pub kind: Kind,
    /// Who sent it, and its identifier.
    pub key: Key,
    /// SOURCE_NAME.
    pub source: Name,
    /// DESTINATION_NAME.
    pub destination: Name,
    /// Its data.
    #[cfg_attr(feature = "serde", serde(with = "crate::serialized::bytes"))]
    pub data: Vec<u8>,
}

/// What became of a payload. An answer is an error packet, to be sent to where the payload came from; there is none where
/// nothing is to be sent.
#[derive(Clone, Copy, Debug, PartialEq, Eq, Hash)]
#[cfg_attr(feature = "serde", derive(serde::Serialize), serde(rename_all = "lowercase"))]
pub enum Outcome<'a> {
    /// A fragment, by which its datagram became neither whole nor spoilt.
    Kept(Key),
    /// A fragment that contradicts what was known of its datagram.
    Spoilt(Key),
    /// A fragment that made its datagram whole, and one of the names hears it.
    Delivered(Delivery<'a>),
    /// A fragment that made its datagram whole, and none of the names hears it.
    Unheard {
        /// The datagram's key.
        key: Key,
        /// The error packet, with code 0x82.
        #[cfg_attr(feature = "serde", serde(serialize_with = "crate::serialized::digits_if"))]
        answer: Option<&'a [u8]>,
    },
    /// An error or a query packet; the station is as it was.
    Other,
    /// No packet stands at the front of the payload; the station is as it was.
    Refused {
        /// What [`crate::datagram::read`] answers to the payload.
        error: Error,
        /// The error packet, with code 0x83 or 0x84.
        #[cfg_attr(feature = "serde", serde(serialize_with = "crate::serialized::digits_if"))]
        answer: Option<&'a [u8]>,
    },
}

impl Station {
    /// A station with the names that have these texts, in a list of any kind (a space in one stands between two names), an
    /// empty table, and this much room. Error packets have this address. A key is kept from its first fragment on until the clock drops
    /// it, some 200 bytes and the data each.
    ///
    /// # Errors
    ///
    /// The first fault of the names in order, whose place counts in the texts with one space between two: `BadText`,
    /// `LongText`, `NamePresent`, `TooManyNames`; `NoMemory`, which may come before them.
    pub fn new<N>(names: N, address: SocketAddrV4, limits: Limits) -> Result<Station>
    where
        N: IntoIterator,
        N::Item: AsRef<str>,
    {
        let (texts, mut at) = (joined(names)?, 0);
        let mut handle = Handle { at: ptr::null_mut() };
        let (ip, port, Limits { keys, per_source }) = (u32::from(*address.ip()), address.port(), limits);
        // SAFETY: the texts are a slice, and what is written lies apart from them.
        let status =
            unsafe { passed!(nbt_station_create () [texts], ip, port, keys, per_source, &mut handle.at, &mut at;) };
        if status != DONE {
            return Err(Error::new(status, at));
        }
        Ok(Station { handle, given: Vec::new() })
    }

    /// Takes a payload of port 138 that came at this moment, in milliseconds since any moment of the caller's choice.
    ///
    /// # Errors
    ///
    /// `MisplacedFirst`, `Long`, `FullSource`, `Full`, `NoMemory` (which may come before those that follow the first).
    /// The station is then as it was.
    pub fn take(&mut self, moment: u64, payload: &[u8]) -> Result<Outcome<'_>> {
        let mut taken = FoundTaken::EMPTY;
        // Where the room is less than any outcome wants, the station is as it was, and takes the payload when there is more.
        write_into!(&mut self.given, nbt_station_take(&mut self.handle, moment, [payload], &mut taken))?;
        outcome_of(&taken, &self.given)
    }

    /// Looks at the clock, which shows `now`: drops each key that came at least 2,000 milliseconds before, whatever is
    /// known of it, and answers how many. Nothing else drops a key (our choice).
    ///
    /// # Errors
    ///
    /// `NoMemory`.
    pub fn tick(&mut self, now: u64) -> Result<u32> {
        let mut dropped = 0;
        // SAFETY: the station is open, and the number lies apart from it.
        match unsafe { nbt_station_tick(&mut self.handle, now, &mut dropped) } {
            DONE => Ok(dropped),
            status => Err(Error::new(status, 0)),
        }
    }

    /// The station's table, saved, for [`crate::merge`] or a file. The names, the limits and the moments aren't in it.
    ///
    /// # Errors
    ///
    /// `NoMemory`.
    pub fn save(&mut self) -> Result<Vec<u8>> {
        written!(nbt_station_save(&mut self.handle))
    }

    /// What [`crate::list_table`] says of the station's table.
    ///
    /// # Errors
    ///
    /// `NoMemory`.
    pub fn list(&mut self) -> Result<String> {
        written!(nbt_station_list(&mut self.handle)).map(text_of)
    }

    /// Joins the saved table of another station to this one's, at this moment: the keys that are new came then. Hands over
    /// the datagrams that become whole by this, of those that one of the names hears, by ascending key.
    ///
    /// # Errors
    ///
    /// `TableBadMagic` to `TableFull`, `FullSource`, `Full`, `NoMemory` (which may come before those that follow
    /// `TableFull`). The station is then as it was.
    pub fn absorb(&mut self, moment: u64, table: &[u8]) -> Result<Deliveries<'_>> {
        // Where the room is too little the station is as it was, and joins the table when there is more.
        write_into!(&mut self.given, nbt_station_absorb(&mut self.handle, moment, [table], at))?;
        Ok(Deliveries(&self.given))
    }
}

/// The datagrams that are handed over of a table, by ascending key, lent from the station until its next call.
#[derive(Clone, Debug)]
pub struct Deliveries<'a>(&'a [u8]);

impl<'a> Iterator for Deliveries<'a> {
    type Item = Delivery<'a>;

    fn next(&mut self) -> Option<Delivery<'a>> {
        let (head, rest) = (self.0.get(..9)?, &self.0[9..]);
        let source = rest.get(..spelled_length(rest)?)?;
        let rest = &rest[source.len()..];
        let destination = rest.get(..spelled_length(rest)?)?;
        let rest = &rest[destination.len()..];
        let length = rest.get(..2)?;
        let data = rest.get(2..2 + usize::from(u16::from_be_bytes([length[0], length[1]])))?;
        let address = Ipv4Addr::new(head[0], head[1], head[2], head[3]);
        self.0 = &rest[2 + data.len()..];
        Some(Delivery {
            // The library writes no other kind.
            kind: Kind::try_from(head[8]).ok()?,
            key: Key {
                sender: SocketAddrV4::new(address, u16::from_be_bytes([head[4], head[5]])),
                identifier: u16::from_be_bytes([head[6], head[7]]),
            },
            source: Spelling(source),
            destination: Spelling(destination),
            data,
        })
    }
}

/// The texts with one space between two. One empty text would then be no text at all, and is refused.
fn joined<N>(names: N) -> Result<String>
where
    N: IntoIterator,
    N::Item: AsRef<str>,
{
    let (mut texts, mut count) = (String::new(), 0);
    for name in names {
        texts.extend((count > 0).then_some(' '));
        texts += name.as_ref();
        count += 1;
    }
    if count == 1 && texts.is_empty() {
        spell("")?;
    }
    Ok(texts)
}

impl Drop for Station {
    fn drop(&mut self) {
        // SAFETY: the library made what the handle points to, and gets it back once: no call follows.
        unsafe { nbt_station_free(Handle { at: self.handle.at }) }
    }
}

impl fmt::Debug for Station {
    fn fmt(&self, out: &mut fmt::Formatter<'_>) -> fmt::Result {
        out.debug_struct("Station").finish_non_exhaustive()
    }
}

/// What became of a payload, of which this was told and given.
fn outcome_of<'a>(taken: &FoundTaken, given: &'a [u8]) -> Result<Outcome<'a>> {
    let key = Key::of(taken.address, taken.port, taken.identifier);
    let answer = given.get(..taken.error_length).filter(|it| !it.is_empty());
    match taken.outcome {
        KEPT => Ok(Outcome::Kept(key)),
        SPOILT => Ok(Outcome::Spoilt(key)),
        DELIVERED => delivery(key, taken, given).map(Outcome::Delivered),
        UNHEARD => Ok(Outcome::Unheard { key, answer }),
        OTHER => Ok(Outcome::Other),
        REFUSED => Ok(Outcome::Refused { error: Error::new(taken.refusal, taken.refused_at), answer }),
        // The library answers no other.
        _ => Err(Error::new(Status::UnknownStatus.number(), 0)),
    }
}

/// The datagram that is handed over: both spellings, then the data.
fn delivery<'a>(key: Key, taken: &FoundTaken, given: &'a [u8]) -> Result<Delivery<'a>> {
    let (source, rest) = given.split_at(taken.source_length);
    let (destination, data) = rest.split_at(taken.destination_length);
    Ok(Delivery {
        // The library answers no other kind.
        kind: Kind::try_from(taken.kind)?,
        key,
        source: Spelling(source),
        destination: Spelling(destination),
        data,
    })
}
