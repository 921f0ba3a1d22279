//! Responses of port 137, written: RFC 1002 sections 4.2.5 to 4.2.18, but for 4.2.8 and 4.2.15.

use std::borrow::Cow;

use crate::header::service::ResultCode;
use crate::header::{nbt_service_response, word};
use crate::rdata::NodeName;
use crate::room::write_into;
use crate::service::{Entry, NB, NBSTAT, NS, NULL};
use crate::{Error, Name, Result, Status};

/// R, AA and RD: of a node that answers for its own name.
const ANSWERED: u16 = word::R | word::AA | word::RD;
/// R and AA.
const OF_A_NODE: u16 = word::R | word::AA;
/// How many bytes an address of a name has, and a name of a node.
const ENTRY_LENGTH: usize = 6;
const NODE_LENGTH: usize = 18;
/// How many bytes the statistics of a node have, of which the first are UNIT_ID.
const STATISTICS_LENGTH: usize = 46;

/// A response: a packet with one answer about a name, of class IN, and nothing else.
///
/// ```
/// use nbt::service::{read, Answer, Entry, Operation, Rdata, Response};
///
/// let claimed = [Entry { nb_flags: 0x6000, address: "10.0.0.6".parse()? }];
/// // A positive registration response: R, OPCODE 5, AA, RD and RA.
/// let answer = Answer::Addresses(&claimed);
/// let response = Response { identifier: 2, word: 0xad80, name: "FRED<20>", time_to_live: 300_000, answer };
/// let payload = response.write()?;
/// let packet = read(&payload)?;
/// assert_eq!(packet.header.operation(), Ok(Operation::Registration));
/// for record in packet.answers() {
///     assert_eq!((record.name.to_string(), record.time_to_live), ("FRED<20>".into(), 300_000));
///     if let Rdata::Addresses(found) = record.rdata() {
///         assert!(found.eq(claimed));
///     }
/// }
/// # Ok::<(), Box<dyn std::error::Error>>(())
/// ```
#[derive(Clone, Copy, Debug, PartialEq, Eq, Hash)]
pub struct Response<'a> {
    /// NAME_TRN_ID, that of the request.
    pub identifier: u16,
    /// R, OPCODE, NM_FLAGS and RCODE, written as they are.
    pub word: u16,
    /// The text of the name.
    pub name: &'a str,
    /// TTL, in seconds.
    pub time_to_live: u32,
    /// What is said of the name.
    pub answer: Answer<'a>,
}

/// What a response says of a name: its RDATA.
#[derive(Clone, Copy, Debug, PartialEq, Eq, Hash)]
#[non_exhaustive]
pub enum Answer<'a> {
    /// Of type NB: who has the name.
    Addresses(&'a [Entry]),
    /// Of type NBSTAT: the names of a node, at most 255 and without scopes, then UNIT_ID, after which the statistics are zeros.
    /// Without a UNIT_ID the RDATA ends after the names.
    NodeStatus(&'a [NodeName], Option<[u8; 6]>),
    /// Of type NS: the name of a server.
    NameServer(&'a Name),
    /// Of the type with this number, any bytes; of type NS the spelling of a name.
    Other(u16, &'a [u8]),
}

impl<'a> Response<'a> {
    /// A positive name query response (section 4.2.13): who has the name. R, AA and RD are set; a name server sets RA, 0x0080, in
    /// `word` too.
    pub fn positive(identifier: u16, name: &'a str, who: &'a [Entry], time_to_live: u32) -> Self {
        Response { identifier, word: ANSWERED, name, time_to_live, answer: Answer::Addresses(who) }
    }

    /// A negative name query response (section 4.2.14), with this RCODE. R, AA and RD are set.
    pub fn negative(identifier: u16, name: &'a str, result: ResultCode) -> Self {
        Response { identifier, word: ANSWERED | result as u16, name, time_to_live: 0, answer: Answer::Other(NULL, &[]) }
    }

    /// A node status response (section 4.2.18): the names of a node, and its unit. R and AA are set.
    ///
    /// ```
    /// use nbt::service::{read, NodeName, Rdata, Response};
    ///
    /// let names = [NodeName { name: "FRED<20>".parse()?, flags: 0x0400 }];
    /// let payload = Response::node_status(1, "FRED<20>", &names, [0, 0, 0, 1, 2, 3]).write()?;
    /// for record in read(&payload)?.answers() {
    ///     if let Rdata::NodeStatus(status) = record.rdata() {
    ///         assert_eq!(status.unit, Some([0, 0, 0, 1, 2, 3]));
    ///         assert!(status.names.eq(names));
    ///     }
    /// }
    /// # Ok::<(), nbt::Error>(())
    /// ```
    pub fn node_status(identifier: u16, name: &'a str, names: &'a [NodeName], unit: [u8; 6]) -> Self {
        Response { identifier, word: OF_A_NODE, name, time_to_live: 0, answer: Answer::NodeStatus(names, Some(unit)) }
    }

    /// Its packet. What is written is what [`crate::service::read`] reads.
    ///
    /// # Errors
    ///
    /// Of the names of a node `LongData` where they are more than 255, and `NameNotNetbios` of the first one that has no sixteen
    /// bytes of its own; then `BadText`, `LongText`, of RDATA of type NS `NameTruncated` to `NameLong` and `NameTrailingBytes`, whose
    /// places count in it, of another type `LongData` for more than 65,535 bytes; `NoMemory`, which may come first.
    pub fn write(&self) -> Result<Vec<u8>> {
        let mut packet = Vec::new();
        self.write_into(&mut packet)?;
        Ok(packet)
    }

    /// Puts its packet into a buffer in the place of what it held. A program that answers many requests keeps one buffer, and so
    /// takes no memory for each packet.
    ///
    /// # Errors
    ///
    /// Those of [`Response::write`]; the buffer is then empty.
    pub fn write_into(&self, packet: &mut Vec<u8>) -> Result<()> {
        packet.clear();
        let (kind, data) = self.answer.packed()?;
        write_into!(
            packet,
            nbt_service_response(self.identifier, self.word, [self.name], kind, self.time_to_live, [data], at)
        )
    }
}

impl<'a> Answer<'a> {
    /// Its type, and its bytes.
    fn packed(&self) -> Result<(u16, Cow<'a, [u8]>)> {
        match *self {
            Answer::Addresses(entries) => Ok((NB, packed_entries(entries)?.into())),
            Answer::NodeStatus(names, unit) => Ok((NBSTAT, packed_status(names, unit)?.into())),
            Answer::NameServer(name) => Ok((NS, name.as_bytes().into())),
            Answer::Other(kind, data) => Ok((kind, data.into())),
        }
    }
}

/// Room for so many bytes.
fn reserved(length: usize) -> Result<Vec<u8>> {
    let mut bytes = Vec::new();
    let taken = bytes.try_reserve_exact(length);
    taken.map_err(|_| Error::NO_MEMORY).map(|()| bytes)
}

/// The addresses of a name: RFC 1002 section 4.2.13.
fn packed_entries(entries: &[Entry]) -> Result<Vec<u8>> {
    let mut bytes = reserved(entries.len().saturating_mul(ENTRY_LENGTH))?;
    for entry in entries {
        bytes.extend_from_slice(&entry.nb_flags.to_be_bytes());
        bytes.extend_from_slice(&entry.address.octets());
    }
    Ok(bytes)
}

/// The names of a node, behind how many they are, and its statistics: RFC 1002 section 4.2.18.
fn packed_status(names: &[NodeName], unit: Option<[u8; 6]>) -> Result<Vec<u8>> {
    let many = |_| Error::new(Status::LongData.number(), 0);
    let count = u8::try_from(names.len()).map_err(many)?;
    let mut bytes = reserved(1 + names.len() * NODE_LENGTH + STATISTICS_LENGTH)?;
    bytes.push(count);
    for it in names {
        bytes.extend_from_slice(&<[u8; 16]>::try_from(it.name)?);
        bytes.extend_from_slice(&it.flags.to_be_bytes());
    }
    if let Some(unit) = unit {
        bytes.extend_from_slice(&unit);
        bytes.extend_from_slice(&[0; STATISTICS_LENGTH - 6]);
    }
    Ok(bytes)
}
