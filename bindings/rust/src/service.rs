//! Packets of the name service, port 137: RFC 1002 section 4.2. [`Request`] writes those of sections 4.2.12, 4.2.17, 4.2.2,
//! 4.2.4 and 4.2.9, [`Response`] those with one answer, and [`read`] reads all: the crate's page begins with a program.

use std::net::Ipv4Addr;

use crate::codes::flags;
use crate::header::{name_flag, nbt_service_request, word, NODE_STATUS, QUERY, REFRESH, REGISTRATION, RELEASE};
use crate::room::written;
use crate::Result;

pub use crate::header::record_type::*;
pub use crate::header::service::{NodeType, Operation, ResultCode, Section};
pub use crate::rdata::*;
pub use crate::responses::{Answer, Response};
pub use crate::service_packets::{read, read_front, Front, Packet, Question, Questions, Record, Records};

/// The header of a packet: RFC 1002 section 4.2.1.1.
#[derive(Clone, Copy, Debug, PartialEq, Eq, Hash)]
#[cfg_attr(feature = "serde", derive(serde::Serialize, serde::Deserialize))]
pub struct Header {
    /// NAME_TRN_ID.
    pub identifier: u16,
    /// R, OPCODE, NM_FLAGS and RCODE, as they stand.
    pub word: u16,
    /// QDCOUNT, ANCOUNT, NSCOUNT and ARCOUNT.
    pub counts: [u16; 4],
}

impl Header {
    /// OPCODE, or its number where none has it.
    pub fn operation(&self) -> std::result::Result<Operation, u8> {
        Operation::try_from((self.word >> 11 & 15) as u8)
    }

    /// RCODE, or its number where none has it.
    pub fn result(&self) -> std::result::Result<ResultCode, u8> {
        ResultCode::try_from((self.word & 15) as u8)
    }
}

flags! { Header, word:
    /// R: whether it is the header of a response.
    is_response word::R;
    /// AA.
    is_authoritative word::AA;
    /// TC.
    is_truncated word::TC;
    /// RD.
    wants_recursion word::RD;
    /// RA.
    has_recursion word::RA;
    /// B.
    is_broadcast word::B;
}

impl NodeType {
    /// The type in NB_FLAGS, or in NAME_FLAGS.
    pub(crate) fn of_flags(flags: u16) -> NodeType {
        NodeType::ALL[usize::from((flags & name_flag::ONT) >> 13)]
    }
}

/// What is said of a name: an entry of RDATA.
#[derive(Clone, Copy, Debug, PartialEq, Eq, Hash)]
#[cfg_attr(feature = "serde", derive(serde::Serialize, serde::Deserialize))]
pub struct Entry {
    /// NB_FLAGS: 0x8000 a group's name, 0x6000 the type of node.
    pub nb_flags: u16,
    /// Who has the name, or wants it.
    pub address: Ipv4Addr,
}

flags! { Entry, nb_flags:
    /// G: whether it is a group's name.
    is_group name_flag::G;
}

impl Entry {
    /// ONT.
    pub fn node_type(&self) -> NodeType {
        NodeType::of_flags(self.nb_flags)
    }
}

/// What is asked about a name.
#[derive(Clone, Copy, Debug, PartialEq, Eq, Hash)]
#[cfg_attr(feature = "serde", derive(serde::Serialize, serde::Deserialize), serde(rename_all = "snake_case"))]
#[non_exhaustive]
pub enum Request {
    /// Who has it?
    Query,
    /// Which names has its node?
    NodeStatus,
    /// It is claimed, for so many seconds.
    Registration(Entry, u32),
    /// It is claimed anew, for so many seconds. The opcode is 8, and RD is clear (our choice).
    Refresh(Entry, u32),
    /// It is given up.
    Release(Entry),
}

impl Request {
    /// Its packet, about the name with this text. `broadcast` sets B.
    ///
    /// # Errors
    ///
    /// `BadText`, `LongText`, `NoMemory`, judged in this order.
    pub fn write(self, identifier: u16, name: &str, broadcast: bool) -> Result<Vec<u8>> {
        let (number, seconds, entry) = self.parts();
        let address = u32::from(entry.address);
        written!(nbt_service_request(number, identifier, broadcast, [name], seconds, entry.nb_flags, address, at))
    }

    /// Its number of `enum nbt_request`, its time to live, and what it says of the name.
    fn parts(self) -> (u32, u32, Entry) {
        let none = Entry { nb_flags: 0, address: Ipv4Addr::UNSPECIFIED };
        match self {
            Request::Query => (QUERY, 0, none),
            Request::NodeStatus => (NODE_STATUS, 0, none),
            Request::Registration(entry, seconds) => (REGISTRATION, seconds, entry),
            Request::Refresh(entry, seconds) => (REFRESH, seconds, entry),
            Request::Release(entry) => (RELEASE, 0, entry),
        }
    }
}
