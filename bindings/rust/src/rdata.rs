//! What records of the name service say: RFC 1002 sections 4.2.1.3, 4.2.13 and 4.2.18.

use std::net::Ipv4Addr;

use crate::codes::flags;
use crate::header::service::NodeType;
use crate::header::{
    name_flag, nbt_service_address, nbt_service_node, nbt_service_unit, FoundServiceAddress, FoundServiceNode,
    FoundServiceUnit, DONE, NO_PART,
};
use crate::room::found;
use crate::service::{Entry, NB, NBSTAT, NS};
use crate::Name;

/// What a record says, by its type. Types that are [`Other`](Rdata::Other) now may get views of their own.
#[derive(Clone, Debug)]
#[cfg_attr(feature = "serde", derive(serde::Serialize), serde(rename_all = "snake_case"))]
#[non_exhaustive]
// A name lies in place.
#[allow(clippy::large_enum_variant)]
pub enum Rdata<'a> {
    /// Of type NB: who has the name.
    Addresses(Addresses<'a>),
    /// Of type NBSTAT: the names of a node.
    NodeStatus(NodeStatus<'a>),
    /// Of type NS: the name of a server.
    NameServer(Name),
    /// Of another type, or not of the form that its type has.
    #[cfg_attr(feature = "serde", serde(serialize_with = "crate::serialized::digits"))]
    Other(&'a [u8]),
}

impl<'a> Rdata<'a> {
    /// What this RDATA says of a type; of type NS its name was read.
    pub(crate) fn of(kind: u16, data: &'a [u8], server: Option<Name>) -> Rdata<'a> {
        match kind {
            NS => server.map_or(Rdata::Other(data), Rdata::NameServer),
            NB => Addresses::of(data).map_or(Rdata::Other(data), Rdata::Addresses),
            NBSTAT => NodeNames::of(data)
                .map_or(Rdata::Other(data), |names| Rdata::NodeStatus(NodeStatus { names, unit: unit_of(data) })),
            _ => Rdata::Other(data),
        }
    }
}

/// The parts of RDATA of one type that haven't been handed out yet, which a call fills in one by one.
macro_rules! parts {
    ($(#[$of:meta])* $name:ident: $call:ident($kind:ident) -> $structure:ident, |$found:ident| -> $item:ident $made:expr) => {
        $(#[$of])*
        #[derive(Clone, Debug)]
        pub struct $name<'a> {
            data: &'a [u8],
            next: usize,
            count: usize,
        }

        impl<'a> $name<'a> {
            /// Those of RDATA, which has a form if a call past the last one says how many there are.
            fn of(data: &'a [u8]) -> Option<$name<'a>> {
                let (status, _, count) = $name::at(data, usize::MAX);
                (status == NO_PART).then_some($name { data, next: 0, count })
            }

            /// What the library answers for the part of a number.
            fn at(data: &[u8], number: usize) -> (u32, $structure, usize) {
                found!($structure, $call($kind, [data], number))
            }
        }

        impl Iterator for $name<'_> {
            type Item = $item;

            fn next(&mut self) -> Option<$item> {
                let (status, $found, _) = $name::at(self.data, self.next);
                if status != DONE {
                    return None;
                }
                self.next += 1;
                Some($made)
            }

            fn size_hint(&self) -> (usize, Option<usize>) {
                let left = self.count - self.next;
                (left, Some(left))
            }
        }

        impl ExactSizeIterator for $name<'_> {}

        #[cfg(feature = "serde")]
        crate::serialized::sequences!($name);
    };
}

parts! {
    /// The addresses of a NetBIOS name that haven't been handed out yet: RFC 1002 section 4.2.13.
    Addresses: nbt_service_address(NB) -> FoundServiceAddress,
    |found| -> Entry Entry { nb_flags: found.flags, address: Ipv4Addr::from(found.address) }
}

parts! {
    /// The names of a node that haven't been handed out yet.
    NodeNames: nbt_service_node(NBSTAT) -> FoundServiceNode,
    |found| -> NodeName NodeName { name: Name::from(found.name), flags: found.flags }
}

/// The names of a node: RFC 1002 section 4.2.18.
#[derive(Clone, Debug)]
#[cfg_attr(feature = "serde", derive(serde::Serialize))]
#[non_exhaustive]
pub struct NodeStatus<'a> {
    /// The names.
    pub names: NodeNames<'a>,
    /// UNIT_ID; `None` where the RDATA ends before it.
    #[cfg_attr(feature = "serde", serde(serialize_with = "crate::serialized::digits_if"))]
    pub unit: Option<[u8; 6]>,
}

/// One of the names of a node.
#[derive(Clone, Copy, Debug, PartialEq, Eq, Hash)]
#[cfg_attr(feature = "serde", derive(serde::Serialize, serde::Deserialize))]
pub struct NodeName {
    /// The name, without a scope.
    pub name: Name,
    /// NAME_FLAGS.
    pub flags: u16,
}

impl NodeName {
    /// ONT.
    pub fn node_type(&self) -> NodeType {
        NodeType::of_flags(self.flags)
    }
}

flags! { NodeName, flags:
    /// G: whether it is a group's name.
    is_group name_flag::G;
    /// DRG: whether it is being given up.
    is_deregistered name_flag::DRG;
    /// CNF: whether another node claims it.
    is_in_conflict name_flag::CNF;
    /// ACT.
    is_active name_flag::ACT;
    /// PRM: whether it is the node's permanent name.
    is_permanent name_flag::PRM;
}

/// The unit that stands behind the names, if it does.
fn unit_of(data: &[u8]) -> Option<[u8; 6]> {
    let (status, unit, _) = found!(FoundServiceUnit, nbt_service_unit(NBSTAT, [data]));
    (status == DONE).then_some(unit.bytes)
}
