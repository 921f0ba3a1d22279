//! Packets of port 137, read: RFC 1002 section 4.2.

use std::fmt;

use crate::header::service::Section;
use crate::header::{
    nbt_service_header, nbt_service_items, nbt_service_read, FoundServiceEntry, FoundServiceHeader, DONE, FIRST_ITEM,
    NO_ITEM,
};
use crate::rdata::Rdata;
use crate::room::{found, passed};
use crate::service::Header;
use crate::{Error, Name, Result};

/// Where the first question or record stands: behind the header.
const FIRST: usize = FIRST_ITEM as usize;
/// How many of them are read at once.
const AT_ONCE: usize = 16;

/// A packet of port 137, or what stands of one. Its questions and records are read when they are asked for, and lent from
/// the payload. No memory is taken.
#[derive(Clone, Copy)]
pub struct Packet<'a> {
    /// Its header, whose counts are, of a front, those of the packet that it should be.
    pub header: Header,
    /// The bytes of the packet, or of what stands; what follows them isn't looked at.
    pub used: usize,
    payload: &'a [u8],
    /// How many questions and records there are, by sections.
    there: [u16; 4],
}

impl<'a> Packet<'a> {
    /// Its questions.
    pub fn questions(&self) -> Questions<'a> {
        Questions { walk: Walk::of(self.payload), left: usize::from(self.there[0]) }
    }

    /// Its records, of all sections, in order.
    pub fn records(&self) -> Records<'a> {
        self.section(1, 4)
    }

    /// Its answers.
    pub fn answers(&self) -> Records<'a> {
        self.section(1, 2)
    }

    /// The records of its authority section.
    pub fn authorities(&self) -> Records<'a> {
        self.section(2, 3)
    }

    /// Its additional records.
    pub fn additional(&self) -> Records<'a> {
        self.section(3, 4)
    }

    /// The records of these sections; what stands before them is passed over.
    fn section(&self, first: usize, end: usize) -> Records<'a> {
        let count = |sections: &[u16]| sections.iter().map(|it| usize::from(*it)).sum();
        let mut walk = Walk::of(self.payload);
        for _ in 0..count(&self.there[..first]) {
            // They stood when the packet was read.
            let _ = walk.next();
        }
        Records { walk, left: count(&self.there[first..end]) }
    }
}

impl fmt::Debug for Packet<'_> {
    fn fmt(&self, out: &mut fmt::Formatter<'_>) -> fmt::Result {
        out.debug_struct("Packet")
            .field("header", &self.header)
            .field("questions", &self.questions().collect::<Vec<_>>())
            .field("records", &self.records().collect::<Vec<_>>())
            .field("used", &self.used)
            .finish()
    }
}

/// What stands of a payload, and why it isn't a packet.
#[derive(Clone, Copy, Debug)]
#[cfg_attr(feature = "serde", derive(serde::Serialize))]
pub struct Front<'a> {
    /// What stands; `None` where not even a header does.
    pub packet: Option<Packet<'a>>,
    /// The fault with which [`read`] refuses the payload; `None` of a packet that stands whole.
    pub fault: Option<Error>,
}

/// Reads the packet at the front of a payload of port 137. No memory is taken.
///
/// # Errors
///
/// `Truncated` for less than the twelve bytes of a header; then the first fault of the first question or record that doesn't
/// stand whole: of its name `NameTruncated`, `NameReservedLabel`, `NameLong` or `NameBadPointer`, `Truncated`, and of a record
/// of type NS one of these four of the name in its RDATA, `NameRdata`.
pub fn read(payload: &[u8]) -> Result<Packet<'_>> {
    let (header, used) = found_header(payload, nbt_service_read)?;
    Ok(Packet { header, used, payload, there: header.counts })
}

/// Reads what stands of the packet at the front of a payload of port 137: its header, and the questions and records before the
/// first fault. No memory is taken.
///
/// ```
/// use nbt::service::{read, read_front, Request};
/// use nbt::Status;
///
/// let packet = Request::Query.write(3, "FRED<20>", true)?;
/// let cut = &packet[..40];
/// let front = read_front(cut);
/// assert_eq!(front.packet.map(|it| it.header.counts), Some([1, 0, 0, 0]));
/// assert_eq!(front.packet.map(|it| it.questions().len()), Some(0));
/// assert_eq!(front.fault.map(|it| it.status()), Some(Status::NameTruncated));
/// assert_eq!(front.fault, read(cut).err());
/// # Ok::<(), nbt::Error>(())
/// ```
pub fn read_front(payload: &[u8]) -> Front<'_> {
    let header = match found_header(payload, nbt_service_header) {
        Ok((header, _)) => header,
        Err(fault) => return Front { packet: None, fault: Some(fault) },
    };
    let (mut walk, mut there) = (Walk::of(payload), [0; 4]);
    let fault = loop {
        match walk.next() {
            Ok(Some(found)) => there[section_of(&found)] += 1,
            Ok(None) => break None,
            Err(fault) => break Some(fault),
        }
    };
    let packet = Packet { header, used: walk.place, payload, there };
    Front { packet: Some(packet), fault }
}

/// A call that reads a header.
type ReadsHeader = unsafe extern "C" fn(*const u8, usize, *mut FoundServiceHeader, *mut usize) -> u32;

/// The header at the front of a payload, and how many bytes were used, by one of the two calls that read it.
fn found_header(payload: &[u8], call: ReadsHeader) -> Result<(Header, usize)> {
    let (status, found, at) = found!(FoundServiceHeader, call([payload]));
    if status != DONE {
        return Err(Error::new(status, at));
    }
    let header = Header {
        identifier: found.identifier,
        word: found.word,
        counts: [found.questions, found.answers, found.authorities, found.additional],
    };
    Ok((header, found.used))
}

/// The packet at the front of a payload. Errors are those of [`read`].
impl<'a> TryFrom<&'a [u8]> for Packet<'a> {
    type Error = Error;

    fn try_from(payload: &'a [u8]) -> Result<Packet<'a>> {
        read(payload)
    }
}

/// The questions and records of a payload, one after the other.
#[derive(Clone, Debug)]
struct Walk<'a> {
    payload: &'a [u8],
    /// The number and the place of the next one.
    number: u32,
    place: usize,
    /// Those that were read, how many they are, and how many of them were handed out.
    read: [FoundServiceEntry; AT_ONCE],
    filled: usize,
    given: usize,
}

impl<'a> Walk<'a> {
    /// From the first one on.
    fn of(payload: &'a [u8]) -> Walk<'a> {
        Walk { payload, number: 0, place: FIRST, read: [FoundServiceEntry::EMPTY; AT_ONCE], filled: 0, given: 0 }
    }

    /// The next one, if the header counts one more.
    fn next(&mut self) -> Result<Option<FoundServiceEntry>> {
        if self.given == self.filled {
            self.read_more()?;
        }
        let found = self.read[..self.filled].get(self.given).copied();
        if let Some(found) = found {
            self.given += 1;
            self.number += 1;
            self.place = found.item.next;
        }
        Ok(found)
    }

    /// Reads as many as are read at once; none where the header counts no more.
    fn read_more(&mut self) -> Result<()> {
        (self.filled, self.given) = (0, 0);
        let (into, mut at) = (self.read.as_mut_ptr(), 0);
        let Walk { payload, number, place, ref mut filled, .. } = *self;
        // SAFETY: the payload is a slice, and what is written lies apart from it.
        let status = unsafe { passed!(nbt_service_items () [payload], number, place, into, AT_ONCE, filled, &mut at;) };
        match status {
            DONE | NO_ITEM => Ok(()),
            _ => Err(Error::new(status, at)),
        }
    }

    /// The next one, of so many that stand.
    fn next_of(&mut self, left: &mut usize) -> Option<FoundServiceEntry> {
        *left = left.checked_sub(1)?;
        self.next().ok().flatten()
    }
}

/// The number of an item's section, of four.
fn section_of(found: &FoundServiceEntry) -> usize {
    (found.item.section & 3) as usize
}

/// What is asked for: RFC 1002 section 4.2.1.2.
#[derive(Clone, Copy, Debug, PartialEq, Eq, Hash)]
#[cfg_attr(feature = "serde", derive(serde::Serialize, serde::Deserialize))]
pub struct Question {
    /// QUESTION_NAME.
    pub name: Name,
    /// QUESTION_TYPE, as [`NB`](crate::service::NB).
    pub kind: u16,
    /// QUESTION_CLASS.
    pub class: u16,
}

/// The questions that haven't been handed out yet.
#[derive(Clone, Debug)]
pub struct Questions<'a> {
    walk: Walk<'a>,
    left: usize,
}

impl Iterator for Questions<'_> {
    type Item = Question;

    fn next(&mut self) -> Option<Question> {
        let found = self.walk.next_of(&mut self.left)?.item;
        Some(Question {
            name: Name::of_bytes(found.name, found.name_length),
            kind: found.kind,
            class: found.class_number,
        })
    }

    fn size_hint(&self) -> (usize, Option<usize>) {
        (self.left, Some(self.left))
    }
}

impl ExactSizeIterator for Questions<'_> {}

/// What is said of a name: RFC 1002 section 4.2.1.3. By what [`rdata`](Record::rdata) reads nobody can put anything else.
///
/// ```compile_fail
/// fn other(record: &mut nbt::service::Record) {
///     record.kind = nbt::service::NS;
/// }
/// ```
///
/// ```compile_fail
/// fn other(record: &mut nbt::service::Record) {
///     record.data = b"";
/// }
/// ```
#[derive(Clone, Copy)]
pub struct Record<'a> {
    /// Where it stands.
    pub section: Section,
    /// RR_NAME.
    pub name: Name,
    /// RR_CLASS.
    pub class: u16,
    /// TTL, in seconds.
    pub time_to_live: u32,
    kind: u16,
    data: &'a [u8],
    server: Option<Name>,
}

impl<'a> Record<'a> {
    /// The record that was found in a payload.
    fn of(payload: &'a [u8], entry: &FoundServiceEntry) -> Record<'a> {
        let found = &entry.item;
        Record {
            section: Section::ALL[section_of(entry).saturating_sub(1).min(2)],
            name: Name::of_bytes(found.name, found.name_length),
            class: found.class_number,
            time_to_live: found.time_to_live,
            kind: found.kind,
            data: &payload[found.data..found.data + found.data_length],
            server: (entry.server_length > 0).then(|| Name::of_bytes(entry.server, entry.server_length)),
        }
    }

    /// RR_TYPE, as [`NB`](crate::service::NB).
    pub fn kind(&self) -> u16 {
        self.kind
    }

    /// RDATA.
    pub fn data(&self) -> &'a [u8] {
        self.data
    }

    /// What its RDATA says, by its type.
    pub fn rdata(&self) -> Rdata<'a> {
        Rdata::of(self.kind, self.data, self.server)
    }
}

impl fmt::Debug for Record<'_> {
    fn fmt(&self, out: &mut fmt::Formatter<'_>) -> fmt::Result {
        out.debug_struct("Record")
            .field("section", &self.section)
            .field("name", &self.name)
            .field("kind", &self.kind)
            .field("class", &self.class)
            .field("time_to_live", &self.time_to_live)
            .field("rdata", &self.rdata())
            .finish()
    }
}

/// The records that haven't been handed out yet.
#[derive(Clone, Debug)]
pub struct Records<'a> {
    walk: Walk<'a>,
    left: usize,
}

impl<'a> Iterator for Records<'a> {
    type Item = Record<'a>;

    fn next(&mut self) -> Option<Record<'a>> {
        let found = self.walk.next_of(&mut self.left)?;
        Some(Record::of(self.walk.payload, &found))
    }

    fn size_hint(&self) -> (usize, Option<usize>) {
        (self.left, Some(self.left))
    }
}

impl ExactSizeIterator for Records<'_> {}
