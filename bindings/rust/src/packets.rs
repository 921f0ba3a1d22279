//! What the command `nbt show` prints of a payload: as lines, as a phrase and as JSON; lines of captures, which have payloads: what came to
//! the ports of NetBIOS and when, as the commands of `nbt` read it (our choice); the version of the library.

use crate::header::{nbt_brief, nbt_capture_line, nbt_json, nbt_show, nbt_version, FoundLine, PACKET, TICK};
use crate::room::{text_of, write_into, written};
use crate::Result;

/// What a call says of a payload: as a text, and put into a buffer.
macro_rules! said {
    ($($call:ident: $(#[$said:meta])* $name:ident, $(#[$put:meta])* $name_into:ident;)*) => {$(
        $(#[$said])*
        ///
        /// # Errors
        ///
        /// `NoMemory`.
        pub fn $name(port: u16, payload: &[u8]) -> Result<String> {
            let mut text = Vec::new();
            $name_into(port, payload, &mut text)?;
            Ok(text_of(text))
        }

        $(#[$put])*
        ///
        /// # Errors
        ///
        /// `NoMemory`; the buffer is then empty.
        pub fn $name_into(port: u16, payload: &[u8], text: &mut Vec<u8>) -> Result<()> {
            write_into!(text, $call(port, [payload]))
        }
    )*};
}

said! {
    nbt_show:
    /// What the command `nbt show` prints of a payload that came to this port, line feeds included: the packet that it
    /// begins with, or why it begins with none (our choice). 137 is the name service, 138 the datagram service; any other
    /// port is taken for a session.
    show,
    /// Puts what [`show`] answers, plain ASCII, into a buffer in the place of what it held. A program that shows many
    /// payloads keeps one buffer, and so takes no memory for each.
    show_into;

    nbt_json:
    /// The JSON object (RFC 8259) of a payload that came to this port, without a line feed: what `nbt show --json` prints of it, but for
    /// the members `line`, `port`, `moment` and `comment`. Ports are as of [`show`].
    ///
    /// ```
    /// let object = nbt::json(139, &[0x85, 0, 0, 0])?;
    /// assert_eq!(object, r#"{"kind":"keepalive","used":4}"#);
    /// # Ok::<(), nbt::Error>(())
    /// ```
    json,
    /// Puts what [`json`] answers into a buffer in the place of what it held, as [`show_into`] does.
    json_into;

    nbt_brief:
    /// The phrase of a payload that came to this port, without a line feed: what `nbt show --brief` prints of it after the two
    /// numbers of its line (the words are our choice). Ports are as of [`show`].
    ///
    /// ```
    /// assert_eq!(nbt::brief(139, &[0, 0, 0, 2, b'h', b'i'])?, "sends 2 bytes");
    /// # Ok::<(), nbt::Error>(())
    /// ```
    brief,
    /// Puts what [`brief`] answers into a buffer in the place of what it held, as [`show_into`] does.
    brief_into;
}

/// The version of the library that is called, as `nbt --version` has it.
///
/// # Errors
///
/// `NoMemory`.
pub fn version() -> Result<String> {
    written!(nbt_version()).map(text_of)
}

/// What a line of a capture says. Moments are in milliseconds since any moment of the capture's choice.
#[derive(Clone, Debug, PartialEq, Eq, Hash)]
#[cfg_attr(feature = "serde", derive(serde::Serialize, serde::Deserialize), serde(rename_all = "lowercase"))]
pub enum Line {
    /// A payload that came.
    Packet {
        /// The port that it came to: 137, 138 or 139.
        port: u16,
        /// When it came.
        moment: u64,
        /// Its bytes.
        #[cfg_attr(feature = "serde", serde(with = "crate::serialized::bytes"))]
        payload: Vec<u8>,
    },
    /// The clock.
    Tick {
        /// What it shows.
        now: u64,
    },
}

/// What a line of a capture says, which is without its line feed; None where it is empty or a comment. docs/FORMATS.md has the
/// form.
///
/// ```
/// use nbt::{capture_line, Line};
///
/// let packet = Line::Packet { port: 139, moment: 7, payload: vec![0x85, 0, 0, 0] };
/// assert_eq!(capture_line(b"139 7 85000000")?, Some(packet));
/// assert_eq!(capture_line(b"tick 2000")?, Some(Line::Tick { now: 2000 }));
/// assert_eq!(capture_line(b"# an office")?, None);
/// # Ok::<(), nbt::Error>(())
/// ```
///
/// # Errors
///
/// `BadLine` for any other line, and for one of more bytes than `NBT_MOST_LINE` of include/nbt.h; `NoMemory`.
pub fn capture_line(line: &[u8]) -> Result<Option<Line>> {
    let mut said = FoundLine::EMPTY;
    let payload = written!(nbt_capture_line([line], &mut said))?;
    let FoundLine { kind, port, moment } = said;
    Ok(match kind {
        PACKET => Some(Line::Packet { port, moment, payload }),
        TICK => Some(Line::Tick { now: moment }),
        _ => None,
    })
}
