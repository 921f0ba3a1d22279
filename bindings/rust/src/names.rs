//! Names as texts, as packets spell them, and as they lie in place: RFC 1001 section 14, RFC 1002 section 4.1.

use std::fmt::{self, Write};
use std::hash::{Hash, Hasher};
use std::str::FromStr;

use crate::header::{nbt_name_spell, nbt_name_text, DONE};
use crate::room::{text_of, written};
use crate::{Error, Result, Status};

/// The spelling of the name with this text: its labels, each after its length, then a zero byte; at most 255 bytes.
///
/// ```
/// let spelling = nbt::spell("FRED<20>.NETBIOS.COM")?;
/// assert_eq!(&spelling[..], b"\x20EGFCEFEECACACACACACACACACACACACA\x07NETBIOS\x03COM\0");
/// assert_eq!(nbt::text(&spelling)?, "FRED<20>.NETBIOS.COM");
/// # Ok::<(), nbt::Error>(())
/// ```
///
/// # Errors
///
/// `BadText`, `LongText`, `NoMemory`, judged in this order.
pub fn spell(text: &str) -> Result<Vec<u8>> {
    written!(nbt_name_spell([text], at))
}

/// The text of the name with this spelling, which is without pointers and has no byte after it.
///
/// # Errors
///
/// `NameTruncated` to `NameNotNetbios`, `NameTrailingBytes`, `NoMemory`.
pub fn text(spelling: &[u8]) -> Result<String> {
    written!(nbt_name_text([spelling], at)).map(text_of)
}

/// The spelling of a name, lent from the packet that it was read in; a [`crate::Name`] is made of it to be kept. Equality and
/// order are by bytes, so upper and lower case of a scope differ. It shows itself as a text, as in `JOE<00>`.
#[derive(Clone, Copy, PartialEq, Eq, PartialOrd, Ord, Hash)]
pub struct Spelling<'a>(pub(crate) &'a [u8]);

impl<'a> Spelling<'a> {
    /// Its bytes: labels, each after its length, then a zero byte.
    pub fn as_bytes(self) -> &'a [u8] {
        self.0
    }

    /// The name as a text, as in `FRED<20>`.
    ///
    /// # Errors
    ///
    /// `NoMemory`.
    pub fn text(self) -> Result<String> {
        text(self.0)
    }
}

/// The spelling that these bytes are, of a NetBIOS name. Errors are those of [`text`].
impl<'a> TryFrom<&'a [u8]> for Spelling<'a> {
    type Error = Error;

    fn try_from(bytes: &'a [u8]) -> Result<Spelling<'a>> {
        text(bytes).map(|_| Spelling(bytes))
    }
}

impl AsRef<[u8]> for Spelling<'_> {
    fn as_ref(&self) -> &[u8] {
        self.0
    }
}

impl fmt::Display for Spelling<'_> {
    fn fmt(&self, out: &mut fmt::Formatter<'_>) -> fmt::Result {
        out.pad(&self.text().map_err(|_| fmt::Error)?)
    }
}

impl fmt::Debug for Spelling<'_> {
    fn fmt(&self, out: &mut fmt::Formatter<'_>) -> fmt::Result {
        fmt::Display::fmt(self, out)
    }
}

/// How many bytes the spelling at the front has, its zero byte among them.
pub(crate) fn spelled_length(bytes: &[u8]) -> Option<usize> {
    let mut length = 0;
    loop {
        match usize::from(*bytes.get(length)?) {
            0 => return Some(length + 1),
            size => length += 1 + size,
        }
    }
}

/// The longest spelling.
const LONGEST: usize = 255;
/// The first label of a NetBIOS name, its length among its bytes.
const FIRST_LABEL: usize = 33;

/// A name as packets spell it, which lies in place, in 256 bytes, and takes no memory: of the name service, where it may be
/// a domain name that is no NetBIOS name, or one that a [`Spelling`] or a text gave. Its text is as `nbt show` prints it.
/// Equality and order are by the bytes of the spelling, so upper and lower case of a scope differ.
///
/// ```
/// use nbt::Name;
///
/// let name: Name = "FRED<20>.NETBIOS.COM".parse()?;
/// assert_eq!(name.as_ref(), nbt::spell("FRED<20>.NETBIOS.COM")?);
/// assert_eq!(name.to_string(), "FRED<20>.NETBIOS.COM");
/// assert_eq!(Name::from(*b"FRED            ").to_string(), "FRED<20>");
/// # Ok::<(), nbt::Error>(())
/// ```
#[derive(Clone, Copy, PartialEq, Eq, PartialOrd, Ord)]
pub struct Name {
    /// The spelling, and bytes of zero after it. No spelling is the front of another, so all of them compare as spellings do.
    bytes: [u8; LONGEST],
    length: u8,
}

impl Name {
    /// The name with this spelling, of at most 255 bytes.
    fn of_spelling(spelling: &[u8]) -> Name {
        let mut bytes = [0; LONGEST];
        bytes[..spelling.len()].copy_from_slice(spelling);
        Name::of_bytes(bytes, spelling.len() as u8)
    }

    /// The name whose spelling is at the front of these bytes, of which the others are zeros.
    pub(crate) fn of_bytes(bytes: [u8; LONGEST], length: u8) -> Name {
        Name { bytes, length }
    }

    /// Its spelling: labels, each after its length, then a zero byte.
    pub fn as_bytes(&self) -> &[u8] {
        &self.bytes[..usize::from(self.length)]
    }

    /// Its labels, in order.
    pub fn labels(&self) -> Labels<'_> {
        Labels(self.as_bytes())
    }

    /// Whether it is a NetBIOS name, whose first label is 32 of the letters A to P.
    pub fn is_netbios(&self) -> bool {
        let first = self.labels().next().unwrap_or_default();
        first.len() == 32 && first.iter().all(|letter| (b'A'..=b'P').contains(letter))
    }
}

/// The labels of a name that haven't been handed out yet.
#[derive(Clone, Debug)]
pub struct Labels<'a>(&'a [u8]);

impl<'a> Iterator for Labels<'a> {
    type Item = &'a [u8];

    fn next(&mut self) -> Option<&'a [u8]> {
        let (&size, rest) = self.0.split_first()?;
        let label = rest.get(..usize::from(size)).filter(|it| !it.is_empty())?;
        self.0 = &rest[label.len()..];
        Some(label)
    }
}

/// The name of sixteen bytes, without a scope: RFC 1001 section 14.1.
impl From<[u8; 16]> for Name {
    fn from(name: [u8; 16]) -> Name {
        let mut spelling = [0; 34];
        spelling[0] = 32;
        for (letters, byte) in spelling[1..33].chunks_exact_mut(2).zip(name) {
            letters.copy_from_slice(&[b'A' + (byte >> 4), b'A' + (byte & 15)]);
        }
        Name::of_spelling(&spelling)
    }
}

/// The sixteen bytes of a name without a scope. `NameNotNetbios` where it isn't a NetBIOS name, and where it has a scope; the place
/// is that of the label which stands there instead.
impl TryFrom<Name> for [u8; 16] {
    type Error = Error;

    fn try_from(name: Name) -> Result<[u8; 16]> {
        let odd = |place| Err(Error::new(Status::NameNotNetbios.number(), place));
        if !name.is_netbios() {
            return odd(0);
        }
        if name.labels().count() > 1 {
            return odd(FIRST_LABEL);
        }
        let (mut bytes, letters) = ([0; 16], &name.bytes[1..FIRST_LABEL]);
        for (byte, pair) in bytes.iter_mut().zip(letters.chunks_exact(2)) {
            *byte = (pair[0] - b'A') << 4 | (pair[1] - b'A');
        }
        Ok(bytes)
    }
}

impl From<Spelling<'_>> for Name {
    fn from(spelling: Spelling<'_>) -> Name {
        Name::of_spelling(spelling.as_bytes())
    }
}

/// The NetBIOS name with this spelling. Errors are those of [`text`].
impl TryFrom<&[u8]> for Name {
    type Error = Error;

    fn try_from(spelling: &[u8]) -> Result<Name> {
        Spelling::try_from(spelling).map(Name::from)
    }
}

/// The NetBIOS name with this text. Errors are those of [`crate::spell`].
impl FromStr for Name {
    type Err = Error;

    fn from_str(text: &str) -> Result<Name> {
        let (mut bytes, mut used, mut at) = ([0; LONGEST], 0, 0);
        // SAFETY: the text is a slice, and what is written lies apart from it.
        let status =
            unsafe { nbt_name_spell(text.as_ptr(), text.len(), bytes.as_mut_ptr(), LONGEST, &mut used, &mut at) };
        match status {
            DONE => Ok(Name::of_bytes(bytes, used as u8)),
            _ => Err(Error::new(status, at)),
        }
    }
}

impl AsRef<[u8]> for Name {
    fn as_ref(&self) -> &[u8] {
        self.as_bytes()
    }
}

impl Hash for Name {
    fn hash<H: Hasher>(&self, state: &mut H) {
        self.as_bytes().hash(state);
    }
}

impl fmt::Display for Name {
    fn fmt(&self, out: &mut fmt::Formatter<'_>) -> fmt::Result {
        if self.is_netbios() {
            return out.pad(&text(self.as_bytes()).map_err(|_| fmt::Error)?);
        }
        let mut labels = String::new();
        for label in self.labels() {
            write_label(&mut labels, label)?;
        }
        out.pad(if labels.is_empty() { "." } else { &labels[1..] })
    }
}

impl fmt::Debug for Name {
    fn fmt(&self, out: &mut fmt::Formatter<'_>) -> fmt::Result {
        fmt::Display::fmt(self, out)
    }
}

/// Puts a label after a full stop. A byte that isn't plain is a backslash and two hexadecimal digits.
fn write_label(out: &mut String, label: &[u8]) -> fmt::Result {
    out.push('.');
    for &byte in label {
        match byte {
            b'.' | b'<' | b'>' | b'\\' => write!(out, "\\{byte:02x}")?,
            b'!'..=b'~' => out.push(char::from(byte)),
            _ => write!(out, "\\{byte:02x}")?,
        }
    }
    Ok(())
}
