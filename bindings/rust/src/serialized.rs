//! What serde is given of the values, with the feature `serde`, where a derive can't say it: names as their texts, bytes as
//! hexadecimal digits, and what is read on demand.
//!
//! ```
//! use nbt::service::{read, Question, Request};
//! use nbt::Name;
//!
//! let payload = Request::Query.write(3, "FRED<20>", true)?;
//! let question = read(&payload)?.questions().next().ok_or("a question")?;
//! let json = serde_json::to_string(&question)?;
//! assert_eq!(json, r#"{"name":"FRED<20>","kind":32,"class":1}"#);
//! assert_eq!(serde_json::from_str::<Question>(&json)?, question);
//!
//! let refused = serde_json::from_str::<Name>(r#""FRED""#).unwrap_err();
//! assert!(refused.to_string().starts_with("bad text 4"));
//! # Ok::<(), Box<dyn std::error::Error>>(())
//! ```

use std::fmt::Write;

use serde::de::{Deserialize, Deserializer, Error as _, Unexpected};
use serde::ser::{Error as _, Serialize, SerializeStruct, Serializer};

use crate::service_packets::{Packet, Questions, Record, Records};
use crate::{session, Name, Spelling};

/// Values as the text that each shows itself as. Unlike `collect_str` it has an error where memory ran out for that text.
macro_rules! texts {
    ($($each:ty),*) => {$(
        impl Serialize for $each {
            fn serialize<S: Serializer>(&self, out: S) -> Result<S::Ok, S::Error> {
                let mut text = String::new();
                write!(text, "{self}").map_err(S::Error::custom)?;
                out.serialize_str(&text)
            }
        }
    )*};
}

texts!(Name, Spelling<'_>);

/// Bytes as two hexadecimal digits each.
pub(crate) fn digits<S: Serializer>(bytes: impl AsRef<[u8]>, out: S) -> Result<S::Ok, S::Error> {
    out.serialize_str(&digits_of(bytes.as_ref()))
}

/// The same of bytes that may be missing.
pub(crate) fn digits_if<S: Serializer>(bytes: &Option<impl AsRef<[u8]>>, out: S) -> Result<S::Ok, S::Error> {
    let digits = bytes.as_ref().map(|it| digits_of(it.as_ref()));
    digits.serialize(out)
}

/// Both ways.
pub(crate) mod bytes {
    use super::*;

    pub(crate) use super::digits as serialize;

    pub(crate) fn deserialize<'de, D: Deserializer<'de>>(from: D) -> Result<Vec<u8>, D::Error> {
        let digits = String::deserialize(from)?;
        let wanted = &"two hexadecimal digits for each byte";
        bytes_of(&digits).ok_or_else(|| D::Error::invalid_value(Unexpected::Str(&digits), wanted))
    }
}

fn digits_of(bytes: &[u8]) -> String {
    let digit = |half: u8| char::from(b"0123456789abcdef"[usize::from(half)]);
    let pairs = bytes.iter().flat_map(|it| [it >> 4, it & 15]);
    pairs.map(digit).collect()
}

fn bytes_of(digits: &str) -> Option<Vec<u8>> {
    let half = |digit: u8| char::from(digit).to_digit(16);
    let byte = |pair: &[u8]| match *pair {
        [high, low] => u8::try_from(half(high)? << 4 | half(low)?).ok(),
        _ => None,
    };
    digits.as_bytes().chunks(2).map(byte).collect()
}

/// From the text of a NetBIOS name, as by [`str::parse`].
impl<'de> Deserialize<'de> for Name {
    fn deserialize<D: Deserializer<'de>>(from: D) -> Result<Name, D::Error> {
        let text = String::deserialize(from)?;
        text.parse().map_err(D::Error::custom)
    }
}

/// What hasn't been handed out yet, in order.
macro_rules! sequences {
    ($($each:ident),*) => {$(
        impl serde::Serialize for $each<'_> {
            fn serialize<S: serde::Serializer>(&self, out: S) -> Result<S::Ok, S::Error> {
                out.collect_seq(self.clone())
            }
        }
    )*};
}

pub(crate) use sequences;
sequences!(Questions, Records);

/// Structures of which some fields are what a call answers.
macro_rules! fields {
    ($($of:ty as $name:literal, |$it:ident| $($field:ident: $value:expr),*;)*) => {$(
        impl Serialize for $of {
            fn serialize<S: Serializer>(&self, out: S) -> Result<S::Ok, S::Error> {
                let ($it, mut fields) = (self, out.serialize_struct($name, [$(stringify!($field)),*].len())?);
                $(fields.serialize_field(stringify!($field), &$value)?;)*
                fields.end()
            }
        }
    )*};
}

fields! {
    Packet<'_> as "Packet", |it| header: it.header, questions: it.questions(), records: it.records(), used: it.used;
    Record<'_> as "Record", |it| section: it.section, name: it.name, kind: it.kind(), class: it.class, time_to_live: it.time_to_live,
        rdata: it.rdata();
    session::Packet<'_> as "Packet", |it| kind: it.kind(), body: digits_of(it.body()), names: it.names(), retarget: it.retarget(),
        used: it.used();
}
