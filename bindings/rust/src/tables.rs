//! Saved tables: what is known of datagrams, as the command `nbt save` writes it, as bytes instead of digits (our
//! choice). docs/FORMATS.md has both forms, NBT1 and NBT2.

use crate::header::{nbt_table_differ, nbt_table_json, nbt_table_list, nbt_table_merge, FoundDifference, DONE, KEYS};
use crate::room::{found, text_of, written};
use crate::station::Key;
use crate::{Error, Result};

/// How much a table has room for: as many keys as a command of `nbt` has room for, and no limit on one address, where nothing else is said.
#[derive(Clone, Copy, Debug, PartialEq, Eq, Hash)]
#[cfg_attr(feature = "serde", derive(serde::Serialize, serde::Deserialize))]
pub struct Limits {
    /// How many keys, in all. `u32::MAX` is no limit.
    pub keys: u32,
    /// How many keys of one address, whatever its ports. `u32::MAX` is no limit.
    pub per_source: u32,
}

impl Default for Limits {
    fn default() -> Limits {
        Limits { keys: KEYS, per_source: u32::MAX }
    }
}

/// Joins two saved tables, and answers the joined one, saved: all that either knows. Each of the three has this room.
/// Both forms are read, and the second is written.
///
/// ```
/// use nbt::Limits;
///
/// let (old, new) = (b"NBT1\0\0\0\0", b"NBT2\0\0\0\0");
/// assert_eq!(nbt::merge(old, new, Limits::default())?, new);
/// # Ok::<(), nbt::Error>(())
/// ```
///
/// # Errors
///
/// `TableBadMagic` to `TableFull` of the first, `SecondBadMagic` to `SecondFull` of the second, `FullSource`, `Full`,
/// `NoMemory` (which may come before those that follow the first).
pub fn merge(first: &[u8], second: &[u8], limits: Limits) -> Result<Vec<u8>> {
    written!(nbt_table_merge([first], [second], limits.keys, limits.per_source, at))
}

/// What the command `nbt list` prints of a saved table: a line for each key, ascending, line feeds included (our choice).
/// However many keys it has, none is too many.
///
/// ```
/// let table = b"NBT2\0\0\0\x01\x0a\0\0\x05\0\x8a\0\x07\0";
/// assert_eq!(nbt::list_table(table)?, "10.0.0.5:138/0007 spoilt\n");
/// # Ok::<(), nbt::Error>(())
/// ```
///
/// # Errors
///
/// `TableBadMagic`, `TableTruncated`, `TableNotCanonical`, `NoMemory`.
pub fn list_table(table: &[u8]) -> Result<String> {
    written!(nbt_table_list([table], at)).map(text_of)
}

/// What the command `nbt list --json` prints of a saved table: a JSON object (RFC 8259) for each key, ascending, line feeds
/// included (our choice).
///
/// ```
/// let table = b"NBT2\0\0\0\x01\x0a\0\0\x05\0\x8a\0\x07\0";
/// let object = r#"{"key":"10.0.0.5:138/0007","state":"spoilt"}"#;
/// assert_eq!(nbt::table_json(table)?, format!("{object}\n"));
/// # Ok::<(), nbt::Error>(())
/// ```
///
/// # Errors
///
/// `TableBadMagic`, `TableTruncated`, `TableNotCanonical`, `NoMemory`.
pub fn table_json(table: &[u8]) -> Result<String> {
    written!(nbt_table_json([table], at)).map(text_of)
}

/// The least key at which two saved tables know different things: the least address, then port, then identifier. `None`
/// where they know the same. However many keys they have, none is too many.
///
/// ```
/// let (one, none) = (b"NBT2\0\0\0\x01\x0a\0\0\x05\0\x8a\0\x07\0", b"NBT2\0\0\0\0");
/// assert_eq!(nbt::differ(one, one)?, None);
/// assert_eq!(nbt::differ(one, none)?.unwrap().to_string(), "10.0.0.5:138/0007");
/// # Ok::<(), nbt::Error>(())
/// ```
///
/// # Errors
///
/// `TableBadMagic` to `TableNotCanonical` of the first, `SecondBadMagic` to `SecondNotCanonical` of the second, `NoMemory`
/// (which may come before those of the second).
pub fn differ(first: &[u8], second: &[u8]) -> Result<Option<Key>> {
    let (status, found, at) = found!(FoundDifference, nbt_table_differ([first], [second]));
    if status != DONE {
        return Err(Error::new(status, at));
    }
    Ok((found.differ != 0).then_some(Key::of(found.address, found.port, found.identifier)))
}
