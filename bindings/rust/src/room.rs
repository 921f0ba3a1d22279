//! How calls are made, and what they write: bytes, in as much room as they want, structures, and places.

/// A call with these words, and behind `;` the room that it writes to, if it does. Of a slice in brackets its place and its length are
/// given; `at` is a place in the room.
macro_rules! passed {
    ($call:ident ($($given:expr,)*) ;) => { $call($($given),*) };
    ($call:ident ($($given:expr,)*) ; $room:ident) => { $call($($given,)* $room.into, $room.length, $room.used) };
    ($call:ident ($($given:expr,)*) at; $room:ident) => { $call($($given,)* $room.into, $room.length, $room.used, $room.at) };
    ($call:ident ($($given:expr,)*) [$slice:expr], $($rest:tt)*) => {
        $crate::room::passed!($call ($($given,)* $slice.as_ptr(), $slice.len(),) $($rest)*)
    };
    ($call:ident ($($given:expr,)*) [$slice:expr]; $($rest:tt)*) => {
        $crate::room::passed!($call ($($given,)* $slice.as_ptr(), $slice.len(),) ; $($rest)*)
    };
    ($call:ident ($($given:expr,)*) $one:expr, $($rest:tt)*) => { $crate::room::passed!($call ($($given,)* $one,) $($rest)*) };
    ($call:ident ($($given:expr,)*) $one:expr; $($rest:tt)*) => { $crate::room::passed!($call ($($given,)* $one,) ; $($rest)*) };
}

/// Puts what a call writes into a buffer in the place of what it held: [`fill`].
macro_rules! write_into {
    ($into:expr, $call:ident($($words:tt)*)) => {
        // SAFETY: slices are there, stations are open, and the room's parts lie apart from them and from each other.
        unsafe { $crate::room::fill($into, |room| $crate::room::passed!($call () $($words)*; room)) }
    };
}

/// What a call writes, in a buffer of its own.
macro_rules! written {
    ($call:ident($($words:tt)*)) => {{
        let mut into = Vec::new();
        $crate::room::write_into!(&mut into, $call($($words)*)).map(|()| into)
    }};
}

/// What a call answers that fills in a structure: its status, the structure, and the place.
macro_rules! found {
    ($structure:ident, $call:ident($($words:tt)*)) => {{
        let (mut found, mut at) = ($structure::EMPTY, 0);
        // SAFETY: slices are there, and what is written lies apart from them.
        let status = unsafe { $crate::room::passed!($call () $($words)*, &mut found, &mut at;) };
        (status, found, at)
    }};
}

pub(crate) use {found, passed, write_into, written};

use crate::header::{DONE, NO_ROOM};
use crate::{Error, Result};

/// How many bytes an answer may have before its call is made a second time.
const ROOM: usize = 1_024;

/// Where a call writes: the front of a buffer, how many bytes it has, how many are used, and a place.
pub(crate) struct Room<'a> {
    pub(crate) into: *mut u8,
    pub(crate) length: usize,
    pub(crate) used: &'a mut usize,
    pub(crate) at: &'a mut usize,
}

/// Puts what a call writes into this buffer, in the place of what it held. The call is made again where it wants more
/// room. After an error the buffer is empty.
///
/// # Safety
///
/// The call writes into its room alone, and where it answers DONE, as many bytes at the front as `used` then says.
pub(crate) unsafe fn fill(into: &mut Vec<u8>, mut call: impl FnMut(Room<'_>) -> u32) -> Result<()> {
    let (mut used, mut at, mut wanted) = (0, 0, ROOM);
    into.clear();
    loop {
        into.try_reserve_exact(wanted).map_err(|_| Error::NO_MEMORY)?;
        let status = call(Room { into: into.as_mut_ptr(), length: into.capacity(), used: &mut used, at: &mut at });
        match status {
            DONE => {
                // SAFETY: the call wrote `used` bytes at the front, of at most the capacity.
                unsafe { into.set_len(used) };
                return Ok(());
            }
            NO_ROOM => wanted = used,
            _ => return Err(Error::new(status, at)),
        }
    }
}

/// The text of bytes that the library wrote. It writes plain ASCII, so nothing is ever replaced.
pub(crate) fn text_of(bytes: Vec<u8>) -> String {
    String::from_utf8(bytes).unwrap_or_else(|error| String::from_utf8_lossy(error.as_bytes()).into_owned())
}
