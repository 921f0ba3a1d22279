//! A library that is newer than the crate: one of its calls, which stands here in its place, answers a status that the
//! crate doesn't know.

use nbt::Status;

/// As nbt_name_spell of include/nbt.h.
#[no_mangle]
extern "C" fn nbt_name_spell(
    _text: *const u8,
    _text_length: usize,
    _into: *mut u8,
    _into_length: usize,
    _used: *mut usize,
    _at: *mut usize,
) -> u32 {
    130
}

#[test]
fn keeps_the_number() {
    let error = nbt::spell("FRED<20>").unwrap_err();
    assert_eq!((error.status(), error.number(), error.at()), (Status::UnknownStatus, 130, None));
    let words = Status::UnknownStatus.to_string();
    assert_eq!(error.to_string(), format!("status 130: {words}"));
}

#[test]
fn knows_the_others() {
    let error = nbt::text(b"").unwrap_err();
    assert_eq!((error.status(), error.number(), error.at()), (Status::NameTruncated, 20, Some(0)));
}
