//! What `nbt show` prints of a payload, and what statuses say; lines of captures, of which none has its line feed; what an error becomes,
//! and which numbers are statuses.

use std::{io, thread};

use crate::refused;
use nbt::{brief_into, capture_line, json_into, show, show_into, spell, text, version, Error, Name, Status};

/// The crate's version is the library's.
#[test]
fn versions_agree() {
    assert_eq!(version().unwrap(), env!("CARGO_PKG_VERSION"));
}

#[test]
fn a_buffer_is_kept() {
    let mut text = b"what stood there".to_vec();
    show_into(139, b"\x82\0\0\0", &mut text).unwrap();
    assert_eq!(text, b"positive used=4\n");
    let long = [&b"\0\x01\xff\xff"[..], &[7; 131_071]].concat();
    show_into(139, &long, &mut text).unwrap();
    assert!(text.len() > 2 * 131_071 && text.ends_with(b" used=131075\n"));
    let room = text.capacity();
    show_into(139, b"\x82\0\0\0", &mut text).unwrap();
    assert_eq!((&text[..], text.capacity()), (&b"positive used=4\n"[..], room));
    json_into(139, b"\x85\0\0\0", &mut text).unwrap();
    assert_eq!(text, br#"{"kind":"keepalive","used":4}"#);
    brief_into(138, b"", &mut text).unwrap();
    assert_eq!(text, b"refused: truncated, at byte 0");
}

#[test]
fn threads_show() {
    let shown = |code: u8| show(139, &[0x83, 0, 0, 1, code]).unwrap();
    thread::scope(|threads| {
        for first in 0..4 {
            threads.spawn(move || {
                for code in (first..=255).step_by(4) {
                    assert_eq!(shown(code), format!("negative code={code:02x} used=5\n"));
                }
            });
        }
    });
}

#[test]
fn words_are_padded() {
    assert_eq!(format!("{:>12}", Status::BadText), "    bad text");
}

#[test]
fn a_line_is_without_its_line_feed() {
    for line in ["tick 7\n", "# an office\n", "\n", "tick 7\r"] {
        assert_eq!(refused(capture_line(line.as_bytes())), (Status::BadLine, None), "{line:?}");
    }
}

#[test]
fn errors_of_streams() {
    for (error, kind) in [
        (spell("FRED").unwrap_err(), io::ErrorKind::InvalidInput),
        (text(b"").unwrap_err(), io::ErrorKind::InvalidData),
        (Status::try_from(130).unwrap_err(), io::ErrorKind::Other),
    ] {
        assert_eq!(error.missing(), None);
        let found = io::Error::from(error);
        assert_eq!((found.kind(), found.to_string()), (kind, error.to_string()));
        let within = found.get_ref().and_then(|it| it.downcast_ref::<Error>());
        assert_eq!(within, Some(&error));
    }
    let question_mark = || -> io::Result<Name> { Ok("FRED".parse::<Name>()?) };
    assert_eq!(question_mark().unwrap_err().kind(), io::ErrorKind::InvalidInput);
}

#[test]
fn numbers_are_statuses() {
    for status in Status::ALL {
        assert_eq!(Status::try_from(status.number()), Ok(status));
    }
    for number in [0, 1, 3, 130, u32::MAX] {
        let error = Status::try_from(number).unwrap_err();
        assert_eq!((error.status(), error.number(), error.at()), (Status::UnknownStatus, number, None));
    }
}
