//! Names that lie in place, and spellings that are lent.

use std::collections::{BTreeSet, HashSet};

use crate::{refused, FRED, JOE};
use nbt::{Name, Spelling, Status};

/// RFC 1001 section 14.2 has the labels after the first one.
const SCOPED: &[u8] = b"\x20EGFCEFEECACACACACACACACACACACACA\x07NETBIOS\x03COM\0";

#[test]
fn names_lie_in_place() {
    let name: Name = "FRED<20>.NETBIOS.COM".parse().unwrap();
    assert_eq!((name.as_ref(), name.as_bytes()), (SCOPED, SCOPED));
    assert_eq!(
        format!("{name}, {name:?}, {name:>22}"),
        "FRED<20>.NETBIOS.COM, FRED<20>.NETBIOS.COM,   FRED<20>.NETBIOS.COM"
    );
    assert!(name.is_netbios());
    assert_eq!(name.labels().collect::<Vec<_>>(), [&SCOPED[1..33], b"NETBIOS", b"COM"]);
    assert_eq!(Name::from(*b"FRED            ").as_bytes(), FRED);
    assert_eq!(Name::from(*b"JOE            \0").as_bytes(), JOE);
    assert_eq!(Name::try_from(SCOPED).unwrap(), name);
    let longest = format!(r"{}<ff>.{}", r"\01".repeat(15), ["x"; 110].join("."));
    let name: Name = longest.parse().unwrap();
    assert_eq!((name.to_string(), name.as_bytes().len()), (longest, 254));
}

#[test]
fn names_are_sixteen_bytes() {
    for bytes in [*b"FRED            ", [0xff; 16], *b"JOE            \0"] {
        assert_eq!(<[u8; 16]>::try_from(Name::from(bytes)), Ok(bytes));
    }
    let scoped: Name = "FRED<20>.COM".parse().unwrap();
    let of = |name: Name| refused(<[u8; 16]>::try_from(name));
    assert_eq!(of(scoped), (Status::NameNotNetbios, Some(33)));
}

#[test]
fn names_are_compared_by_bytes() {
    let of = |text: &str| text.parse::<Name>().unwrap();
    let names = ["JOE<00>", "FRED<20>", "FRED<20>.a", "FRED<20>.A", "FRED<00>"].map(of);
    let sorted: BTreeSet<_> = names.into_iter().collect();
    let bytes: Vec<_> = sorted.iter().map(Name::as_bytes).collect();
    assert!(bytes.windows(2).all(|pair| pair[0] < pair[1]));
    assert_eq!(bytes.len(), 5);
    let set: HashSet<_> = names.into_iter().chain(names).collect();
    assert_eq!(set.len(), 5);
    assert!(set.contains(&of("FRED<20>.a")) && !set.contains(&of("FRED<20>.b")));
}

#[test]
fn spellings_show_themselves() {
    let spelling = Spelling::try_from(JOE).unwrap();
    assert_eq!(format!("{spelling}, {spelling:?}, {spelling:<9}!"), "JOE<00>, JOE<00>, JOE<00>  !");
    assert_eq!((spelling.as_ref(), Name::from(spelling).as_bytes()), (JOE, JOE));
    assert!(Spelling::try_from(FRED).unwrap() < spelling);
}

#[test]
fn bytes_of_no_name() {
    assert_eq!(refused(Spelling::try_from(&JOE[..33])), (Status::NameTruncated, Some(33)));
    assert_eq!(refused(Name::try_from(&b"\x03COM\0"[..])), (Status::NameNotNetbios, Some(0)));
    assert_eq!(refused("FRED".parse::<Name>()), (Status::BadText, Some(4)));
    assert_eq!(refused("SIXTEEN-LETTERS-<20>".parse::<Name>()), (Status::LongText, None));
}
