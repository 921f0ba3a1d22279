//! Responses of port 137 that are written of values. tests/library/answers.rs writes those of rows so.

use crate::refused;
use nbt::service::{Answer, Entry, NodeName, Response, ResultCode, NS, NULL};
use nbt::Status;

/// A response about `FRED<20>`.
fn response(word: u16, time_to_live: u32, answer: Answer<'_>) -> Response<'_> {
    Response { identifier: 3, word, name: "FRED<20>", time_to_live, answer }
}

fn node(text: &str) -> NodeName {
    NodeName { name: text.parse().unwrap(), flags: 0x9e00 }
}

#[test]
fn usual_responses() {
    let (who, names) = ([Entry { nb_flags: 0x6000, address: 5.into() }], [node("JOE<00>")]);
    for (found, wanted) in [
        (Response::positive(3, "FRED<20>", &who, 200), response(0x8500, 200, Answer::Addresses(&who))),
        (Response::negative(3, "FRED<20>", ResultCode::NameError), response(0x8503, 0, Answer::Other(NULL, b""))),
        (
            Response::node_status(3, "FRED<20>", &names, *b"unit.."),
            response(0x8400, 0, Answer::NodeStatus(&names, Some(*b"unit.."))),
        ),
    ] {
        assert_eq!(found, wanted);
        assert!(found.write().is_ok());
    }
}

#[test]
fn a_node_has_so_many_names() {
    let most = [node("OFFICE<1e>"); 256];
    let of = |names| response(0x8400, 0, Answer::NodeStatus(names, None));
    assert_eq!(of(&most[1..]).write().unwrap().len(), 56 + 1 + 18 * 255, "as many as there may be");
    assert_eq!(refused(of(&most).write()), (Status::LongData, None));
    assert_eq!(refused(of(&[most[0], node("JOE<00>.COM")]).write()), (Status::NameNotNetbios, Some(33)));
}

#[test]
fn faults_leave_an_empty_buffer() {
    let entries = vec![Entry { nb_flags: 0, address: 0.into() }; 10_923];
    let names = [node("OFFICE<1e>"); 256];
    let of = |name, answer| Response { name, ..response(0, 0, answer) };
    for (response, status, at) in [
        (of("SIXTEEN-LETTERS-<20>", Answer::Addresses(&entries)), Status::LongText, None),
        (of("FRED<20>", Answer::Addresses(&entries)), Status::LongData, None),
        (of("FRED<20>", Answer::NodeStatus(&names, None)), Status::LongData, None),
        (of("FRED<20>", Answer::Other(NS, b"\x02n")), Status::NameTruncated, Some(2)),
    ] {
        let mut buffer = b"what it held".to_vec();
        assert_eq!(refused(response.write_into(&mut buffer)), (status, at));
        assert_eq!(buffer, b"");
    }
    let most = of("FRED<20>", Answer::Addresses(&entries[1..]));
    assert_eq!(most.write().unwrap().len(), 56 + 6 * 10_922);
}
