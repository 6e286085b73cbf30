//! Four clients in one reading, document 02, Q-14, with the readings. A client is told as its list, its room, its
//! four numbers and what is written for it.

use super::lent;
use crate::{four, Numbers};

type Client<'a> = (&'a str, usize, [u64; 4], &'a str);

const DOC: &str = "<g><p><v/></p></g>";

fn asked(doc: &[u8], clients: [Client; 4]) {
    let mut outs = clients.map(|(_, room, ..)| lent(room));
    let [a, b, c, d] = &mut outs;
    let found = four(clients.map(|(list, ..)| list.as_bytes()), doc, [a, b, c, d]);
    for ((_, room, [number, second, third, fourth], bytes), (found, out)) in clients.into_iter().zip(found.into_iter().zip(outs)) {
        let mut after = lent(room);
        after[..bytes.len()].copy_from_slice(bytes.as_bytes());
        assert_eq!(found, Numbers { number, second, third, fourth });
        assert!(out == after);
    }
}

const UNUSED: Client = ("", 9, [0, 7, 0, 0], "<g></g>");
const VILLAGE: Client = ("//v\n", 30, [0, 21, 1, 3], "<g><p><v></v></p></g>");
const MARKED: Client = ("//p #\n", 18, [0, 18, 1, 3], "<g><p><v/></p></g>");
const SHORT: Client = ("//v\n", 20, [9, 21, 0, 0], "");
const MALFORMED: Client = ("/v\nv\n", 30, [2, 2, 0, 0], "");

#[test]
fn each_by_its_own_list() {
    asked(DOC.as_bytes(), [UNUSED, VILLAGE, MARKED, ("/v\n", 7, [0, 7, 0, 1], "<g></g>")]);
    asked(DOC.as_bytes(), [MARKED, MARKED, UNUSED, VILLAGE]);
    asked(DOC.as_bytes(), [UNUSED; 4]);
    asked(DOC.as_bytes(), [VILLAGE; 4]);
}

/// "with an empty list it gets the root's tags, or 9 if its buffer is shorter".
#[test]
fn unused_seats() {
    asked(DOC.as_bytes(), [VILLAGE, ("", 7, [0, 7, 0, 0], "<g></g>"), ("", 6, [9, 7, 0, 0], ""), ("", 0, [9, 7, 0, 0], "")]);
}

/// "a fault in a list its owner only"; a seat without room gets 9, and the others are written.
#[test]
fn what_reaches_its_owner_only() {
    for seat in 0..4 {
        for one in [SHORT, MALFORMED] {
            let mut clients = [VILLAGE, MARKED, UNUSED, VILLAGE];
            clients[seat] = one;
            asked(DOC.as_bytes(), clients);
        }
    }
    let long = "x".repeat(8_193);
    let lines = "/v\n".repeat(33);
    asked(DOC.as_bytes(), [(&long, 9, [1, 0, 0, 0], ""), MALFORMED, (&lines, 9, [3, 33, 0, 0], ""), VILLAGE]);
    asked(DOC.as_bytes(), [MALFORMED; 4]);
}

/// "A fault in the document reaches each client whose list is sound".
#[test]
fn a_fault_in_the_document() {
    let too_long = vec![b' '; 16_777_217];
    let latin = b"<?xml version='1.0' encoding='latin1'?><g/>";
    let docs: [(&[u8], u64, u64); 6] =
        [(&too_long, 4, 0), (latin, 10, 0), (b"<g>\xFF</g>", 5, 3), (b"<!DOCTYPE g>", 6, 0), (b"<g><v></g>", 7, 6), (b"", 7, 0)];
    for (doc, number, second) in docs {
        let reached = |list| (list, 30, [number, second, 0, 0], "");
        asked(doc, [reached(""), MALFORMED, reached("//v\n"), ("//v\n", 0, [number, second, 0, 0], "")]);
    }
}
