// Four clients by hand, with the readings. A client is told as its list, its room, its numbers, name tests among them, and
// what is written for it; clients of one document are asked together in many orders.

use super::{Client, Clients, Told};
use crate::asked::Four;

/// A client: list, room, numbers, bytes.
type Row<'a> = (&'a str, usize, Four, &'a str);

const B: &str = "<g><p><v/></p></g>";

/// On B, each in just the room or more.
const SERVED: &[Row] = &[
    ("", 7, [0, 7, 0, 0], "<g></g>"),
    ("", 12, [0, 7, 0, 0], "<g></g>"),
    ("//v\n", 21, [0, 21, 1, 3], "<g><p><v></v></p></g>"),
    ("//v #\n", 40, [0, 18, 1, 3], "<g><p><v/></p></g>"),
    ("/v\n", 8, [0, 7, 0, 1], "<g></g>"),
    ("//p\n", 14, [0, 14, 1, 3], "<g><p></p></g>"),
    ("/g #\n", 18, [0, 18, 1, 1], "<g><p><v/></p></g>"),
    ("//p/v\n//v\n", 25, [0, 21, 1, 7], "<g><p><v></v></p></g>"),
    ("//*\n", 21, [0, 21, 3, 3], "<g><p><v></v></p></g>"),
];

/// On B, refused: for the room, or for the list.
const REFUSED: &[Row] = &[
    ("", 6, [9, 7, 0, 0], ""),
    ("", 0, [9, 7, 0, 0], ""),
    ("//v\n", 20, [9, 21, 0, 0], ""),
    ("//v #\n", 0, [9, 18, 0, 0], ""),
    ("v\n", 30, [2, 1, 0, 0], ""),
    ("/v\n/v", 0, [2, 2, 0, 0], ""),
    ("/v/v/v/v/v/v/v/v/v/v/v/v/v/v/v/v/v\n", 30, [3, 1, 0, 0], ""),
];

pub fn all() -> Vec<Told> {
    let rows: Vec<Row> = SERVED.iter().chain(REFUSED).copied().collect();
    let at = |i: usize| rows[i % rows.len()];
    let mut cases = Vec::new();
    for i in 0..rows.len() {
        cases.push(told(B.as_bytes(), [at(i); 4]));
        // One among others, in each seat; each pair of rows meets.
        for j in 0..rows.len() {
            cases.push(told(B.as_bytes(), [at(i), at(j), at(i + j), at(3)]));
            cases.push(told(B.as_bytes(), [at(j + 5), at(2), at(j), at(i)]));
        }
    }
    cases.extend(faults());
    cases.extend(own());
    cases
}

fn told(doc: &[u8], rows: [Row; 4]) -> Told {
    let clients = rows.map(|(list, room, ..)| Client { list: list.as_bytes().to_vec(), room });
    Told { case: Clients { doc: doc.to_vec(), clients }, got: rows.map(|(_, _, numbers, bytes)| (numbers, bytes.as_bytes().to_vec())) }
}

/// "A fault in the document reaches each client whose list is sound, a fault in a list its owner only."
fn faults() -> Vec<Told> {
    let deep = "<a>".repeat(65);
    let docs: [(&[u8], u64, u64); 8] = [
        (b"<?xml version='1.0' encoding='latin1'?><g/>", 10, 0), (b"<g>\xff</g>", 5, 3), (b"<!DOCTYPE g><g/>", 6, 0), (b"<g><v></g>", 7, 6),
        (b"", 7, 0), (b"<g>", 7, 3), (b"<g/>x", 7, 4), (deep.as_bytes(), 8, 192),
    ];
    let (long, lines) = ("x".repeat(8_193), "/v\n".repeat(33));
    let bad: [Row; 4] =
        [(&long, 9, [1, 0, 0, 0], ""), ("v\n", 9, [2, 1, 0, 0], ""), (&lines, 9, [3, 33, 0, 0], ""), ("/v\n/v", 0, [2, 2, 0, 0], "")];
    let mut cases = Vec::new();
    for (doc, number, place) in docs {
        let reached = |list: &'static str, room: usize| (list, room, [number, place, 0, 0], "");
        cases.push(told(doc, [reached("", 9), reached("//v\n", 0), reached("//* #\n", 300), reached("/g\n", 1)]));
        cases.push(told(doc, bad));
        for bad in bad {
            cases.push(told(doc, [bad, reached("", 9), reached("//v\n", 0), reached("//v\n", 40)]));
            cases.push(told(doc, [reached("", 9), reached("//v\n", 0), bad, reached("//v\n", 40)]));
            cases.push(told(doc, [reached("//v #\n", 9), bad, bad, bad]));
        }
    }
    cases.push(told(B.as_bytes(), bad));
    cases
}

/// Clients that would be served wrongly by what another's list selects, keeps or tests.
fn own() -> Vec<Told> {
    let doc = "<g><v k='1'><n>a</n></v><v k='2'><n/></v></g>";
    let rows: [Row; 4] = [
        // Inside an entry that another keeps, and beside it.
        ("//v[@k=\"1\"] #\n", 60, [0, 28, 1, 5], "<g><v k='1'><n>a</n></v></g>"),
        ("//n\n", 60, [0, 35, 2, 5], "<g><v><n></n></v><v><n></n></v></g>"),
        ("/g/v/n #\n", 60, [0, 33, 2, 5], "<g><v><n>a</n></v><v><n/></v></g>"),
        ("//v[@k=\"2\"]\n", 60, [0, 20, 1, 5], "<g><v k='2'></v></g>"),
    ];
    let turns = [[0, 1, 2, 3], [3, 2, 1, 0], [1, 0, 3, 2], [2, 3, 0, 1], [0, 0, 1, 1], [3, 3, 3, 2]];
    turns.iter().map(|turn| told(doc.as_bytes(), turn.map(|i: usize| rows[i]))).collect()
}
