//! Document 01's examples a to l as one table, and its errors that look right, each as a test. In the table every byte
//! of the output is compared, after 0 and after every other number.

use super::{kept, kept_in, refused_in};
use crate::Numbers;

/// A row of the table: the list with its LFs, the document, the room, the numbers, and the cut under 0. The fourth number, of
/// which document 01 says nothing, is that of Q-13: `//v` is tried at each of three elements; in e `//a` at four, `/a` at the
/// three with an `a` above, `/b` at the two below the second and the third `a`.
type Row = (&'static str, &'static str, usize, [u64; 4], &'static str);

const B: &str = "<g><p><v/></p></g>";
const F: &str = "<g><v k=\"1\"><n>Aar</n></v></g>";
const ROWS: [Row; 12] = [
    ("", "<g/>", 40, [0, 7, 0, 0], "<g></g>"),
    ("//v\n", B, 40, [0, 21, 1, 3], "<g><p><v></v></p></g>"),
    ("/v\n", B, 40, [0, 7, 0, 1], "<g></g>"),
    ("//a/b\n", "<a><c/><b/></a>", 40, [0, 14, 1, 5], "<a><b></b></a>"),
    ("//a/a/b\n", "<a><a><a><b/></a></a></a>", 40, [0, 28, 1, 9], "<a><a><a><b></b></a></a></a>"),
    ("//n #\n", F, 40, [0, 24, 1, 3], "<g><v><n>Aar</n></v></g>"),
    ("//v\n", F, 40, [0, 20, 1, 3], "<g><v k=\"1\"></v></g>"),
    ("//v #\n//n\n", "<g><v><n/></v></g>", 40, [0, 18, 2, 6], "<g><v><n/></v></g>"),
    ("//v\n", "<g><v></g>", 40, [7, 6, 0, 0], ""),
    ("//v\n", "", 40, [7, 0, 0, 0], ""),
    ("v\n", "<g/>", 40, [2, 1, 0, 0], ""),
    ("//v\n", B, 20, [9, 21, 0, 0], ""),
];

#[test]
fn the_twelve_examples() {
    for (list, doc, room, [number, second, third, fourth], bytes) in ROWS {
        let mut out = super::lent(room);
        let mut expected = super::lent(room);
        expected[..bytes.len()].copy_from_slice(bytes.as_bytes());
        let answer = crate::cut(list.as_bytes(), doc.as_bytes(), &mut out);
        assert_eq!(answer, Numbers { number, second, third, fourth });
        assert!(out == expected, "{list:?} {doc}");
    }
}

#[test]
fn going_back_at_an_end_tag() {
    kept("//a/b\n", "<a><c/><b/></a>", "<a><b></b></a>", 1);
    kept("//a/b\n", "<a><c></c><b/></a>", "<a><b></b></a>", 1);
    kept(
        "//commune/hamlet\n",
        "<commune><commune><hamlet/></commune><hamlet/></commune>",
        "<commune><commune><hamlet></hamlet></commune><hamlet></hamlet></commune>",
        2,
    );
}

#[test]
fn taking_another_place_than_the_first_that_fits() {
    kept("//a/a/b\n", "<a><a><a><b/></a></a></a>", "<a><a><a><b></b></a></a></a>", 1);
    // `a` fits at place 1 first, but its child at place 2 is `c`; the fitting `a` is at place 3.
    kept("//a/b\n", "<a><c><a><b/></a></c></a>", "<a><c><a><b></b></a></c></a>", 1);
}

#[test]
fn no_attributes_on_a_chain_element() {
    kept("//n #\n", F, "<g><v><n>Aar</n></v></g>", 1);
    kept("//n\n", "<g x='1'><v k=\"1\"><n/></v></g>", "<g><v><n></n></v></g>", 1);
    kept("", "<g x='1'/>", "<g></g>", 0);
}

#[test]
fn composed_and_decomposed_accents_are_two_names() {
    let doc = b"<g><\xC3\xA9/><e\xCC\x81/></g>";
    kept(b"//\xC3\xA9\n", doc, b"<g><\xC3\xA9></\xC3\xA9></g>", 1);
    kept(b"//e\xCC\x81\n", doc, b"<g><e\xCC\x81></e\xCC\x81></g>", 1);
    // They are two names for end tags and attributes too.
    super::fault(b"<\xC3\xA9></e\xCC\x81>", 7, 4);
    super::sound(b"<g \xC3\xA9='' e\xCC\x81=''/>");
}

#[test]
fn a_refused_call_writes_nothing() {
    for room in 0..21 {
        refused_in(b"//v\n", B.as_bytes(), room, 9, 21);
    }
    kept_in(b"//v\n", B.as_bytes(), 21, b"<g><p><v></v></p></g>", 1);
}
