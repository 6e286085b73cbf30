// Document 01's twelve examples, a to l, with the name tests tried in each, and its "Errors that look right": what each error would lose or
// add.

use super::{kept, refused, Named};

const B: &str = "<g><p><v/></p></g>";
const F: &str = "<g><v k=\"1\"><n>Aar</n></v></g>";

pub fn all() -> Vec<Named> {
    let mut cases = table();
    cases.extend(errors());
    cases
}

fn table() -> Vec<Named> {
    vec![
        kept("", "<g/>", "<g></g>", 0).tried(0),
        kept("//v\n", B, "<g><p><v></v></p></g>", 1).tried(3),
        kept("/v\n", B, "<g></g>", 0).tried(1),
        kept("//a/b\n", "<a><c/><b/></a>", "<a><b></b></a>", 1).tried(3 + 2),
        kept("//a/a/b\n", "<a><a><a><b/></a></a></a>", "<a><a><a><b></b></a></a></a>", 1).tried(4 + 3 + 2),
        kept("//n #\n", F, "<g><v><n>Aar</n></v></g>", 1).tried(3),
        kept("//v\n", F, "<g><v k=\"1\"></v></g>", 1).tried(3),
        kept("//v #\n//n\n", "<g><v><n/></v></g>", "<g><v><n/></v></g>", 2).tried(3 + 3),
        refused("//v\n", "<g><v></g>", 7, 6),
        refused("//v\n", "", 7, 0),
        refused("v\n", "<g/>", 2, 1),
        refused("//v\n", B, 9, 21).room(20),
    ]
}

fn errors() -> Vec<Named> {
    vec![
        // One state per path, not gone back from at an end tag, loses what follows an inner element.
        kept("//a/b\n", "<a><c></c><b/></a>", "<a><b></b></a>", 1),
        kept("//a/b\n", "<a><c><d/></c><b/><c/><b/></a>", "<a><b></b><b></b></a>", 2),
        kept("/g/p/v\n", "<g><p><p><v/></p><v/></p><v/></g>", "<g><p><v></v></p></g>", 1),
        kept("/g/p/h\n", "<g><p><c><h/></c><h/></p><p><h/></p></g>", "<g><p><h></h></p><p><h></h></p></g>", 2),
        // A path that has selected something selects again.
        kept("//a/b\n", "<a><b/><b/></a>", "<a><b></b><b></b></a>", 2),
        // The first `a` that fits is not the one, the second is.
        kept("//a/b/c\n", "<a><a><b><c/></b></a></a>", "<a><a><b><c></c></b></a></a>", 1),
        kept("//a//b/c\n", "<a><b><b><c/></b></b></a>", "<a><b><b><c></c></b></b></a>", 1),
        kept("//a/a/b\n", "<a><a><b/></a></a>", "<a><a><b></b></a></a>", 1),
        kept("//a/a/b\n", "<a><b/></a>", "<a></a>", 0),
        // Attributes of a chain element that no path selects are not copied, the root's neither.
        kept("//n\n", "<g k='1'><v l='2'><n m='3'/></v></g>", "<g><v><n m='3'></n></v></g>", 1),
        kept("", "<g k='1'/>", "<g></g>", 0),
        // Composed and decomposed accents are two names.
        kept("//\u{e9}\n", "<g><e\u{301}/><\u{e9}/></g>", "<g><\u{e9}></\u{e9}></g>", 1),
        kept("//e\u{301}\n", "<g><e\u{301}/><\u{e9}/></g>", "<g><e\u{301}></e\u{301}></g>", 1),
        refused("", "<g><\u{e9}></e\u{301}></g>", 7, 7),
        // Nothing is written before it is sure that all fits, whatever the room.
        refused("//v\n", B, 9, 21).room(0),
        refused("//v\n", B, 9, 21).room(1),
        refused("//v\n", B, 9, 21).room(3),
        kept("//v\n", B, "<g><p><v></v></p></g>", 1).room(21),
        kept("//v\n", B, "<g><p><v></v></p></g>", 1).room(22),
        kept("//v\n", B, "<g><p><v></v></p></g>", 1).room(300),
    ]
}
