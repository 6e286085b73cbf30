// Packed lists by hand, with the readings R-23 to R-25. A sound list is told as a text and its packed form, byte by byte, and asked both
// ways. What is the packed form of no sound text is told as bytes: each number and each length one off, cut off at every place, names and
// values that no text has, and texts over a size.

use crate::calls::Told;

/// The writer: the sound lists, and the refusals of a text.
pub fn texts() -> Vec<Told> {
    let sound = lists().into_iter().map(|(text, form)| Told::kept("", text, form, 0, 0));
    sound.chain(bad_texts()).flat_map(Told::in_rooms).collect()
}

/// The reader: the sound lists, and what is no packed form.
pub fn forms() -> Vec<Told> {
    let sound = lists().into_iter().map(|(text, form)| Told::kept("", form, text, 0, 0));
    let bad = [numbers(), lengths(), names(), values(), sizes(), bytes()].concat();
    sound.chain(bad.into_iter().map(|form| Told::refused("", form, 13, 0))).flat_map(Told::in_rooms).collect()
}

/// Sound texts with their packed forms.
fn lists() -> Vec<(Vec<u8>, Vec<u8>)> {
    let pair = |text: &str, form: &[u8]| (text.as_bytes().to_vec(), form.to_vec());
    let (name, accents) = ("n".repeat(255), format!("n{}", "\u{e9}".repeat(127)));
    vec![
        pair("", b"\x01"),
        pair("/v\n", b"\x01\0\x06\0\x01\0\x01v\0"),
        pair("//v\n", b"\x01\0\x06\0\x01\x01\x01v\0"),
        pair("/self::v\n", b"\x01\0\x06\0\x01\x02\x01v\0"),
        pair("/descendant-or-self::v\n", b"\x01\0\x06\0\x01\x03\x01v\0"),
        pair("/*\n", b"\x01\0\x05\0\x01\0\0\0"),
        pair("//* #\n", b"\x01\0\x05\x01\x01\x01\0\0"),
        pair("/self::*\n", b"\x01\0\x05\0\x01\x02\0\0"),
        pair("/v #\n", b"\x01\0\x06\x01\x01\0\x01v\0"),
        pair("/a/b\n", b"\x01\0\x09\0\x02\0\x01a\0\x01b\0"),
        pair("/a//b/self::c/descendant-or-self::d #\n", b"\x01\0\x0f\x01\x04\0\x01a\x01\x01b\x02\x01c\x03\x01d\0"),
        pair("/a/*//*\n", b"\x01\0\x0a\0\x03\0\x01a\0\0\x01\0\0"),
        // Lines, the same line again, and the same but for the mark.
        pair("/a\n/b\n", b"\x01\0\x06\0\x01\0\x01a\0\0\x06\0\x01\0\x01b\0"),
        pair("/a\n/a\n", b"\x01\0\x06\0\x01\0\x01a\0\0\x06\0\x01\0\x01a\0"),
        pair("/a #\n/a\n", b"\x01\0\x06\x01\x01\0\x01a\0\0\x06\0\x01\0\x01a\0"),
        // Tests of an attribute; with one the value's length stands, even if it is 0.
        pair("/v[@k=\"1\"]\n", b"\x01\0\x09\0\x01\0\x01v\x01k\x011"),
        pair("/v[@k=\"\"]\n", b"\x01\0\x08\0\x01\0\x01v\x01k\0"),
        pair("/v[@k=\"\"] #\n", b"\x01\0\x08\x01\x01\0\x01v\x01k\0"),
        pair("//*[@type=\"village\"] #\n", b"\x01\0\x11\x01\x01\x01\0\x04type\x07village"),
        pair("/a/self::*[@k=\"x\"] #\n", b"\x01\0\x0b\x01\x02\0\x01a\x02\0\x01k\x01x"),
        pair("/v[@k=\" #\"]\n", b"\x01\0\x0a\0\x01\0\x01v\x01k\x02 #"),
        pair("/v[@k=\"]\"]\n", b"\x01\0\x09\0\x01\0\x01v\x01k\x01]"),
        pair("/v[@k=\"'>/*\"]\n", b"\x01\0\x0c\0\x01\0\x01v\x01k\x04'>/*"),
        pair("/v[@k=\"\u{7f}\u{85}\"]\n", b"\x01\0\x0b\0\x01\0\x01v\x01k\x03\x7f\xc2\x85"),
        pair("/v[@a::b=\"1\"]\n", b"\x01\0\x0c\0\x01\0\x01v\x04a::b\x011"),
        // Names: colons, accents composed and not, four bytes, names that look like an axis.
        pair("/\u{e9}\n", b"\x01\0\x07\0\x01\0\x02\xc3\xa9\0"),
        pair("/e\u{301}\n", b"\x01\0\x08\0\x01\0\x03e\xcc\x81\0"),
        pair("/\u{10000}\n", b"\x01\0\x09\0\x01\0\x04\xf0\x90\x80\x80\0"),
        pair("/self\n", b"\x01\0\x09\0\x01\0\x04self\0"),
        pair("/self:\n", b"\x01\0\x0a\0\x01\0\x05self:\0"),
        pair("/self:p\n", b"\x01\0\x0b\0\x01\0\x06self:p\0"),
        pair("/self:::p\n", b"\x01\0\x07\0\x01\x02\x02:p\0"),
        pair("/self:::\n", b"\x01\0\x06\0\x01\x02\x01:\0"),
        pair("/descendant-or-self:::a:\n", b"\x01\0\x08\0\x01\x03\x03:a:\0"),
        pair("//self:p\n", b"\x01\0\x0b\0\x01\x01\x06self:p\0"),
        pair("/:\n", b"\x01\0\x06\0\x01\0\x01:\0"),
        // Names, values, steps, lines and bytes at their limits.
        (format!("/{name}\n").into_bytes(), [b"\x01\x01\x04\0\x01\0\xff", name.as_bytes(), b"\0"].concat()),
        (format!("/self::{accents}\n").into_bytes(), [b"\x01\x01\x04\0\x01\x02\xff", accents.as_bytes(), b"\0"].concat()),
        (format!("/v[@{name}=\"1\"]\n").into_bytes(), [b"\x01\x01\x07\0\x01\0\x01v\xff", name.as_bytes(), b"\x011"].concat()),
        (format!("/v[@k=\"{name}\"]\n").into_bytes(), [b"\x01\x01\x07\0\x01\0\x01v\x01k\xff", name.as_bytes()].concat()),
        (format!("{}\n", "/a".repeat(16)).into_bytes(), [b"\x01\0\x33\0\x10", &b"\0\x01a".repeat(16)[..], b"\0"].concat()),
        ("/a\n".repeat(32).into_bytes(), [b"\x01", &b"\0\x06\0\x01\0\x01a\0".repeat(32)[..]].concat()),
        (format!("/{}\n", &name[..254]).repeat(32).into_bytes(), [&b"\x01"[..], &long(254).repeat(32)].concat()),
        // The longest line: 16 names of 255 bytes and a test, 2 + 4,112 + 512 = 4,626 bytes or 0x1212.
        (
            format!("{}[@{name}=\"{name}\"]\n", format!("/{name}").repeat(16)).into_bytes(),
            [b"\x01\x12\x12\0\x10", &[b"\0\xff", name.as_bytes()].concat().repeat(16)[..], &[b"\xff", name.as_bytes()].concat().repeat(2)]
                .concat(),
        ),
    ]
}

/// The line of one child step with a name of so many bytes, 251 or more.
fn long(length: usize) -> Vec<u8> {
    [&[1, (length - 251) as u8, 0, 1, 0, length as u8][..], "n".repeat(length).as_bytes(), b"\0"].concat()
}

/// "text keeps 1 to 3"
fn bad_texts() -> Vec<Told> {
    let refused = |text: &str, number: u64, second: usize| Told::refused("", text, number, second);
    let long = "n".repeat(256);
    vec![
        refused(&"x".repeat(8_193), 1, 0),
        refused(&(format!("/{}\n", "n".repeat(254)).repeat(32) + "\n"), 1, 0),
        refused("v\n", 2, 1),
        refused("\n", 2, 1),
        refused("/v", 2, 1),
        refused("/v\n/v", 2, 2),
        refused("/a::b\n", 2, 1),
        refused("/v[@k]\n", 2, 1),
        refused("\u{1}", 2, 1),
        refused(&("/a".repeat(17) + "\n"), 3, 1),
        refused(&format!("/v\n/{long}\n"), 3, 2),
        refused(&format!("/v[@k=\"{long}\"]\n"), 3, 1),
        refused(&"/v\n".repeat(33), 3, 33),
    ]
}

fn all_of(forms: &[&[u8]]) -> Vec<Vec<u8>> {
    forms.iter().map(|form| form.to_vec()).collect()
}

/// Versions, marks, numbers of steps and kinds that mean nothing.
fn numbers() -> Vec<Vec<u8>> {
    all_of(&[
        b"",
        b"\0",
        b"\x02",
        b"\xff",
        b"\0\0\x06\0\x01\0\x01v\0",
        b"\x02\0\x06\0\x01\0\x01v\0",
        b"/v\n",
        b"\x01\0\x06\x02\x01\0\x01v\0",
        b"\x01\0\x06\x80\x01\0\x01v\0",
        b"\x01\0\x06\xff\x01\0\x01v\0",
        b"\x01\0\x06#\x01\0\x01v\0",
        b"\x01\0\x06\0\x01\x04\x01v\0",
        b"\x01\0\x06\0\x01\xff\x01v\0",
        b"\x01\0\x09\0\x02\0\x01v\x04\x01v\0",
        b"\x01\0\x03\0\0\0",
        b"\x01\0\x03\x01\0\0",
        b"\x01\0\x02\0\0",
        b"\x01\0\x06\0\0\0\x01v\0",
        b"\x01\0\x06\0\0\x01k\x011",
    ])
}

/// Lengths one off, and bytes left over in a line or behind it.
fn lengths() -> Vec<Vec<u8>> {
    let mut forms = all_of(&[
        b"\x01\0\x05\0\x01\0\x01v\0",
        b"\x01\0\x07\0\x01\0\x01v\0",
        b"\x01\x01\x06\0\x01\0\x01v\0",
        b"\x01\x06\0\0\x01\0\x01v\0",
        b"\x01\0\0\0\x01\0\x01v\0",
        b"\x01\0\x08\0\x01\0\x01v\0",
        b"\x01\0\x00",
        b"\x01\0\0\0\0",
        b"\x01\0\x07\0\x01\0\x01v\0\0",
        b"\x01\0\x06\0\x01\0\x01v\0\0",
        b"\x01\0\x06\0\x01\0\x01v\0\0\0",
        b"\x01\0\x06\0\x01\0\x01v\0\n",
        b"\x01\0\x06\0\x02\0\x01v\0",
        b"\x01\0\x06\0\x01\0\0v\0",
        b"\x01\0\x06\0\x01\0\x02v\0",
        b"\x01\0\x09\0\x02\0\x01a\0\x02b\0",
        // A test without its value, with part of it, with more behind it.
        b"\x01\0\x07\0\x01\0\x01v\x01k",
        b"\x01\0\x08\0\x01\0\x01v\x01k\x01",
        b"\x01\0\x09\0\x01\0\x01v\x01k\x021",
        b"\x01\0\x0a\0\x01\0\x01v\x01k\x0112",
        b"\x01\0\x07\0\x01\0\x01v\0\0",
        b"\x01\0\x08\0\x01\0\x01v\0\x011",
        // The first line takes a byte of the second.
        b"\x01\0\x07\0\x01\0\x01a\0\0\x06\0\x01\0\x01b\0",
        b"\x01\0\x0e\0\x01\0\x01a\0\0\x06\0\x01\0\x01b\0",
        // A length of one byte, or with the low byte first.
        b"\x01\x06\0\x01\0\x01v\0",
        b"\x01\0\x05\x01\0\x01v\0",
    ]);
    let whole = b"\x01\0\x0c\x01\x02\0\x01a\x02\x01v\x01k\x011";
    forms.extend((2..whole.len()).map(|end| whole[..end].to_vec()));
    let two = b"\x01\0\x06\0\x01\0\x01a\0\0\x06\0\x01\0\x01b\0";
    forms.extend((2..two.len()).filter(|&end| end != 9).map(|end| two[..end].to_vec()));
    forms
}

/// A child step with this name.
fn named(name: &[u8]) -> Vec<u8> {
    let length = name.len() as u8;
    [&[1, 0, 5 + length, 0, 1, 0, length], name, b"\0"].concat()
}

/// Names that no step has, two colons among them, in steps of each kind; and names of no attribute.
fn names() -> Vec<Vec<u8>> {
    let bad: [&[u8]; 27] = [
        b"-", b"1", b".", b"/", b"a/b", b"a//", b"a b", b" a", b"a #", b"a\n", b"\n", b"\0", b"*", b"a*", b"#", b"a[@k=\"1\"]", b"[", b"a]",
        b"\xcc\x81", b"\xff", b"\xc3", b"\xa9", b"a\xc3", b"\xed\xa0\x80", b"\xc1\xa1", b"\xc3\x97", b"\xef\xbf\xbf",
    ];
    let mut forms: Vec<Vec<u8>> = bad.iter().map(|name| named(name)).collect();
    // Kind 0 with the name `self::p` and kind 2 with `p` would have one text.
    for name in ["::", "a::", "::a", "a::b", "self::p", "self:::p", "descendant-or-self::p", "child::p", ":::"] {
        for kind in 0..4 {
            let mut form = named(name.as_bytes());
            form[5] = kind;
            forms.push(form);
        }
    }
    for name in bad {
        let length = name.len() as u8;
        forms.push([&[1, 0, 8 + length, 0, 1, 0, 1, b'v', length], name, b"\x011"].concat());
    }
    forms
}

/// Values that no test has.
fn values() -> Vec<Vec<u8>> {
    let bad: [&[u8]; 17] = [
        b"\"", b"<", b"&", b"a&amp;", b"\t", b"\n", b"\r", b"\0", b"\x1f", b"\xff", b"\xc3", b"\x80", b"\xef\xbf\xbe", b"\xef\xbf\xbf",
        b"\xed\xa0\x80", b"\xf4\x90\x80\x80", b"\"] #",
    ];
    let form = |value: &&[u8]| [&[1, 0, 8 + value.len() as u8, 0, 1, 0, 1, b'v', 1, b'k', value.len() as u8], *value].concat();
    bad.iter().map(form).collect()
}

/// 17 steps, 33 lines, and texts of one byte over 8,192.
fn sizes() -> Vec<Vec<u8>> {
    let line = b"\0\x06\0\x01\0\x01a\0";
    vec![
        [b"\x01\0\x36\0\x11", &b"\0\x01a".repeat(17)[..], b"\0"].concat(),
        [b"\x01\x03\0\0\xff", &b"\0\x01a".repeat(255)[..], b"\0"].concat(),
        [b"\x01", &line.repeat(33)[..]].concat(),
        [b"\x01", &line.repeat(300)[..]].concat(),
        [&b"\x01"[..], &long(254).repeat(31), &long(255)].concat(),
        [&b"\x01"[..], &long(255).repeat(32)].concat(),
        // The mark's two bytes are what is over.
        [&b"\x01"[..], &long(254).repeat(31), b"\x01\x03\x01\x01\0\xfe", "n".repeat(254).as_bytes(), b"\0"].concat(),
        // Few bytes packed, long as a text.
        [b"\x01", &[b"\0\x23\0\x10", &b"\x03\0".repeat(16)[..], b"\0"].concat().repeat(32)[..]].concat(),
    ]
}

/// `//v` with one byte after another replaced; no such form is that of a sound text.
fn bytes() -> Vec<Vec<u8>> {
    let form = b"\x01\0\x06\0\x01\x01\x01v\0";
    let replaced = |at: usize, byte: u8| form.iter().enumerate().map(|(i, b)| if i == at { byte } else { *b }).collect();
    let others =
        [(0, 3), (1, 1), (1, 6), (2, 0), (2, 5), (2, 7), (3, 3), (4, 0), (4, 2), (5, 4), (6, 0), (6, 2), (6, 6), (7, b'/'), (8, 1)];
    others.iter().map(|&(at, byte)| replaced(at, byte)).collect()
}
