// Characters: the edges of every range of names, in lists and tags; sequences that are UTF-8 and that are not; characters that are none of
// Char; and the three bytes EF BB BF.

use super::{kept, refused, sound, Named};

/// The edges of the ranges that begin a name, each range's first and last.
const BEGINS: &[u32] = &[
    0x3A, 0x41, 0x5A, 0x5F, 0x61, 0x7A, 0xC0, 0xD6, 0xD8, 0xF6, 0xF8, 0x2FF, 0x370, 0x37D, 0x37F, 0x1FFF, 0x200C, 0x200D, 0x2070, 0x218F,
    0x2C00, 0x2FEF, 0x3001, 0xD7FF, 0xF900, 0xFDCF, 0xFDF0, 0xFEFF, 0xFFFD, 0x10000, 0xEFFFF,
];

/// The edges of what a name may only go on with.
const GOES_ON: &[u32] = &[0x2D, 0x2E, 0x30, 0x39, 0xB7, 0x300, 0x36F, 0x203F, 0x2040];

/// Characters just outside those ranges.
const NEITHER: &[u32] = &[
    0x2C, 0x3B, 0x40, 0x5B, 0x5E, 0x60, 0x7B, 0x7F, 0x80, 0xB6, 0xB8, 0xBF, 0xD7, 0xF7, 0x37E, 0x2000, 0x200B, 0x200E, 0x203E, 0x2041,
    0x206F, 0x2190, 0x2BFF, 0x2FF0, 0x3000, 0xE000, 0xF8FF, 0xFDD0, 0xFDEF, 0xF0000, 0x10FFFF,
];

pub fn all() -> Vec<Named> {
    let mut cases = Vec::new();
    for code in BEGINS {
        cases.extend([name(&text(*code)), name(&format!("a{}", text(*code)))]);
    }
    for code in GOES_ON {
        cases.extend(no_name(&text(*code)));
        cases.push(name(&format!("a{}", text(*code))));
    }
    for code in NEITHER {
        cases.extend(no_name(&text(*code)));
        cases.extend(no_name(&format!("a{}", text(*code))));
    }
    cases.extend(sequences());
    cases.extend(bad_sequences());
    cases.extend(controls());
    cases.extend(where_bad());
    cases.extend(front());
    cases.extend(names());
    cases
}

fn text(code: u32) -> String {
    char::from_u32(code).into_iter().collect()
}

/// A name in a list and in a tag.
fn name(name: &str) -> Named {
    kept(format!("/{name}\n"), format!("<{name}/>"), format!("<{name}></{name}>"), 1)
}

/// No name in a list, a tag or an attribute.
fn no_name(name: &str) -> Vec<Named> {
    vec![
        refused(format!("/{name}\n"), "<g/>", 2, 1),
        refused("//*\n", format!("<{name}/>"), 7, 0),
        refused("//*\n", format!("<g {name}=''/>"), 7, 0),
    ]
}

fn held(text: &[u8]) -> Vec<u8> {
    [b"<g>", text, b"</g>"].concat()
}

/// The edges of the nine rows, and noncharacters that Char admits.
fn sequences() -> Vec<Named> {
    let good: [&[u8]; 17] = [
        b"\x20", b"\x7e", b"\x7f", b"\xc2\x80", b"\xdf\xbf", b"\xe0\xa0\x80", b"\xe1\x80\x80", b"\xec\xbf\xbf", b"\xed\x9f\xbf",
        b"\xee\x80\x80", b"\xef\xbf\xbd", b"\xf0\x90\x80\x80", b"\xf3\xbf\xbf\xbf", b"\xf4\x8f\xbf\xbf", b"\xef\xb7\x90",
        b"\xf0\x9f\xbf\xbe", b"\t\n\r\n",
    ];
    good.iter().map(|text| sound(held(text))).collect()
}

/// Lone and missing continuation bytes, overlong forms, surrogates, past U+10FFFF, U+FFFE and U+FFFF.
fn bad_sequences() -> Vec<Named> {
    let bad: [&[u8]; 33] = [
        b"\x80", b"\xbf", b"\xc0\x80", b"\xc1\xbf", b"\xc2", b"\xc2\x7f", b"\xc2\xc0", b"\xdf", b"\xe0\x80\x80", b"\xe0\x9f\xbf",
        b"\xe0\xa0", b"\xe1\x80", b"\xe1\x80\x7f", b"\xe1\x80\xc0", b"\xec\x7f\x80", b"\xed\xa0\x80", b"\xed\xbf\xbf",
        b"\xed\xa0\x80\xed\xb0\x80", b"\xef\xbf\xbe", b"\xef\xbf\xbf", b"\xf0\x80\x80\x80", b"\xf0\x8f\xbf\xbf", b"\xf0\x90\x80",
        b"\xf0\x90", b"\xf1\x80\x80\x7f", b"\xf3\xc0\x80\x80", b"\xf4\x90\x80\x80", b"\xf5\x80\x80\x80",
        b"\xf7\xbf\xbf\xbf", b"\xf8\x88\x80\x80\x80", b"\xfc", b"\xfe", b"\xff",
    ];
    bad.iter().map(|text| refused("//*\n", held(text), 5, 3)).collect()
}

/// The controls that are no Char, each behind a good character.
fn controls() -> Vec<Named> {
    let codes = (0u8..0x20).filter(|code| ![9, 10, 13].contains(code));
    codes.map(|code| refused("//*\n", held(&[b'x', code]), 5, 4)).collect()
}

/// A bad sequence in every kind of item, outside the root, and cut off by the document's end.
fn where_bad() -> Vec<Named> {
    vec![
        refused("", b"<g k='\xff'/>", 5, 6),
        refused("", b"<g \xff='1'/>", 5, 3),
        refused("", b"<\xff/>", 5, 1),
        refused("", b"<g></g\xff>", 5, 6),
        refused("", b"<g><!--\xff--></g>", 5, 7),
        refused("", b"<g><?p \xff?></g>", 5, 7),
        refused("", b"<g><![CDATA[\xff]]></g>", 5, 12),
        refused("", b"<g>&#\xff;</g>", 5, 5),
        refused("", b"<?xml version='1.0' encoding='\xff'?><g/>", 5, 30),
        refused("", b"\xff<g/>", 5, 0),
        refused("", b"<g/>\xff", 5, 4),
        refused("", b"\xff\xfe<\0g\0/\0>\0", 5, 0),
        refused("", b"<\0g\0/\0>\0", 5, 1),
        refused("", b"<g/>\xc3", 5, 4),
        refused("", b"<g/>\xe2\x82", 5, 4),
        refused("", b"<g/>\xf0\x90\x80", 5, 4),
        refused("", b"\xc3", 5, 0),
        refused("", b"<g>\xc3\xa9\xa9</g>", 5, 5),
        refused("", b"<g>\xf0\x90\x80\x80\xf0\x90\x80</g>", 5, 7),
        refused("", b"<g>&#0;\0</g>", 5, 7),
        refused("", b"<g>\x0b\xff</g>", 5, 3),
    ]
}

fn front() -> Vec<Named> {
    vec![
        kept("", "\u{feff}<g/>", "<g></g>", 0),
        kept("/g #\n", "\u{feff}\n<g>t</g>\n", "<g>t</g>", 1),
        kept("/g #\n", "<g>\u{feff}</g>", "<g>\u{feff}</g>", 1),
        kept("/g #\n", "<g k='\u{feff}'/>", "<g k='\u{feff}'/>", 1),
        kept("", "<!--\u{feff}--><g/>", "<g></g>", 0),
        refused("", "\u{feff}", 7, 3),
        refused("", "\u{feff}\u{feff}<g/>", 7, 3),
        refused("", "\u{feff} \u{feff}<g/>", 7, 3),
        refused("", "\n\u{feff}<g/>", 7, 0),
        refused("", "<g/>\u{feff}", 7, 4),
        refused("", "<!---->\u{feff}<g/>", 7, 7),
        refused("", "<?xml version='1.0'?>\u{feff}<g/>", 7, 21),
        refused("", "\u{feff}<g>", 7, 6),
        refused("", "\u{feff}<g></v>", 7, 6),
        refused("", "\u{feff}<!DOCTYPE g><g/>", 6, 3),
        refused("", b"\xef\xbb\xbf\xff", 5, 3),
        refused("", b"\xef\xbb<g/>", 5, 0),
        refused("", b"\xef\xbb", 5, 0),
        refused("", b"\xef", 5, 0),
        refused("", b"\xef\xbb\xbf\xef\xbb", 5, 3),
        refused("", "\u{feff}x<g/>", 7, 3),
        refused("", "\u{feff}  ", 7, 5),
    ]
}

/// Names that look alike, and their bytes in what is written.
fn names() -> Vec<Named> {
    vec![
        kept("/\u{e9}\n", "<\u{e9}></\u{e9}>", "<\u{e9}></\u{e9}>", 1),
        kept("/\u{e9}\n", "<e\u{301}></e\u{301}>", "<e\u{301}></e\u{301}>", 0),
        kept("//e\n", "<e\u{301}><e/></e\u{301}>", "<e\u{301}><e></e></e\u{301}>", 1),
        kept("//\u{212b}\n", "<g><\u{c5}/><A\u{30a}/><\u{212b}/></g>", "<g><\u{212b}></\u{212b}></g>", 1),
        kept("//\u{10000}\n", "<g><\u{10000} k='1'/><\u{10001}/></g>", "<g><\u{10000} k='1'></\u{10000}></g>", 1),
        kept("//a\n", "<g><A/><\u{430}/><a/></g>", "<g><a></a></g>", 1),
        kept("//x:a\n", "<x:g xmlns:x='u' xmlns:y='u'><y:a/><x:a/><a/></x:g>", "<x:g><x:a></x:a></x:g>", 1),
        sound("<g \u{e9}='1' e\u{301}='2'/>"),
        refused("", "<g \u{e9}='1' \u{e9}='2'/>", 7, 0),
        refused("", "<e\u{301}></\u{e9}>", 7, 5),
        refused("", "<\u{301}e/>", 7, 0),
    ]
}
