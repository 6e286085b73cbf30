// How we read document 01 where it can be read two ways: the seventeen readings of docs/DECISIONS.md, by number.

use super::{kept, refused, Named};

pub fn all() -> Vec<Named> {
    let mut cases = list();
    cases.extend(document());
    cases.extend(items());
    cases.extend(written());
    cases
}

fn list() -> Vec<Named> {
    let (lines, name) = ("/v\n".repeat(32), "n".repeat(300));
    vec![
        // 1: a last line without LF.
        refused("/v", "<g/>", 2, 1),
        refused("//g\n/v #", "<g/>", 2, 2),
        refused(format!("{lines}/v"), "<g/>", 3, 33),
        // 2: bytes in a name that are not UTF-8 or not of production [5].
        refused([b"/", name.as_bytes(), b"\xff\n"].concat(), "<g/>", 2, 1),
        refused(format!("/{name}\u{d7}\n"), "<g/>", 2, 1),
        refused(b"/g\n/a\x80\n", "<g/>", 2, 2),
        // 3: malformed beats too large within a line; line 33 is 3 however it reads.
        refused(format!("{} \n", "/v".repeat(17)), "<g/>", 2, 1),
        refused(format!("/{name}//\n"), "<g/>", 2, 1),
        refused(format!("/-/{name}\n"), "<g/>", 2, 1),
        refused(format!("{lines}\n"), "<g/>", 3, 33),
        refused([lines.as_bytes(), b"\xff"].concat(), "<g/>", 3, 33),
        // 4: the same path twice, or once marked and once not.
        kept("//v\n//v\n/g/v\n", "<g><v k='1'>t</v></g>", "<g><v k='1'></v></g>", 1),
        kept("//v\n//v #\n", "<g><v k='1'>t</v></g>", "<g><v k='1'>t</v></g>", 1),
        kept("//v #\n//v\n", "<g><v k='1'>t</v></g>", "<g><v k='1'>t</v></g>", 1),
    ]
}

fn document() -> Vec<Named> {
    vec![
        // 5: answer 5 wherever it stands, at the first byte of the first bad sequence.
        refused("", b"<g></v>\x80\xff", 5, 7),
        refused("", b"<!DOCTYPE g>\xc3", 5, 12),
        refused("", b"\xed\xa0\x80<g/>", 5, 0),
        refused("", b"<g>\xe2\x82</g>", 5, 3),
        refused("", "<g>\u{fffe}</g>", 5, 3),
        refused("", "<g>\u{ffff}</g>", 5, 3),
        refused("", "<g>\u{b}</g>", 5, 3),
        // 6: EF BB BF only at offset 0.
        kept("", "\u{feff}<g/>", "<g></g>", 0),
        kept("/g #\n", "<g>\u{feff}</g>", "<g>\u{feff}</g>", 1),
        refused("", "\u{feff}\u{feff}<g/>", 7, 3),
        refused("", "<g/>\u{feff}", 7, 4),
        refused("", "\u{feff}", 7, 3),
        // 7: a declaration only as the first item.
        kept("", "\u{feff}<?xml version='1.0'?><g/>", "<g></g>", 0),
        refused("", " <?xml version='1.0'?><g/>", 7, 1),
        refused("", "<!----><?xml version='1.0'?><g/>", 7, 7),
        refused("", "<g><?xml version='1.0'?></g>", 7, 3),
        refused("", "<?xml?><g/>", 7, 0),
        // 8: `<!DOCTYPE` is nine bytes, and no item inside another.
        refused("", "<!doctype g><g/>", 7, 0),
        refused("", "<!ELEMENT g ANY><g/>", 7, 0),
        refused("", "<!DOCTYPE", 6, 0),
        kept("", "<!--<!DOCTYPE g>--><?p <!DOCTYPE g>?><g><![CDATA[<!DOCTYPE g>]]></g>", "<g></g>", 0),
    ]
}

fn items() -> Vec<Named> {
    let (long, deep) = ("n".repeat(256), "<a>".repeat(64));
    let many: String = (0..32).map(|i| format!(" k{i}=''")).collect();
    vec![
        // 9: sound, but not in its place.
        refused("", "<![CDATA[]]><g/>", 7, 0),
        refused("", "<g/>&amp;", 7, 4),
        refused("", "<g/> x", 7, 4),
        refused("", "<g/>\n<g/>", 7, 5),
        refused("", "</g>", 7, 0),
        // 10: depth counts the level that the tag would open.
        refused("", format!("{deep}<a/>"), 8, 192),
        refused("", format!("{deep}<a>"), 8, 192),
        // 11: sizes before the match and before repeated attributes; instruction targets have no size.
        refused("", format!("<g></{long}>"), 8, 3),
        kept("", format!("<?{long}?><g/>"), "<g></g>", 0),
        refused("", format!("<g{many} k0=''/>"), 8, 0),
        // 12: any number of digits; a small x.
        kept("/g #\n", "<g>&#000000000000000000000000065;</g>", "<g>&#000000000000000000000000065;</g>", 1),
        refused("/g #\n", "<g>&#X41;</g>", 7, 3),
        // 13: text runs to the next `<`, `&` or the end.
        kept("/g #\n", "<g>]]&gt;</g>", "<g>]]&gt;</g>", 1),
        kept("/g #\n", "<g>]]<![CDATA[]]>></g>", "<g>]]<![CDATA[]]>></g>", 1),
    ]
}

fn written() -> Vec<Named> {
    vec![
        // 14: blanks in a plainly selected empty tag.
        kept("//v\n", "<g><v k=\"1\" /></g>", "<g><v k=\"1\" ></v></g>", 1),
        kept("//v #\n", "<g><v k=\"1\" /></g>", "<g><v k=\"1\" /></g>", 1),
        // 15: white space inside end tags.
        kept("//v\n", "<g><v></v ></g\n>", "<g><v></v></g>", 1),
        kept("//v #\n", "<g><v></v ></g\n>", "<g><v></v ></g>", 1),
        // 16: exact room is enough, none never is.
        kept("", "<g/>", "<g></g>", 0).room(7),
        refused("", "<g/>", 9, 7).room(6),
        refused("", "<g/>", 9, 7).room(0),
        // 17, as far as it is the library's: an empty list, and one over 8,192 bytes.
        kept("", "<g>t</g>", "<g></g>", 0),
        refused("v".repeat(8_193), "", 1, 0),
    ]
}
