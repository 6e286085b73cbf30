// The encoding that a declaration names: document 02, Q-1, with readings. UTF-8 in any case of its letters, or none, is taken;
// any other in a declaration of the right shape at the front is 10, whatever stands behind it.

use super::{fault, kept, refused, Named};

const LATIN: &str = "<?xml version='1.0' encoding='ISO-8859-1'?>";

pub fn all() -> Vec<Named> {
    let mut cases: Vec<Named> = UTF_8.iter().map(|name| taken(name)).collect();
    cases.extend(OTHER.iter().flat_map(|name| other(name)));
    cases.extend(SHAPES.iter().flat_map(|parts| shaped(parts)));
    cases.extend(BROKEN.iter().flat_map(|parts| broken(parts)));
    cases.extend(office());
    cases.extend(elsewhere());
    cases.extend(behind());
    cases.extend(inside());
    cases.extend(order());
    cases
}

const UTF_8: &[&str] = &["UTF-8", "utf-8", "Utf-8", "uTF-8", "UtF-8", "utF-8"];

fn taken(name: &str) -> Named {
    kept("/g #\n", format!("<?xml version='1.0' encoding='{name}'?><g>\u{e9}</g>"), "<g>\u{e9}</g>", 1)
}

const OTHER: &[&str] = &[
    "ISO-8859-1", "iso-8859-1", "ISO-8859-15", "windows-1252", "US-ASCII", "ASCII", "UTF8", "utf8", "UTF-16", "UTF-16LE", "UTF-32", "UTF-7",
    "UTF", "UTF-", "U", "u", "UTF-8x", "UTF-8-", "UTF-8.", "UTF-88", "UTF-9", "UTF_8", "UTF.8", "UTF--8", "xUTF-8", "VTF-8", "UTG-8",
    "UUF-8", "CESU-8", "x", "A.b_c-1", "Z0123456789._-",
];

/// Without and with the three bytes.
fn other(name: &str) -> Vec<Named> {
    let doc = format!("<?xml version='1.0' encoding='{name}'?><g>\u{e9}</g>");
    vec![refused("//g\n", format!("\u{feff}{doc}"), 10, 3), refused("//g\n", doc, 10, 0)]
}

/// What stands between `<?xml` and `?>`, where a name is to stand for X: each is an XMLDecl.
const SHAPES: &[&str] = &[
    " version='1.0' encoding='X'",
    " version=\"1.0\" encoding=\"X\"",
    " version='1.0' encoding=\"X\"",
    " version='1.1' encoding='X'",
    " version='1.0000000000000000000000009' encoding='X'",
    " version='1.0' encoding='X' ",
    " version='1.0' encoding='X'\r\n",
    "\tversion\n=\r'1.0'\n\nencoding\t=\n\"X\"",
    " version='1.0' encoding='X' standalone='yes'",
    " version='1.0' encoding=\"X\"\nstandalone = \"no\"\t",
];

fn shaped(parts: &str) -> Vec<Named> {
    let with = |name: &str| format!("<?xml{}?><g/>", parts.replace('X', name));
    vec![kept("", with("utf-8"), "<g></g>", 0), refused("", with("latin1"), 10, 0), refused("", with("UTF-8x"), 10, 0)]
}

/// Each is no XMLDecl, though it seems to name another encoding.
const BROKEN: &[&str] = &[
    " encoding='latin1'",
    " encoding='latin1' version='1.0'",
    " version='1.' encoding='latin1'",
    " version='2.0' encoding='latin1'",
    " version='1.0'encoding='latin1'",
    " version='1.0' encoding=''",
    " version='1.0' encoding='1latin'",
    " version='1.0' encoding=' latin1'",
    " version='1.0' encoding='latin1 '",
    " version='1.0' encoding='latin:1'",
    " version='1.0' encoding='latin1\"",
    " version='1.0' encoding=latin1",
    " version='1.0' ENCODING='latin1'",
    " version='1.0' encoding='latin1'standalone='no'",
    " version='1.0' encoding='latin1' standalone='NO'",
    " version='1.0' standalone='no' encoding='latin1'",
    " version='1.0' encoding='latin1' encoding='latin1'",
    " version='1.0' encoding='latin1' a='b'",
    " version='1.0' encoding='latin1' ?",
];

/// 7, and 5 where a byte behind it is no character.
fn broken(parts: &str) -> Vec<Named> {
    let doc = format!("<?xml{parts}?><g/>");
    let bad = [doc.as_bytes(), b"\xe9"].concat();
    vec![refused("", bad, 5, doc.len()), fault(doc, 0)]
}

/// The file of the district office: its accented bytes read as UTF-8 too.
fn office() -> Vec<Named> {
    let villages = "<g><village>Cr\u{ea}t-Dor\u{e9}</village></g>";
    vec![
        refused("//village #\n", format!("<?xml version=\"1.0\" encoding=\"ISO-8859-1\"?>\n{villages}\n"), 10, 0),
        kept("//village #\n", format!("<?xml version=\"1.0\" encoding=\"UTF-8\"?>\n{villages}\n"), villages, 1),
        kept("//village #\n", format!("<?xml version=\"1.0\"?>\n{villages}\n"), villages, 1),
        kept("//village #\n", villages, villages, 1),
    ]
}

/// Such a declaration that is not the first item, or whose front is another.
fn elsewhere() -> Vec<Named> {
    vec![
        fault(format!(" {LATIN}<g/>"), 1),
        fault(format!("\n{LATIN}<g/>"), 1),
        fault(format!("<!---->{LATIN}<g/>"), 7),
        fault(format!("<?p?>{LATIN}<g/>"), 5),
        fault(format!("<g>{LATIN}</g>"), 3),
        fault(format!("<g/>{LATIN}"), 4),
        fault(format!("\u{feff}\u{feff}{LATIN}<g/>"), 3),
        fault(format!("\u{feff} {LATIN}<g/>"), 4),
        fault(format!("<?xml version='1.0'?>{LATIN}<g/>"), 21),
        fault(format!("<?xml version='1.0' encoding='UTF-8'?>{LATIN}<g/>"), 38),
        refused("", format!("{LATIN}{LATIN}<g/>"), 10, 0),
        refused("", [b"\xef\xbb", LATIN.as_bytes()].concat(), 5, 0),
        refused("", [b"\xef\xbb\xbf\xef\xbb", LATIN.as_bytes()].concat(), 5, 3),
        refused("", [b"\xfe\xff", LATIN.as_bytes()].concat(), 5, 0),
        fault("<?XML version='1.0' encoding='latin1'?><g/>", 0),
        fault("<?xmL version='1.0' encoding='latin1'?><g/>", 0),
        fault("< ?xml version='1.0' encoding='latin1'?><g/>", 0),
        kept("", "<?xml-s version='1.0' encoding='latin1'?><g/>", "<g></g>", 0),
        kept("", format!("<!--{LATIN}--><g/>"), "<g></g>", 0),
        kept("/g #\n", format!("<g><![CDATA[{LATIN}]]></g>"), format!("<g><![CDATA[{LATIN}]]></g>"), 1),
    ]
}

/// Behind the declaration stands what would be refused for itself, or nothing.
fn behind() -> Vec<Named> {
    let rests: [&[u8]; 17] = [
        b"", b"\n", b"\xe9", b"\xff\xfe", b"\0", b"<g>\xe9</g>", b"<g/>\xc3", b"\xef\xbf\xbe<g/>", b"<!DOCTYPE g><g/>", b"<g>", b"</g>",
        b"x", b"<g k='' k=''/>", b"<g>&nbsp;</g>", b"<g/><g/>", b"?>", b"<",
    ];
    let mut cases: Vec<Named> = rests.iter().map(|rest| refused("", [LATIN.as_bytes(), rest].concat(), 10, 0)).collect();
    cases.extend([
        refused("", [b"\xef\xbb\xbf", LATIN.as_bytes(), b"\xff"].concat(), 10, 3),
        refused("", format!("\u{feff}{LATIN}"), 10, 3),
        refused("", format!("{LATIN}<{}/>", "n".repeat(256)), 10, 0),
        refused("", format!("{LATIN}{}", "<a>".repeat(65)), 10, 0),
    ]);
    cases
}

/// The declaration cut off at every place, and with a byte in it that is no character, at every place.
fn inside() -> Vec<Named> {
    let mut cases = Vec::new();
    for end in 0..LATIN.len() {
        cases.push(fault(&LATIN[..end], 0));
        cases.push(refused("", [&LATIN.as_bytes()[..end], b"\xe9", &LATIN.as_bytes()[end..], b"<g/>"].concat(), 5, end));
    }
    cases.extend([
        refused("", b"<?xml version='1.0' encoding='ISO-8859-1\xe9'?><g/>", 5, 40),
        refused("", b"<?xml version='1.0' encoding='ISO\x008859-1'?><g/>", 5, 33),
        refused("", b"\xef\xbb\xbf<?xml version='1.0'\xffencoding='ISO-8859-1'?><g/>", 5, 22),
        fault("<?xml version='1.0' encoding='ISO-8859-1\u{e9}'?><g/>", 0),
        fault("<?xml version='1.0'\u{a0}encoding='ISO-8859-1'?><g/>", 0),
        fault("<?xml version='1.0' encoding='ISO-8859-1'\u{85}?><g/>", 0),
    ]);
    cases
}

/// The list comes before it, the room behind it.
fn order() -> Vec<Named> {
    vec![
        refused("x".repeat(8_193), LATIN, 1, 0),
        refused("x\n", LATIN, 2, 1),
        refused("/v".repeat(17) + "\n", LATIN, 3, 1),
        refused("/v\n".repeat(33), LATIN, 3, 33),
        refused("/g #\n", format!("{LATIN}<g/>"), 10, 0).room(0),
        refused("/g #\n", format!("{LATIN}<g/>"), 10, 0).room(3),
        refused("/g #\n", "<?xml version='1.0' encoding='UTF-8'?><g/>", 9, 4).room(3),
        kept("/g #\n", "<?xml version='1.0' encoding='UTF-8'?><g/>", "<g/>", 1).room(4),
    ]
}
