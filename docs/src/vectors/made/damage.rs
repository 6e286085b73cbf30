// Damage to a list or a document: bytes cut, inserted, swapped, repeated or replaced, mostly by bytes that tell something, and fragments
// put in that begin or end an item, or that no item may hold.

use super::random::Random;

const TELLING: &[u8] = b"<>&/!-[]@?'\"= \t\n\r\0#;*:x0\x7f\x80\xbf\xc0\xe0\xed\xef\xf4\xff";

#[rustfmt::skip]
const IN_DOCUMENTS: &[&[u8]] = &[
    b"<!--", b"-->", b"--", b"--->", b"]]>", b"<![CDATA[", b"<!DOCTYPE", b"<!doctype", b"<?xml ", b"<?xml version='1.0'?>", b"<?XML?>",
    b"<?p?>", b"?>", b"&#0;", b"&#x10FFFF;", b"&#x110000;", b"&#xD800;", b"&#65;", b"&#x100000041;", b"&#0000000000065;", b"&amp;", b"&lt",
    b"&nbsp;", b"&#X41;", b" xmlns:a='1'", b" k='1'", b" k='1' k='2'", b" k=1", b" k", b"<a>", b"</a>", b"<a/>", b"</ a>", b"<a / >",
    b"</>", b"<>", b"/>", b"\xef\xbb\xbf", b"\xef\xbf\xbe", b"\xed\xa0\x80", b"\xc0\x80", b"\xe0\x80\x80", b"\xf0\x90\x80",
    b"\xf4\x90\x80\x80", b"\xc3\xa9", b"e\xcc\x81", b"\xf0\x90\x80\x80", b"\xc2\x85", b"\xe2\x80\xa8", b"\x0b", b"Aar", b"\n",
    b"\r", b"\r\n", b"\t", b"&#9;", b"&#10;", b"&#13;", b"&#32;", b"&#x31;", b" k='a\r\nb'", b" k=\"a&#10;b\"", b" l='&#49;'", b" k = ''",
];

/// Sound and unsound declarations, and what may stand outside the root or not.
#[rustfmt::skip]
const OUTSIDE: &[&str] = &[
    "<?xml version='1.0'?>", " <?xml version='1.0'?>", "<?xml version='2.0'?>", "<?xml version='1.'?>", "<?xml ?>", "<?xml?>", "<?XML a?>",
    "<?xml version='1.0' encoding='a:b'?>", "<?xml version='1.0' encoding='1'?>", "<?xml version='1.0'encoding='a'?>",
    "\u{feff}<?xml version='1.0' encoding='UTF-8x'?>", "<?xml version='1.0' encoding='uTF-8'?>",
    "<?xml version='1.0' standalone='YES'?>", "<?xml version='1.0' standalone='yes' encoding='a'?>", "<?xml encoding='a'?>",
    "<?xml version=\"1.0' ?>", "<?xml version='1.0' a='b'?>", "\u{feff}", "\u{feff}\u{feff}", "\u{feff} ", " \u{feff}", "\u{a0}",
    "\u{85}", " \t\r\n", "x", "]]>", "&amp;", "&#32;", "<![CDATA[]]>", "<![CDATA[ ]]>", "<a/>", "<a></a>", "<a>", "</a>", "<a", "<!---->",
    "<?p?>", "<?xml-s?>",
];

const DOCTYPES: &[&str] = &["<!DOCTYPE", "<!DOCTYPE g>", "<!DOCTYPE a []>", "<!DOCTYPEa>", "<!doctype g>"];

#[rustfmt::skip]
const IN_LISTS: &[&[u8]] = &[
    b"/", b"//", b"///", b"/a", b"//a", b"/*", b"*", b"/*a", b" #", b"#", b" ", b"  #", b" # ", b"\n", b"\n\n", b"\r\n", b"\t", b"/-a",
    b"/a\n", b"/1", b"\xc3\xa9", b"e\xcc\x81", b"\xcc\x81", b"\xc3", b"\xef\xbb\xbf", b"\xff", b"\xf0\x90\x80\x80", b"/\xc3\x97", b"\0",
    b"/a[1]", b"/@k", b"/..", b"/x:y", b"|", b";", b"::", b":", b"self::", b"/self::", b"/self::a", b"/self::*", b"/self:::a", b"/self:a",
    b"//self::a", b"/Self::a", b"/child::a", b"/a::b", b"descendant-or-self::", b"/descendant-or-self::", b"/descendant-or-self::a",
    b"[@k=\"1\"]", b"[@k=\"\"]", b"[@a::b=\"1\"]", b"[@k=\"1\"] #", b"[@k='1']", b"[@k]", b"[@*=\"1\"]", b"[k=\"1\"]",
    b"[@k=\"1\"][@l=\"1\"]", b"[@k = \"1\"]", b"[@k=\"1\"]/a", b"[@k=\"&gt;\"]", b"[@k=\"<\"]", b"[@k=\"1", b"[@", b"=\"", b"\"]",
    b"\"] #", b"[", b"]", b"]]", b"\"",
];

pub fn document(doc: &[u8], from: usize, random: &mut Random) -> Vec<u8> {
    damaged(doc, from, IN_DOCUMENTS, random)
}

/// Something put in front of the document or behind it.
pub fn outside(doc: &[u8], random: &mut Random) -> Vec<u8> {
    let more = random.pick(OUTSIDE).as_bytes();
    if random.one_in(2) {
        [more, doc].concat()
    } else {
        [doc, more].concat()
    }
}

/// A document type put in before some byte that begins an item, or seems to.
pub fn doctype(doc: &[u8], random: &mut Random) -> Vec<u8> {
    let mut at = random.below(doc.len());
    at += doc[at..].iter().take_while(|b| **b != b'<').count();
    [&doc[..at], random.pick(DOCTYPES).as_bytes(), &doc[at..]].concat()
}

pub fn list(list: &[u8], from: usize, random: &mut Random) -> Vec<u8> {
    damaged(list, from, IN_LISTS, random)
}

/// Damaged once, seldom twice. The bytes before `from` stay: they would cost much in a pack. Half of it falls where an item or a line
/// begins, where more of it is still sound, or is another fault than a broken item.
fn damaged(bytes: &[u8], from: usize, fragments: &[&[u8]], random: &mut Random) -> Vec<u8> {
    let mut bytes = bytes.to_vec();
    for _ in 0..random.pick(&[1, 1, 1, 1, 1, 2]) {
        let mut at = random.between(from.min(bytes.len()), bytes.len());
        if random.one_in(2) {
            at += bytes[at..].iter().take_while(|b| !b"<&/[".contains(b)).count();
        }
        hurt(&mut bytes, at, fragments, random);
    }
    bytes
}

fn hurt(bytes: &mut Vec<u8>, at: usize, fragments: &[&[u8]], random: &mut Random) {
    let run = at..bytes.len().min(at + random.pick(&[1, 1, 2, 3, 8]));
    let telling = random.pick(TELLING);
    match random.below(12) {
        0 => drop(bytes.drain(run)),
        1 => bytes.insert(at, telling),
        2 | 3 if at < bytes.len() => bytes[at] = telling,
        4 if at + 1 < bytes.len() => bytes.swap(at, at + 1),
        5 if at < bytes.len() => {
            let other = random.between(at, bytes.len() - 1);
            bytes.swap(at, other);
        }
        6 => {
            let again = bytes[run].to_vec();
            drop(bytes.splice(at..at, again));
        }
        7 if at > 0 => bytes[at - 1] ^= 1 << random.below(8),
        _ => drop(bytes.splice(at..at, random.pick(fragments).iter().copied())),
    }
}
