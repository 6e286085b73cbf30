// Cases of chosen texts, names and path lists: where names and white space end, the answer on the text as a list; all answers with each
// byte replaced in turn, and cut off after each.
use crate::chars::{checked, hex, sum};
use crate::plain::{chars, paths};

/// Bytes that stand for each byte of a list in turn.
const OTHERS: &[u8] = b"/* #\na1-:.\r\x00\xC3\xA9\xCC\x80\xFF[@=\"]<&'\x1F\x7F";

/// The end of the name at a place, 0 where there is none.
fn named(s: &[u8], at: usize) -> usize {
    match chars::name(s, at) {
        end if end == at => 0,
        end => end,
    }
}

/// The end of the white space at a place.
fn spaced(s: &[u8], at: usize) -> usize {
    at + s.iter().skip(at).take_while(|&b| b" \t\r\n".contains(b)).count()
}

fn fold(h: u32, s: &[u8]) -> u32 {
    let (number, second) = paths::answer(s);
    [checked(s), named(s, 0), named(s, 1), spaced(s, 0), number as usize * 64 + second].iter().fold(h, |h, &x| sum(h, x))
}

fn show(s: &[u8]) {
    let (number, second) = paths::answer(s);
    let (mut replaced, mut cut) = (0, 0);
    for i in 0..s.len() {
        for &b in OTHERS {
            let mut other = s.to_vec();
            other[i] = b;
            replaced = fold(replaced, &other);
        }
        cut = fold(cut, &s[..i]);
    }
    let ends = format!("{} {} {} {}", named(s, 0), named(s, 1), spaced(s, 0), spaced(s, 100));
    println!("{} {ends} {number} {second} {replaced} {cut}", hex(s));
}

pub fn print() {
    println!("bytes; name ends from 0, 1; space ends from 0, 100; as a list; replaced, cut off");
    let texts: [&[u8]; 74] = [
        b"a", b"report", b"_1.2-3", b":", b"a:b:c", b"-a", b".a", b"1a", b"a b", b"a=", b"a/>", b"a\x00b", b"a@[`{",
        "été".as_bytes(), "e\u{301}te".as_bytes(), "\u{300}a".as_bytes(), "a\u{B7}b".as_bytes(), "\u{B7}".as_bytes(),
        "a\u{D7}b".as_bytes(), "a\u{F7}b".as_bytes(), "a\u{37E}b".as_bytes(), "\u{2C00}".as_bytes(), "\u{3000}a".as_bytes(),
        "\u{3001}\u{3000}".as_bytes(), "a\u{203F}b".as_bytes(), "\u{10000}\u{EFFFF}".as_bytes(), "a\u{F0000}".as_bytes(),
        b"", b"\x80", b"ab\xFFcd", b"ab\xC3", b"ab\xE2\xB0", b"ab\xF0\x90\x80b", b"a\xC1\xA1b", b"a\xE0\x81\xA1b", b"a\xED\xA0\x80b",
        b"a\xEF\xBF\xBEb", b"a\xF4\x90\x80\x80b",
        b" ", b" a", b"\t\r\n a b", b"\x0B\x0C", "\u{A0} ".as_bytes(), "\u{2003}a".as_bytes(), b" \x00 ",
        b"/a\n", b"//a\n", b"/*\n", b"/a #\n", b"//b/*//c #\n/d\n",
        b"/g/p/v\n//n #\n//v//n\n", b"/\xC3\xA9/e\xCC\x81\n", b"/:a/_b-1.2\n//*/x #\n",
        b"/self::p\n", b"/self:::p #\n", b"/descendant-or-self::*/a\n", b"/a/descendant-or-self::b:c/self::*\n", b"//self:p/self\n",
        b"/self::self::p\n", b"//self::p\n", b"/a\n/b::c\n", b"/child::p/Self::p\n", "/self::é:e\u{301}::\n".as_bytes(),
        b"/a[@k=\"x\"]\n", b"//place[@type=\"village\"] #\n", b"/*[@a::b=\"\"]\n", b"/a/self::*[@k=\" #\"] #\n/b\n",
        "/descendant-or-self::é[@e\u{301}=\"é e\u{301}\u{7F}\u{85}\"]\n".as_bytes(), b"/a\n//b[@k=\"]'[@l='>/\"]\n",
        b"/a[@k=\"x\"]/b\n", b"/a[@k=\"x\"][@l=\"y\"]\n", b"/a[@k='x']\n", b"/a[@k=\"a<b\"]\n", b"/a[@k=\"&amp;\"] #\n",
    ];
    texts.iter().for_each(|s| show(s));
}
