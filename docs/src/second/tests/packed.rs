//! Packed lists, document 02, Q-7, with the readings. Packed forms are written out byte by byte.

use super::lent;
use crate::three::Three;
use crate::{pack, unpack};

type Call = fn(&[u8], &mut [u8]) -> Three;

fn writes(call: Call, input: &[u8], bytes: &[u8]) {
    for room in [bytes.len(), bytes.len() + 7] {
        let mut out = lent(room);
        assert_eq!(call(input, &mut out), Three { number: 0, second: bytes.len() as u64, third: 0 }, "{}", input.escape_ascii());
        assert_eq!(&out[..bytes.len()], bytes);
        assert_eq!(out[bytes.len()..], lent(room)[bytes.len()..]);
    }
    if !bytes.is_empty() {
        refuses_in(call, input, bytes.len() - 1, 9, bytes.len());
        refuses_in(call, input, 0, 9, bytes.len());
    }
}

fn refuses_in(call: Call, input: &[u8], room: usize, number: u64, second: usize) {
    let mut out = lent(room);
    let expected = Three { number, second: second as u64, third: 0 };
    assert_eq!(call(input, &mut out), expected, "{}", input.escape_ascii());
    assert!(out == lent(room));
}

/// The text and the packed form are each other's.
fn both_ways(text: impl AsRef<[u8]>, form: impl AsRef<[u8]>) {
    writes(pack, text.as_ref(), form.as_ref());
    writes(unpack, form.as_ref(), text.as_ref());
}

fn is_no_form(form: impl AsRef<[u8]>) {
    for room in [0, 1, 100] {
        refuses_in(unpack, form.as_ref(), room, 13, 0);
    }
}

fn text_refused(text: impl AsRef<[u8]>, number: u64, second: usize) {
    for room in [0, 1, 100] {
        refuses_in(pack, text.as_ref(), room, number, second);
    }
}

/// "reading the byte 1 into a buffer of 0 bytes is 0 0 0".
#[test]
fn the_empty_list() {
    both_ways("", [1]);
    assert_eq!(unpack(&[1], &mut []), Three { number: 0, second: 0, third: 0 });
    assert_eq!(pack(b"", &mut []), Three { number: 9, second: 1, third: 0 });
}

#[test]
fn each_part_of_a_line() {
    both_ways("//v\n", b"\x01\0\x06\0\x01\x01\x01v\0");
    both_ways("//v #\n", b"\x01\0\x06\x01\x01\x01\x01v\0");
    both_ways("/*\n", b"\x01\0\x05\0\x01\0\0\0");
    both_ways("/a//b/self::c/descendant-or-self::d\n", b"\x01\0\x0f\0\x04\0\x01a\x01\x01b\x02\x01c\x03\x01d\0");
    both_ways("/v[@k=\"1\"]\n", b"\x01\0\x09\0\x01\0\x01v\x01k\x011");
    both_ways("/*[@type=\"\"] #\n", b"\x01\0\x0a\x01\x01\0\0\x04type\0");
    both_ways("/v[@k=\" #\"] #\n", b"\x01\0\x0a\x01\x01\0\x01v\x01k\x02 #");
    both_ways("/a\n/b #\n", b"\x01\0\x06\0\x01\0\x01a\0\0\x06\x01\x01\0\x01b\0");
    both_ways("/\u{E9}\n", b"\x01\0\x07\0\x01\0\x02\xC3\xA9\0");
    both_ways("/self::g\n", b"\x01\0\x06\0\x01\x02\x01g\0");
    both_ways("/self:::p\n", b"\x01\0\x07\0\x01\x02\x02:p\0");
    both_ways("/self:p\n", b"\x01\0\x0b\0\x01\0\x06self:p\0");
    // two colons may stand in an attribute's name.
    both_ways("/v[@a::b=\"\"]\n", b"\x01\0\x0b\0\x01\0\x01v\x04a::b\0");
}

#[test]
fn limits_of_a_line() {
    let name = "n".repeat(255);
    both_ways(format!("/{name}\n"), [b"\x01\x01\x04\0\x01\0\xFF", name.as_bytes(), b"\0"].concat());
    let form = [b"\x01\x02\x05\0\x01\0\x01v\xFF", name.as_bytes(), b"\xFF", name.as_bytes()].concat();
    both_ways(format!("/v[@{name}=\"{name}\"]\n"), form);
    both_ways("/a".repeat(16) + "\n", [b"\x01\0\x33\0\x10", &b"\0\x01a".repeat(16)[..], b"\0"].concat());
    is_no_form([b"\x01\0\x36\0\x11", &b"\0\x01a".repeat(17)[..], b"\0"].concat());
    is_no_form(b"\x01\0\x03\0\0\0");
}

#[test]
fn limits_of_a_list() {
    let line = b"\0\x06\0\x01\0\x01a\0";
    both_ways("/a\n".repeat(32), [b"\x01", &line.repeat(32)[..]].concat());
    is_no_form([b"\x01", &line.repeat(33)[..]].concat());
    // 32 lines of 256 bytes are 8,192 bytes of text.
    let long = |length: usize| [&[1, length as u8 - 251, 0, 1, 0, length as u8][..], "n".repeat(length).as_bytes(), b"\0"].concat();
    let text = format!("/{}\n", "n".repeat(254)).repeat(32);
    both_ways(&text, [b"\x01", &long(254).repeat(32)[..]].concat());
    is_no_form([b"\x01", &long(254).repeat(31)[..], &long(255)].concat());
    text_refused(text + "\n", 1, 0);
}

/// What is no packed form by its numbers, each beside `//v`.
#[test]
fn bad_numbers() {
    is_no_form("");
    is_no_form([0]);
    is_no_form([2]);
    is_no_form(b"\x02\0\x06\0\x01\x01\x01v\0");
    is_no_form(b"\x01\0\x06\x02\x01\x01\x01v\0");
    is_no_form(b"\x01\0\x06\xFF\x01\x01\x01v\0");
    is_no_form(b"\x01\0\x06\0\x01\x04\x01v\0");
    is_no_form(b"\x01\0\x05\0\x01\x01\x01v\0");
    is_no_form(b"\x01\0\x07\0\x01\x01\x01v\0");
    is_no_form(b"\x01\x01\x06\0\x01\x01\x01v\0");
    is_no_form(b"\x01\0\x07\0\x01\x01\x01v\0\0");
    is_no_form(b"\x01\0\x06\0\x01\x01\x01v\0\0");
    is_no_form(b"\x01\0\x06\0\x02\x01\x01v\0");
    is_no_form(b"\x01\0\x06\0\x01\x01\x02v\0");
    is_no_form(b"\x01\0\x07\0\x01\x01\x01v\x01k");
    is_no_form(b"\x01\0\x08\0\x01\x01\x01v\x01k\x01");
}

#[test]
fn cut_off_at_every_place() {
    let form = b"\x01\0\x09\x01\x01\x02\x01v\x01k\x011";
    both_ways("/self::v[@k=\"1\"] #\n", form);
    assert_eq!(form.len(), 12);
    for end in 2..form.len() {
        is_no_form(&form[..end]);
    }
}

/// Names and values that no text has, though their lengths are right.
#[test]
fn bad_texts() {
    for name in ["-", "1", "/", "a/", "a b", "a\n", "*", "#", "[", "\u{D7}", "::", "a::b", "self::a"] {
        let length = name.len() as u8;
        is_no_form([&[1, 0, 5 + length, 0, 1, 0, length], name.as_bytes(), b"\0"].concat());
    }
    is_no_form(b"\x01\0\x06\0\x01\0\x01\xFF\0");
    is_no_form(b"\x01\0\x06\0\x01\0\x01\xC3\0");
    for value in ["\"", "<", "&", "\t", "\n", "\u{FFFF}"] {
        let length = value.len() as u8;
        is_no_form([&[1, 0, 8 + length, 0, 1, 0, 1, b'v', 1, b'k', length], value.as_bytes()].concat());
    }
    is_no_form(b"\x01\0\x09\0\x01\0\x01v\x011\x011");
    is_no_form(b"\x01\0\x09\0\x01\0\x01v\x01*\x011");
}

#[test]
fn texts_keep_1_to_3() {
    text_refused("x".repeat(8_193), 1, 0);
    text_refused("v\n", 2, 1);
    text_refused("/v\n/v", 2, 2);
    text_refused("/a".repeat(17) + "\n", 3, 1);
    text_refused("/v\n".repeat(33), 3, 33);
}
