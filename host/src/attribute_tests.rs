//! Lines of a list whose test has a fault, and what is said of each; the place is asked of `advice`, which calls this module.
use super::*;
use crate::advice::{malformed, too_large};

fn says(line: &str, at: usize, hint: &str) {
    assert_eq!(malformed(line.as_bytes(), true), advice(at, hint), "{}", shown::all(line.as_bytes()));
}

/// The same, where what a test is follows.
fn shows(line: &str, at: usize, why: &str) {
    says(line, at, &format!("{why}; {TEST}"));
}

#[test]
fn places() {
    says("/g[@k=\"x\"]/v", 2, LAST);
    says("/a/b[@k=\"x\"]//c #", 4, LAST);
    says("//*[@k=\"x\"]/self::*[@k=\"x\"]", 3, LAST);
    says("/g[@k=\"x\"][@l=\"y\"]", 10, ONE);
    says("/g[@k=\"x\"]v", 10, AFTER);
    says("/g[@k=\"x\"]#", 10, AFTER);
    says("/g[@k=\"x\"]  #", 10, AFTER);
    says("/g[@k=\"x\"] # ", 12, "# ends the line, and a list has no comments");
    says("/[@k=\"x\"]", 1, "before a test stands * or a name");
    says("/a/self::[@k=\"x\"]", 9, "before a test stands * or a name");
    says("[@k=\"x\"]", 0, "a line begins with / or //");
}

#[test]
fn blanks() {
    shows("/g [@k=\"x\"]", 2, BLANKS);
    shows("/g[ @k=\"x\"]", 3, BLANKS);
    shows("/g[@ k=\"x\"]", 4, BLANKS);
    shows("/g[@k =\"x\"]", 5, BLANKS);
    shows("/g[@k= \"x\"]", 6, BLANKS);
    shows("/g[@k=\"x\" ]", 9, BLANKS);
    shows("/g[@k\t=\"x\"]", 5, BLANKS);
}

#[test]
fn shapes() {
    shows("/g[k=\"x\"]", 3, "a test asks for an attribute and begins with [@");
    shows("/g[1]", 3, "a test asks for an attribute and begins with [@");
    shows("/g[", 3, "a test asks for an attribute and begins with [@");
    shows("/g[@*=\"x\"]", 4, "a test names its attribute, by no *");
    shows("/g[@", 4, "behind [@ stands a name");
    shows("/g[@=\"x\"]", 4, "behind [@ stands a name");
    says("/g[@1=\"x\"]", 4, "a name can't begin with 1");
    shows("/g[@k]", 5, "a test asks for a value");
    shows("/g[@k", 5, "behind the name stands =");
    shows("/g[@k!=\"x\"]", 5, "behind the name stands =");
    shows("/g[@k='x']", 6, QUOTES);
    shows("/g[@k=x]", 6, QUOTES);
    shows("/g[@k=", 6, QUOTES);
    shows("/g[@k=\"x]", 9, "a value ends in a double quote");
    shows("/g[@k=\"x #", 10, "a value ends in a double quote");
    shows("/g[@k=\"x\"", 9, "a test ends in ]");
    shows("/g[@k=\"a\"b\"]", 9, "behind the value stands ], and no quote in it");
    shows("/g[@k=\"x\" and @l=\"y\"]", 9, ONE);
}

#[test]
fn characters_of_a_value() {
    says("/g[@k=\"a<b\"]", 8, "a value in a list has no <, and no reference for it");
    says("/g[@k=\"&amp;\"]", 7, "a value in a list has no &, and no reference for it");
    says("/g[@k=\"\u{E9}\tb\"]", 9, "U+0009 can't stand in a value");
    says("/g[@k=\"\u{FFFF}\"]", 7, "U+FFFF can't stand in a value");
    assert_eq!(malformed(b"/g[@k=\"a\xC3\"]", true), advice(8, "not UTF-8: C3"));
    assert_eq!(malformed(b"/g[@k\xFF=\"\"]", true), advice(5, &format!("behind the name stands =; {TEST}")));
    assert_eq!(malformed(b"/g[@\xFF=\"\"]", true), advice(4, "not UTF-8: FF"));
}

#[test]
fn sound_tests() {
    // Sound as far as the carriage return, or the missing line feed.
    says("/g[@a::b=\" #]'\u{E9}\"] #\r", 20, "a line ends in a line feed alone, without a carriage return");
    says("//*[@k=\"\"]\r", 10, "a line ends in a line feed alone, without a carriage return");
    assert_eq!(malformed(b"/g[@k=\"x\"]", false), advice(10, "a line ends in a line feed"));
}

#[test]
fn sizes() {
    let large = |line: String| too_large(line.as_bytes(), 1);
    let (most, long) = ("a".repeat(255), "a".repeat(256));
    assert_eq!(large(format!("/g[@{long}=\"x\"]")), advice(4, "a name over 255 bytes"));
    assert_eq!(large(format!("/g[@k=\"{long}\"] #")), advice(7, "a value over 255 bytes"));
    assert_eq!(large(format!("/g[@{most}=\"{}\"]", "\u{E9}".repeat(128))), advice(261, "a value over 255 bytes"));
    assert_eq!(large(format!("/{long}[@{long}=\"x\"]")), advice(1, "a name over 255 bytes"));
    assert_eq!(large(format!("{}[@k=\"{long}\"]", "/a".repeat(17))), advice(32, "over 16 steps"));
    assert_eq!(large(format!("/g[@{most}=\"{most}\"]")), advice(0, "a line has at most 16 steps, a name or a value at most 255 bytes"));
}
