//! Lines of a list with a fault, and what is said of each.
use super::*;

/// The place and the hint for a line that a line feed follows.
fn said(line: &[u8]) -> (usize, String) {
    let Advice { at, hint } = malformed(line, true);
    (at, hint)
}

fn says(line: &[u8], at: usize, hint: &str) {
    assert_eq!(said(line), (at, hint.to_string()), "{}", shown::all(line));
}

#[test]
fn what_ends_a_line() {
    says(b"//v # lakes", 5, BEHIND);
    says(b"/a # ", 4, BEHIND);
    says(b"/a #\r", 4, "a line ends in a line feed alone, without a carriage return");
    says(b"/a\r/b\r/c", 2, RETURNS);
    says(b"/a[@k=\"x\"] #\r/b", 12, RETURNS);
    assert_eq!(malformed(b"/a\r", false), advice(2, RETURNS));
    says(b"\xFF\xFE/\0a\0", 0, UTF16);
    says(b"/\0a\0", 0, UTF16);
    says(b"\0/\0a\0", 0, UTF16);
}

#[test]
fn beginnings() {
    says(b"", 0, "an empty line");
    says(b"\r", 0, "an empty line");
    says(b"v", 0, "a line begins with / or //");
    says(b" /v", 0, "no blanks stand before a path");
    says(b"# lakes", 0, "a list has no comments; one space and # mark a line, at its end");
    says(b"\xEF\xBB\xBF/v", 0, "a list has no byte order mark");
}

#[test]
fn steps() {
    says(b"/a b", 2, STEP);
    says(b"/", 1, STEP);
    says(b"/a//", 4, STEP);
    says(b"/a/ ", 3, STEP);
    says(b"/a///b", 4, "at most two slashes stand before a name");
    says(b"/*b", 2, STEP);
    says(b"/a/-b", 3, "a name can't begin with -");
    says("/a/\u{301}b".as_bytes(), 3, "a name can't begin with \u{301}");
    says(b"/a/@id", 3, ELEMENTS);
    says(b"/a@id", 2, ELEMENTS);
    says(b"/text()", 5, ELEMENTS);
    says(b"/a\xC3(", 2, "not UTF-8: C3");
    says(b"/\xE2\x82", 1, "not UTF-8: E2 82");
}

#[test]
fn axes() {
    says(b"//self::p", 1, ONLY);
    says(b"/a//descendant-or-self::p", 3, ONLY);
    says(b"/self::", 7, TEST);
    says(b"/a/self:: #", 9, TEST);
    says(b"/self::/p", 7, TEST);
    says(b"/descendant-or-self::", 21, TEST);
    says(b"/self::-p", 7, "a name can't begin with -");
    says(b"/self::@k", 7, ELEMENTS);
    says(b"/self::node()", 11, ELEMENTS);
    says(b"/self::*p", 8, STEP);
    says(b"///self::p", 2, "at most two slashes stand before a name");
    // Sound as far as the blank.
    says(b"/self:::p/self:q/descendant-or-self::* b", 38, STEP);
}

#[test]
fn names_with_two_colons() {
    let says = |line: &[u8], at: usize, why: &str| says(line, at, &format!("{why}; {ONLY}"));
    let name = "a name in a list has no ::";
    says(b"/a::b", 2, name);
    says(b"//a/bc:::d", 6, name);
    says(b"/::", 1, name);
    says(b"/p::", 2, name);
    says(b"/Self::p", 5, name);
    says(b"/self::::p", 7, name);
    says(b"/self::a::b", 8, name);
    says(b"/self::self::p", 11, name);
    says("/\u{E9}::b".as_bytes(), 3, name);
    says(b"/a/child::p", 3, "child:: is written / here");
    says(b"/child::*", 1, "child:: is written / here");
    says(b"/a//descendant::p", 4, "descendant:: is written // here");
}

#[test]
fn marks_and_ends() {
    says(b"/a#", 2, MARK);
    says(b"/a  #", 2, MARK);
    says(b"/a\t#", 2, MARK);
    says(b"/a ", 2, MARK);
    says(b"/a\r", 2, "a line ends in a line feed alone, without a carriage return");
    says(b"/a #\r", 4, "a line ends in a line feed alone, without a carriage return");
    assert_eq!(malformed(b"/a #", false), advice(4, "a line ends in a line feed"));
    // The library would not refuse this one: the rule alone is said.
    says(b"/a", 0, STEP);
}

#[test]
fn blanks_that_are_none() {
    let says = |line: &str, at: usize, name: &str, hint: &str| says(line.as_bytes(), at, &format!("{name} stands there; {hint}"));
    says("//a\u{A0}#", 3, "U+00A0 (no-break space)", MARK);
    says("//a \u{A0}#", 4, "U+00A0 (no-break space)", MARK);
    says("//a\u{202F}#", 3, "U+202F (narrow no-break space)", MARK);
    says("//a\u{3000}", 3, "U+3000 (another space)", MARK);
    says("//a\u{AD}b", 3, "U+00AD (soft hyphen)", STEP);
    says("/\u{A0}a", 1, "U+00A0 (no-break space)", STEP);
    says("\u{A0}/a", 0, "U+00A0 (no-break space)", "a line begins with / or //");
    says("/a[@k=\"x\"]\u{A0}#", 10, "U+00A0 (no-break space)", "behind a test the line ends, or one space and # mark it");
}

#[test]
fn large_lines() {
    assert_eq!(too_large(b"", 33), advice(0, "line 33: a list has at most 32 lines"));
    assert_eq!(too_large("/*".repeat(17).as_bytes(), 2), advice(32, "over 16 steps"));
    assert_eq!(too_large(format!("/g//{}", "a".repeat(256)).as_bytes(), 1), advice(4, "a name over 255 bytes"));
    assert_eq!(too_large(format!("/{}é", "a".repeat(254)).as_bytes(), 1), advice(1, "a name over 255 bytes"));
    assert_eq!(too_large(format!("/g/self::{}", "a".repeat(256)).as_bytes(), 1), advice(9, "a name over 255 bytes"));
    let long = format!("/self::{}/descendant-or-self::{}", "a".repeat(255), "b".repeat(256));
    assert_eq!(too_large(long.as_bytes(), 1), advice(283, "a name over 255 bytes"));
    assert_eq!(too_large("/self::*".repeat(17).as_bytes(), 1), advice(128, "over 16 steps"));
    assert_eq!(too_large(b"/a", 1), advice(0, "a line has at most 16 steps, a name or a value at most 255 bytes"));
}

/// Lines of bits and pieces: each that is refused has its place in the line, between two characters.
#[test]
fn any_refused_line_has_a_place() {
    let bits =
        ["/", "//", "a", "日", "\u{301}", "*", "[@", "k", "=\"", "x", "\"]", " #", " ", "#", "\r", "::", "self::", "\0", "\u{A0}", "1"];
    let (mut seed, mut refused) = (3u64, 0);
    for _ in 0..20_000 {
        let mut line = "/".to_string();
        for _ in 0..6 {
            seed = seed.wrapping_mul(6_364_136_223_846_793_005).wrapping_add(1_442_695_040_888_963_407);
            line += bits[(seed >> 33) as usize % bits.len()];
        }
        if choughbell::covers_of(format!("{line}\n").as_bytes(), b"").is_err() {
            let Advice { at, hint } = malformed(line.as_bytes(), true);
            assert!(line.is_char_boundary(at) && !hint.is_empty(), "{line:?}");
            refused += 1;
        }
    }
    assert!(refused > 10_000, "{refused}");
}
