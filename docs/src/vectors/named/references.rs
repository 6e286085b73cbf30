// References in text: the five names, numbers of any length, and numbers that denote a Char or not. In values they are in tags.rs.

use super::{fault, sound, Named};

pub fn all() -> Vec<Named> {
    let mut cases = names();
    cases.extend(NUMBERS.iter().map(|number| sound(format!("<g>&#{number};</g>"))));
    cases.extend(NO_NUMBERS.iter().map(|number| fault(format!("<g>&#{number};</g>"), 3)));
    cases.extend(long());
    cases
}

fn names() -> Vec<Named> {
    vec![
        sound("<g>&amp;&lt;&gt;&apos;&quot;</g>"),
        sound("<g>x&amp;y</g>"),
        sound("<g>&amp;amp;</g>"),
        sound("<g>&amp;;&amp;#0;</g>"),
        fault("<g>&amp</g>", 3),
        fault("<g>&amp", 3),
        fault("<g>&am", 3),
        fault("<g>&", 3),
        fault("<g>&;</g>", 3),
        fault("<g>& amp;</g>", 3),
        fault("<g>&amp ;</g>", 3),
        fault("<g>&AMP;</g>", 3),
        fault("<g>&Lt;</g>", 3),
        fault("<g>&am;</g>", 3),
        fault("<g>&ampp;</g>", 3),
        fault("<g>&foo;</g>", 3),
        fault("<g>&nbsp;</g>", 3),
        fault("<g>&\u{e9};</g>", 3),
        fault("<g>%amp;&%amp;</g>", 8),
        fault("<g>a & b</g>", 5),
        fault("<g>&&amp;</g>", 3),
        fault("<g>&#</g>", 3),
        fault("<g>&#x</g>", 3),
        fault("<g>&#65</g>", 3),
        fault("<g>&#x41", 3),
        fault("<g>&lt;&gt</g>", 7),
    ]
}

/// Each denotes a Char: the edges of the ranges, and leading zeros.
const NUMBERS: &[&str] = &[
    "9", "10", "13", "32", "65", "60", "38", "x9", "xA", "xd", "x20", "x41", "x3c", "55295", "57344", "65533", "65536", "1114111",
    "xD7FF", "xd7ff", "xE000", "xFFFD", "x10000", "x10FFFF", "x10ffff", "0065", "x00041", "x7F", "128", "xFDD0", "x1FFFE", "x100041",
];

/// Each is no number, or denotes no Char. The last ones are 65 again to whoever counts in 32 or 64 bits.
const NO_NUMBERS: &[&str] = &[
    "", "x", "X41", "x4G", "6a", "A", "-65", "+65", " 65", "65 ", "x 41", "0x41", "6.5", "#65", "x#41", "0", "00", "x0", "x0000", "1",
    "8", "11", "12", "14", "31", "x1F", "xB", "55296", "57343", "65534", "65535", "xD800", "xDBFF", "xDC00", "xDFFF", "xFFFE", "xFFFF",
    "1114112", "x110000", "xFFFFFF", "99999999", "xFFFFFFFF", "x100000041", "4294967361", "xFFFFFFFFFFFFFFFF", "x10000000000000041",
    "18446744073709551681", "x100000000000000000000000000000041", "340282366920938463463374607431768211521",
];

fn long() -> Vec<Named> {
    let (zeros, nines) = ("0".repeat(300), "9".repeat(300));
    vec![
        sound(format!("<g>&#{zeros}65;</g>")),
        sound(format!("<g>&#x{zeros}10FFFF;</g>")),
        fault(format!("<g>&#{zeros};</g>"), 3),
        fault(format!("<g>&#x{zeros}110000;</g>"), 3),
        fault(format!("<g>&#{nines};</g>"), 3),
        fault(format!("<g>&#x{nines};</g>"), 3),
        fault(format!("<g>&#x1{zeros};</g>"), 3),
    ]
}
