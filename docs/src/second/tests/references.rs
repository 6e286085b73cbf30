//! Corner cases of references: the five names and what is near them, and numbers that denote a Char or none. Those in
//! attribute values are in `tags`.

use super::{fault, sound};

#[test]
fn sound_references() {
    for reference in ["&amp;", "&lt;", "&gt;", "&apos;", "&quot;", "&#9;", "&#10;", "&#13;", "&#32;", "&#xD7FF;"] {
        sound(format!("<g>{reference}</g>"));
    }
    for reference in ["&#xE000;", "&#xFFFD;", "&#x10000;", "&#x10FFFF;", "&#1114111;", "&#x00aBcD;", "&#x9;", "&#0065;"] {
        sound(format!("<g>{reference}</g>"));
    }
}

#[test]
fn broken_references() {
    for reference in ["&", "&;", "& amp;", "&amp", "&amp ;", "&AMP;", "&Lt;", "&nbsp;", "&ampx;", "&x:y;", "&1;", "&%x;"] {
        fault(format!("<g>{reference}</g>"), 7, 3);
    }
    for reference in ["&#;", "&#x;", "&#X9;", "&# 9;", "&#9", "&#9 ;", "&#-9;", "&#+9;", "&#1A;", "&#xG;", "&#x 9;", "&#\u{663};"] {
        fault(format!("<g>{reference}</g>"), 7, 3);
    }
}

#[test]
fn references_that_denote_no_char() {
    for number in ["0", "00", "1", "8", "11", "12", "14", "31", "55296", "57343", "65534", "65535", "1114112"] {
        fault(format!("<g>&#{number};</g>"), 7, 3);
    }
    for number in ["0", "1F", "D800", "DFFF", "FFFE", "FFFF", "110000", "FFFFFFFF", "100000041", "10000000000000041"] {
        fault(format!("<g>&#x{number};</g>"), 7, 3);
    }
    // 2^32 + 65 and 2^64 + 65: a sum that runs over would take them for `A`.
    fault("<g>&#4294967361;</g>", 7, 3);
    fault("<g>&#18446744073709551681;</g>", 7, 3);
    fault("<g>x&#0;</g>", 7, 4);
}
