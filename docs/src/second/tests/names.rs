//! Names: both ends of every range of name start and name, and their neighbours that are in neither, in tags, in
//! attributes and in the list.

use super::{fault, sound};

fn at(code: u32) -> char {
    char::from_u32(code).unwrap()
}

const NAME_STARTS: [u32; 30] = [
    0x3A, 0x41, 0x5A, 0x5F, 0x61, 0x7A, 0xC0, 0xD6, 0xD8, 0xF6, 0xF8, 0x2FF, 0x370, 0x37D, 0x37F, 0x1FFF, 0x200C, 0x200D, 0x2070, 0x218F,
    0x2C00, 0x2FEF, 0x3001, 0xD7FF, 0xF900, 0xFDCF, 0xFDF0, 0xFFFD, 0x10000, 0xEFFFF,
];
const NAME_ONLY: [u32; 9] = [0x2D, 0x2E, 0x30, 0x39, 0xB7, 0x300, 0x36F, 0x203F, 0x2040];
const NEITHER: [u32; 27] = [
    0x21, 0x2C, 0x3B, 0x40, 0x5B, 0x5E, 0x60, 0x7B, 0xB6, 0xB8, 0xBF, 0xD7, 0xF7, 0x37E, 0x2000, 0x200B, 0x200E, 0x203E, 0x2041, 0x206F,
    0x2190, 0x2BFF, 0x2FF0, 0x3000, 0xF8FF, 0xFDD0, 0xF0000,
];

#[test]
fn name_starts() {
    for code in NAME_STARTS {
        sound(format!("<{}/>", at(code)));
    }
    for code in NAME_ONLY.iter().chain(&NEITHER).chain(&[0xE000, 0xFDEF, 0x10FFFF]) {
        fault(format!("<{}/>", at(*code)), 7, 0);
    }
}

#[test]
fn name_characters() {
    for code in NAME_STARTS.iter().chain(&NAME_ONLY) {
        sound(format!("<g><a{0} a{0}=''></a{0}></g>", at(*code)));
    }
    for code in NEITHER {
        fault(format!("<a{}/>", at(code)), 7, 0);
        fault(format!("<g a{}=''/>", at(code)), 7, 0);
        fault(format!("<g></g{}>", at(code)), 7, 3);
        super::refused(format!("/a{}\n", at(code)), "<g/>", 2, 1);
    }
}

#[test]
fn list_names_end_before_the_noncharacters() {
    // In a document these two are answer 5; in a list they are bytes of no name.
    for list in ["/\u{FFFE}\n", "/\u{FFFF}\n", "/a\u{FFFE}\n", "/a\u{FFFF}\n"] {
        super::refused(list, "<g/>", 2, 1);
    }
    super::kept("/a\u{FFFD}\n", "<g/>", "<g></g>", 0);
}
