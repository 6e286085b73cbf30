//! The path list: sound lines and malformed lines, where steps, marks, blanks, LFs and bytes go wrong. Its sizes are in
//! `list_sizes`.

use super::{kept, refused};

pub const DOC: &str = "<g/>";

pub fn accepted(list: impl AsRef<[u8]>) {
    kept(list, DOC, "<g></g>", 0);
}

pub fn malformed(list: impl AsRef<[u8]>) {
    refused(list, DOC, 2, 1);
}

#[test]
fn sound_lines() {
    for list in ["", "/v\n", "//v\n", "/v #\n", "/a//b/*//c:d #\n", "/:\n", "/_\n", "//a.b-c\u{B7}1\n"] {
        accepted(list);
    }
    for list in ["/\u{E9}\n", "/e\u{301}\n", "//\u{10000}\n", "/v\n/v\n/v #\n", "//*/v/*\n"] {
        accepted(list);
    }
    kept("/*\n", DOC, "<g></g>", 1);
    kept("//* #\n", DOC, "<g/>", 1);
}

#[test]
fn malformed_steps() {
    for list in ["v\n", "\n", "/\n", "//\n", "///v\n", "/v/\n", "/v//\n", "/v///w\n", "*\n", "/ v\n", "//-v\n"] {
        malformed(list);
    }
    for list in ["/**\n", "/*v\n", "/v*\n", "/1\n", "/.\n", "/..\n", "/@k\n", "/v[1]\n", "/text()\n", "/v|/w\n"] {
        malformed(list);
    }
    for list in ["/\u{D7}\n", "/\u{37E}\n", "/\u{B7}\n", "/\u{301}\n", "\u{FEFF}/v\n", "/v\0\n", "/v=\n"] {
        malformed(list);
    }
}

#[test]
fn malformed_marks_and_blanks() {
    for list in ["#\n", " #\n", "/v#\n", "/v  #\n", "/v # \n", "/v #\r\n", "/v\r\n", "/v\t#\n", " /v\n", "/v \n"] {
        malformed(list);
    }
    for list in ["/v ##\n", "/v # #\n", "/v #/w\n", "/v /w\n"] {
        malformed(list);
    }
    refused("/v\n\n", DOC, 2, 2);
}

#[test]
fn a_line_without_its_lf() {
    for list in ["/v", "/v #", "/", "x", " "] {
        malformed(list);
    }
    refused("/v\n/w", DOC, 2, 2);
}

#[test]
fn bytes_that_are_not_utf8() {
    for list in [b"/\xFF\n".as_ref(), b"/a\xC3\n", b"/\x80\n", b"/a\xED\xA0\x80\n", b"/v\xC0\xAF\n", b"\xFF\n"] {
        malformed(list);
    }
}
