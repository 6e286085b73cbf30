// The path list: what a line is, how it is at fault, and which line is named. Sizes are in limits.rs, characters of names in characters.rs,
// the axes of document 02 in axes.rs.

use super::{kept, refused, sound_list as sound, Named};

pub fn all() -> Vec<Named> {
    let mut cases = sound_lists();
    cases.extend(steps());
    cases.extend(blanks());
    cases.extend(lines());
    cases.extend(bytes());
    cases
}

/// This line is malformed.
fn bad(list: impl AsRef<[u8]>, line: usize) -> Named {
    refused(list, "<g/>", 2, line)
}

fn sound_lists() -> Vec<Named> {
    vec![
        sound(""),
        sound("/v\n"),
        sound("//v\n"),
        sound("/v #\n"),
        sound("//v #\n"),
        sound("/a/b//c #\n"),
        sound("//a/*//*/b\n"),
        sound("/*/v\n//*/*\n"),
        kept("/*\n", "<g/>", "<g></g>", 1),
        kept("//*\n", "<g/>", "<g></g>", 1),
        kept("/* #\n", "<g/>", "<g/>", 1),
        kept("/g\n", "<g k='1'/>", "<g k='1'></g>", 1),
        kept("//g\n", "<g/>", "<g></g>", 1),
        kept("//g #\n", "<g/>", "<g/>", 1),
        sound("/child:g\n"),
        sound("/:\n"),
        sound("/_-.0:\n"),
        sound("/xml\n"),
        sound("/G\n"),
        sound("/gg\n"),
        kept("/v\n/v\n/g\n/g\n/v #\n", "<g/>", "<g></g>", 1),
    ]
}

fn steps() -> Vec<Named> {
    vec![
        bad("v\n", 1),
        bad("/\n", 1),
        bad("//\n", 1),
        bad("///a\n", 1),
        bad("////a\n", 1),
        bad("/a/\n", 1),
        bad("/a//\n", 1),
        bad("/a///b\n", 1),
        bad("/*a\n", 1),
        bad("/a*\n", 1),
        bad("/**\n", 1),
        bad("*\n", 1),
        bad("/.\n", 1),
        bad("/..\n", 1),
        bad("/-a\n", 1),
        bad("/0a\n", 1),
        bad("/.a\n", 1),
        bad("/a/1\n", 1),
        bad("/@k\n", 1),
        bad("/a[1]\n", 1),
        bad("/text()\n", 1),
        bad("/a|/b\n", 1),
        bad("/a;/b\n", 1),
        bad("/a,\n", 1),
        bad("/&lt;\n", 1),
        bad("\\a\n", 1),
    ]
}

fn blanks() -> Vec<Named> {
    vec![
        bad("/a#\n", 1),
        bad("/a  #\n", 1),
        bad("/a # \n", 1),
        bad("/a #\t\n", 1),
        bad("/a ##\n", 1),
        bad("/a # #\n", 1),
        bad("/a #b\n", 1),
        bad("/a #/b\n", 1),
        bad("/a\t#\n", 1),
        bad("/a \n", 1),
        bad("/a\t\n", 1),
        bad(" /a\n", 1),
        bad("/ a\n", 1),
        bad("/a /b\n", 1),
        bad("/a\r\n", 1),
        bad("/a #\r\n", 1),
        bad("\r\n", 1),
        bad("#\n", 1),
        bad(" #\n", 1),
        bad("/#\n", 1),
        bad("/ #\n", 1),
        bad("// #\n", 1),
        bad("/a\u{a0}#\n", 1),
    ]
}

fn lines() -> Vec<Named> {
    vec![
        bad("\n", 1),
        bad("\n/a\n", 1),
        bad("/a\n\n", 2),
        bad("/a\n\n/b\n", 2),
        bad("/a\n/b\nc\n", 3),
        bad("/a\n /b\n\n", 2),
        bad("a", 1),
        bad("/", 1),
        bad(" ", 1),
        bad("/a", 1),
        bad("/a #", 1),
        bad("/a ", 1),
        bad("/a\n/b", 2),
        bad("/a\n/", 2),
        bad("/a\n/b #\n//c #", 3),
        bad("/a\r/b\n", 1),
        bad("/a\u{85}/b\n", 1),
        bad("/a\u{2028}/b\n", 1),
        bad("\u{feff}/a\n", 1),
        bad("/a\n\u{feff}/b\n", 2),
    ]
}

fn bytes() -> Vec<Named> {
    vec![
        bad(b"/\xff\n", 1),
        bad(b"/a\xff\n", 1),
        bad(b"/a\x80\n", 1),
        bad(b"/a\xc3\n", 1),
        bad(b"/a\xc3", 1),
        bad(b"/\xc0\xaf\n", 1),
        bad(b"/\xc1\xa1\n", 1),
        bad(b"/\xe0\x80\xaf\n", 1),
        bad(b"/\xe0\x9f\xbf\n", 1),
        bad(b"/\xed\xa0\x80\n", 1),
        bad(b"/\xf0\x80\x80\xaf\n", 1),
        bad(b"/\xf0\x90\x80\n", 1),
        bad(b"/\xf4\x90\x80\x80\n", 1),
        bad(b"/\xf5\x80\x80\x80\n", 1),
        bad(b"/g\n/a\xc3/b\n", 2),
        bad(b"/a\0\n", 1),
        bad(b"\0", 1),
        bad(b"/a\x7f\n", 1),
        bad(b"/a #\xff\n", 1),
        bad(b"\xff\n/g\n", 1),
        bad(b"/g\n\xff", 2),
    ]
}
