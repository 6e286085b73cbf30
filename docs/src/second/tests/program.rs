//! What the program prints: document 01's own sample, refusals, `too long`, and reading 17 about the list and the
//! length.

use crate::program::{list_at, printed};
use std::path::Path;

fn prints(list: impl AsRef<[u8]>, doc: impl AsRef<[u8]>, expected: &str) {
    let bytes = printed(list.as_ref(), doc.as_ref());
    assert_eq!(String::from_utf8_lossy(&bytes), expected);
}

#[test]
fn kept_and_refused() {
    prints("//v\n", "<g><p><v/></p></g>", "kept 1 21\n<g><p><v></v></p></g>\n");
    prints("", "<g/>", "kept 0 7\n<g></g>\n");
    prints("//v #\n//n\n", "<g><v><n/></v></g>", "kept 2 18\n<g><v><n/></v></g>\n");
    prints("//v\n", "<g><v></g>", "refused 7 6\n");
    prints("v\n", "<g/>", "refused 2 1\n");
}

#[test]
fn reading_17_the_list_and_the_length() {
    assert!(list_at(Path::new("no such folder/paths.lst")).is_empty());
    prints("x".repeat(8_193), "<g/>", "refused 1 0\n");
    prints("x".repeat(8_193), " ".repeat(32_769), "too long\n");
    prints("", " ".repeat(32_769), "too long\n");
    prints("", " ".repeat(32_764) + "<g/>", "kept 0 7\n<g></g>\n");
    prints("", " ".repeat(32_768), "refused 7 32768\n");
}

#[test]
fn the_room_is_enough_for_the_longest_cut() {
    // 126 empty tags of 258 bytes grow to 515 each; with the root that is under 65,536.
    let name = "n".repeat(255);
    let doc = format!("<g>{}</g>", format!("<{name}/>").repeat(126));
    let bytes = format!("<g>{}</g>", format!("<{name}></{name}>").repeat(126));
    prints("/g/*\n", doc, &format!("kept 126 {}\n{bytes}\n", 126 * 515 + 7));
}
