// Documents of 16,777,216 bytes, one less and one more, sound and at fault at their end or by their encoding; many name tests; and the
// gazetteer by lists that are thin, wide and long. A line says what each run answered.
use crate::same::{both, cut, reached};
use crate::{gazetteer, lists, narrow};

const MOST: usize = 16_777_216;

/// A sound document of so many bytes: many entries with some text, and text that fills it up.
fn sized(length: usize) -> Vec<u8> {
    let note = "The village lies on an old road near the river and has a small church, two mills and a market. ".repeat(2);
    let entry = format!("<v k=\"é\"><n>Aar &amp; Émme</n><w/>{note}</v>\n").into_bytes();
    let mut doc = b"<g>".to_vec();
    while doc.len() + entry.len() + 4 <= length {
        doc.extend_from_slice(&entry);
    }
    doc.resize(length - 4, b'.');
    doc.extend_from_slice(b"</g>");
    doc
}

/// Says what was answered, and hands back how many name tests were tried.
fn say(what: &str, list: &str, doc: &[u8], room: usize) -> u64 {
    let (answer, _) = both(list.as_bytes(), doc, room);
    println!("{what}: {} {} {} {}", answer.number, answer.second, answer.third, answer.fourth);
    answer.fourth
}

fn sizes() {
    let lists = [("nothing", ""), ("//n", "//n\n"), ("//v # and //w", "//v #\n//w\n")];
    for length in [MOST - 1, MOST, MOST + 1] {
        let doc = sized(length);
        for (what, list) in lists {
            say(&format!("{length} bytes by {what}"), list, &doc, MOST);
        }
        say(&format!("{length} bytes, no room"), "//n\n", &doc, 0);
    }
}

/// The last byte, and the first one past it, decide.
fn ends() {
    let ends: [(&str, &[u8]); 4] = [("no end", b"...."), ("another end", b"</h>"), ("no character", b"</g\xFF"), ("a sound end", b"</g>")];
    let mut doc = sized(MOST);
    for (what, end) in ends {
        doc.truncate(MOST - end.len());
        doc.extend_from_slice(end);
        say(&format!("{MOST} bytes with {what}"), "//n\n", &doc, MOST);
        doc.push(b'\n');
        say(&format!("{} bytes with {what} before the last", MOST + 1), "//n\n", &doc, MOST);
    }
}

/// What is declared comes after the length and before the characters, of which there are none behind it.
fn declared() {
    let mut doc = b"<?xml version='1.0' encoding='ISO-8859-1'?>".to_vec();
    doc.resize(MOST, 0xFF);
    say(&format!("{MOST} bytes in another encoding"), "//n\n", &doc, MOST);
    doc.push(0xFF);
    say(&format!("{} bytes in another encoding", MOST + 1), "//n\n", &doc, MOST);
}

/// The most elements that a document can have and the most steps that a list can have, each step tried at each element: there can be no
/// more name tests. The cut needs nearly twice the document's length.
fn name_tests() {
    let list = format!("//*{}\n", "/self::*".repeat(15)).repeat(32);
    let doc = format!("<g>{}</g>", "<v/>".repeat(4_194_302)).into_bytes();
    let what = "4194303 elements by 512 steps";
    assert_eq!(say(what, &list, &doc, 2 * doc.len()), 4_194_303 * 512);
    assert_eq!(say(&format!("{what}, no room"), &list, &doc, 0), 0);
}

fn gazetteer() {
    let doc = gazetteer::document().into_bytes();
    let long = lists::long();
    let all = [("nothing", ""), ("the atlas", lists::ATLAS), ("the desk", lists::DESK), ("all", "//*\n"), ("32 paths", &long)];
    for (what, list) in all {
        say(&format!("gazetteer of {} bytes by {what}", doc.len()), list, &doc, doc.len());
    }
    let wide = [lists::ATLAS, lists::DESK].concat();
    let (wide_cut, _) = cut(wide.as_bytes(), &doc).expect("a sound list and document");
    for (what, narrow) in [("the atlas", lists::ATLAS), ("the desk", lists::DESK), ("communes, unmarked", "//commune\n")] {
        assert!(narrow::tried(&wide_cut, narrow.as_bytes(), &doc));
        println!("gazetteer, wide and then by {what}: as at once");
    }
}

/// At the most bytes and about it, and the longest cut.
pub fn limits() {
    reached();
    sizes();
    ends();
    declared();
}

pub fn run() {
    limits();
    name_tests();
    gazetteer();
}
