//! The document's sizes: each limit and one past it, for every kind of tag that the size is about. Those of the list are
//! in `list_sizes`.

use super::{fault, kept, kept_in, refused, sound};

fn name(bytes: usize) -> String {
    "a".repeat(bytes)
}

/// A root with text of as many bytes as make the document this long.
fn document_of(bytes: usize) -> Vec<u8> {
    let mut doc = b"<g>".to_vec();
    doc.resize(bytes - 4, b'x');
    doc.extend_from_slice(b"</g>");
    doc
}

#[test]
fn documents_of_16777216_and_16777217_bytes() {
    let doc = document_of(16_777_216);
    assert_eq!(doc.len(), 16_777_216);
    kept_in(b"//v\n", &doc, 20, b"<g></g>", 0);
    kept_in(b"/g #\n", &doc, 16_777_216, &doc, 1);
    fault(document_of(16_777_217), 4, 0);
    fault(vec![0xFF; 16_777_217], 4, 0);
}

#[test]
fn element_names() {
    let (most, more) = (name(255), name(256));
    sound(format!("<{most}></{most}>"));
    sound(format!("<{most}/>"));
    fault(format!("<{more}></{more}>"), 8, 0);
    fault(format!("<{more}/>"), 8, 0);
    fault(format!("<g><{more}/></g>"), 8, 3);
    // In an end tag the size comes before the match.
    fault(format!("<g></{more}>"), 8, 3);
    fault(format!("<g></{most}>"), 7, 3);
    fault(format!("</{more}>"), 8, 0);
}

#[test]
fn names_count_bytes_not_characters() {
    let accents = "\u{E9}".repeat(127);
    sound(format!("<a{accents}/>"));
    fault(format!("<\u{E9}{accents}/>"), 8, 0);
    sound(format!("<g a{accents}=''/>"));
    fault(format!("<g \u{E9}{accents}=''/>"), 8, 0);
}

#[test]
fn attribute_names() {
    let (most, more) = (name(255), name(256));
    sound(format!("<g {most}='1'/>"));
    sound(format!("<g {most}='1'></g>"));
    fault(format!("<g {more}='1'/>"), 8, 0);
    fault(format!("<g {more}='1'></g>"), 8, 0);
    fault(format!("<g><v k='' {more}='1'/></g>"), 8, 3);
}

#[test]
fn attributes_of_a_tag() {
    let attributes = |count: usize| (0..count).map(|k| format!(" k{k}='{k}'")).collect::<String>();
    sound(format!("<g{}/>", attributes(32)));
    sound(format!("<g{}></g>", attributes(32)));
    fault(format!("<g{}/>", attributes(33)), 8, 0);
    fault(format!("<g><v{}></v></g>", attributes(33)), 8, 3);
    fault(format!("<g{} k0='again'/>", attributes(31)), 7, 0);
    fault(format!("<g{} k0='again'/>", attributes(32)), 8, 0);
}

#[test]
fn depth_by_start_tags() {
    let nested = |depth: usize| "<a>".repeat(depth) + &"</a>".repeat(depth);
    sound(nested(64));
    fault(nested(65), 8, 192);
    fault("<a>".repeat(65), 8, 192);
    fault("<a>".repeat(64), 7, 192);
    kept("//*\n", nested(64), nested(64), 64);
    kept("/a".repeat(16) + "\n", nested(64), nested(16), 1);
}

#[test]
fn depth_by_empty_tags() {
    let around = |depth: usize, inside: &str| "<a>".repeat(depth) + inside + &"</a>".repeat(depth);
    sound(around(63, "<b/>"));
    fault(around(64, "<b/>"), 8, 192);
    // Levels are given back: 64 is reached twice, by siblings.
    sound(around(63, "<b></b><c/><b></b>"));
    fault(around(63, "<b></b><c><d/></c>"), 8, 199);
}

#[test]
fn sizes_that_document_01_does_not_name() {
    let more = name(300);
    sound(format!("<?{more} x?><g/>"));
    sound(format!("<g k='{more}'>{more}<!--{more}--><![CDATA[{more}]]></g>"));
    sound("<g>".to_string() + &"<v/>".repeat(1_000) + "</g>");
    refused("//v\n", format!("<g>&{more};</g>"), 7, 3);
}
