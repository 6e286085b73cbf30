//! Which number comes first: "1; 2 and 3 by line; 4; 5; 6 to 8 by item; 9", and the order within one item. Each test
//! sets two faults against each other.

use super::{fault, refused, refused_in};

fn too_long() -> Vec<u8> {
    vec![0xFF; 16_777_217]
}

fn long_name() -> String {
    "a".repeat(256)
}

#[test]
fn the_list_comes_before_the_document() {
    refused("x".repeat(8_193), too_long(), 1, 0);
    refused("x".repeat(8_193), "", 1, 0);
    refused("/v\nx\n", too_long(), 2, 2);
    refused("/a".repeat(17) + "\n", too_long(), 3, 1);
    refused("x\n", b"\xFF", 2, 1);
    refused("/v\n".repeat(33), "<!DOCTYPE g>", 3, 33);
}

#[test]
fn the_length_comes_before_the_characters() {
    fault(too_long(), 4, 0);
}

#[test]
fn the_characters_come_before_the_items() {
    fault(b"<!DOCTYPE g>\xFF", 5, 12);
    fault(b"</g>\x01", 5, 4);
    fault([b"<", long_name().as_bytes(), b"/>\xFF"].concat(), 5, 259);
    fault(b"<g>\xFF", 5, 3);
}

#[test]
fn the_first_item_at_fault_decides() {
    fault("<!DOCTYPE g><g", 6, 0);
    fault("</g><!DOCTYPE g>", 7, 0);
    fault("<g></h><!DOCTYPE g>", 7, 3);
    fault(format!("<{}/><!DOCTYPE g>", long_name()), 8, 0);
    fault(format!("<g/><h/><{}/>", long_name()), 7, 4);
    fault(format!("<g/><{}/><h/>", long_name()), 8, 4);
    fault("<g>&x;<", 7, 3);
    fault("<g>]]><!DOCTYPE g>", 7, 3);
}

#[test]
fn a_document_type_anywhere() {
    fault("<!DOCTYPE", 6, 0);
    fault("<!DOCTYPEg", 6, 0);
    fault("\u{FEFF}<?xml version='1.0'?>\n<!DOCTYPE g []><g/>", 6, 25);
    fault("<g><!DOCTYPE g></g>", 6, 3);
    fault("<g/><!DOCTYPE g>", 6, 4);
}

#[test]
fn the_production_comes_before_sizes() {
    let long = long_name();
    let many: String = (0..33).map(|k| format!(" k{k}=''")).collect();
    fault(format!("<{long} k/>"), 7, 0);
    fault(format!("<{long} k='<'/>"), 7, 0);
    fault(format!("<{long}"), 7, 0);
    fault(format!("<g></{long}"), 7, 3);
    fault(format!("<g{many} k='&x;'/>"), 7, 0);
    fault("<a>".repeat(64) + "<a k/>", 7, 192);
}

#[test]
fn sizes_come_before_position_and_matching() {
    let long = long_name();
    fault(format!("<g/><{long}/>"), 8, 4);
    fault(format!("<g></{long}>"), 8, 3);
    fault(format!("<{long} k='' k=''/>"), 8, 0);
    fault("<a>".repeat(64) + "<a k='' k=''/>", 8, 192);
}

#[test]
fn what_is_left_open_comes_last() {
    fault("<g>", 7, 3);
    fault("<g><v/> text", 7, 12);
    fault("<!-- -->\n", 7, 9);
    fault("<g><v></v><", 7, 10);
}

#[test]
fn the_room_comes_last_of_all() {
    refused_in(b"x\n", b"<g/>", 0, 2, 1);
    refused_in(b"", b"<g>", 0, 7, 3);
    refused_in(b"", b"<g/>", 0, 9, 7);
    refused_in(b"", b"<g/>", 6, 9, 7);
}
