//! The seventeen places where document 01 can be read two ways, each as a test of the reading taken. Reading 17 is about
//! the program, and is in `program`.

use super::{fault, kept, refused, sound};

const DOC: &str = "<g><v/></g>";

#[test]
fn reading_01_a_last_line_without_lf_is_malformed() {
    refused("//v\n//v", DOC, 2, 2);
    refused("//v\n".repeat(31) + "//v", DOC, 2, 32);
    refused("//v\n".repeat(32) + "//v", DOC, 3, 33);
}

#[test]
fn reading_02_bytes_of_no_name_make_the_line_malformed() {
    refused(b"//v\xFF\n", DOC, 2, 1);
    refused([b"//", "v".repeat(300).as_bytes(), b"\xFF\n"].concat(), DOC, 2, 1);
    refused(format!("//{}\u{D7}\n", "v".repeat(300)), DOC, 2, 1);
}

#[test]
fn reading_03_malformed_beats_too_large_wherever_each_stands() {
    refused("//v".repeat(17) + "/\n", DOC, 2, 1);
    refused(format!("//{} #x\n", "v".repeat(256)), DOC, 2, 1);
    refused("//v\n".repeat(32) + "\n", DOC, 3, 33);
    refused("//v\n".repeat(32) + "x\n", DOC, 3, 33);
}

#[test]
fn reading_04_a_path_twice_selects_once_and_marked_wins() {
    kept("//v\n//v\n", DOC, "<g><v></v></g>", 1);
    kept("//v\n//v #\n", DOC, DOC, 1);
    kept("//v #\n//v\n", DOC, DOC, 1);
    kept("//v\n//*\n/g/v\n", DOC, "<g><v></v></g>", 2);
}

#[test]
fn reading_05_answer_5_beats_6_to_8_wherever_it_stands() {
    fault(b"<!DOCTYPE g><g>\x80</g>", 5, 15);
    fault(b"</g>\xE2\x82", 5, 4);
    fault(b"<g></h>\xEF\xBF\xBE", 5, 7);
    fault(b"<g>\x80\x80\xFF</g>", 5, 3);
    fault(b"<g>\xF0\x90\x80</g>", 5, 3);
}

#[test]
fn reading_06_the_three_front_bytes() {
    kept("//v\n", format!("\u{FEFF}{DOC}"), "<g><v></v></g>", 1);
    fault("\u{FEFF}", 7, 3);
    fault("\u{FEFF}\u{FEFF}<g/>", 7, 3);
    fault(" \u{FEFF}<g/>", 7, 0);
    fault("<g/>\u{FEFF}", 7, 4);
    sound("<g>\u{FEFF}</g>");
    sound("<\u{FEFF}/>");
}

#[test]
fn reading_07_a_declaration_is_the_first_item_only() {
    sound("<?xml version='1.0'?><g/>");
    sound("\u{FEFF}<?xml version='1.0'?><g/>");
    fault("\n<?xml version='1.0'?><g/>", 7, 1);
    fault("<!----><?xml version='1.0'?><g/>", 7, 7);
    fault("<g><?xml version='1.0'?></g>", 7, 3);
    fault("<?xml?><g/>", 7, 0);
    fault("<?xml version='1.0'?><?xml version='1.0'?><g/>", 7, 21);
}

#[test]
fn reading_08_what_a_document_type_is() {
    fault("<!doctype g><g/>", 7, 0);
    fault("<!ELEMENT g ANY><g/>", 7, 0);
    fault("<!DOCTYP", 7, 0);
    fault("<g><![cdata[]]></g>", 7, 3);
    sound("<g><!--<!DOCTYPE g>--><?p <!DOCTYPE g>?><![CDATA[<!DOCTYPE g>]]></g>");
    fault("<g k='<!DOCTYPE g>'/>", 7, 0);
}

#[test]
fn reading_09_items_outside_the_root() {
    fault("<![CDATA[ ]]><g/>", 7, 0);
    fault("<g/><![CDATA[]]>", 7, 4);
    fault("&#32;<g/>", 7, 0);
    fault("<g/>\n&lt;", 7, 5);
    fault("x<g/>", 7, 0);
    fault("<g/> x", 7, 4);
    fault("<g/><g/>", 7, 4);
    fault("<g></g><g></g>", 7, 7);
    fault("</g>", 7, 0);
    fault("<g/></g>", 7, 4);
    sound("\n\t<!----><?p?>\r\n<g/> <!----><?p?>\n");
}

#[test]
fn reading_10_depth_counts_the_level_that_the_tag_would_open() {
    let level = |depth: usize| "<a>".repeat(depth - 1) + "<b/>" + &"</a>".repeat(depth - 1);
    sound(level(64));
    fault(level(65), 8, 192);
}

#[test]
fn reading_11_sizes_in_end_tags_targets_and_attributes() {
    fault(format!("<g></{}>", "g".repeat(256)), 8, 3);
    sound(format!("<?{}?><g/>", "p".repeat(256)));
    fault(format!("<g{}/>", " k=''".repeat(33)), 8, 0);
    fault(format!("<g{}/>", " k=''".repeat(32)), 7, 0);
}

#[test]
fn reading_12_the_number_of_a_reference() {
    sound(format!("<g>&#{}65;</g>", "0".repeat(1_000)));
    sound(format!("<g>&#x{}1f600;</g>", "0".repeat(1_000)));
    fault(format!("<g>&#{};</g>", "9".repeat(1_000)), 7, 3);
    fault(format!("<g>&#x{};</g>", "F".repeat(1_000)), 7, 3);
    fault("<g>&#X41;</g>", 7, 3);
}

#[test]
fn reading_13_how_far_text_runs() {
    sound("<g>]]&gt;</g>");
    sound("<g><![CDATA[]]>></g>");
    sound("<g>]]<v/>></g>");
    fault("<g>a]]>b</g>", 7, 3);
    fault("<g>&lt;]]]></g>", 7, 7);
}

#[test]
fn reading_14_an_empty_tag_keeps_its_blanks() {
    let doc = "<g><v k=\"1\" /></g>";
    kept("//v\n", doc, "<g><v k=\"1\" ></v></g>", 1);
    kept("//v #\n", doc, doc, 1);
}

#[test]
fn reading_15_white_space_inside_end_tags() {
    let doc = "<g><v></v ></g\n>";
    kept("//v\n", doc, "<g><v></v></g>", 1);
    kept("//v #\n", doc, "<g><v></v ></g>", 1);
    kept("/g #\n", doc, doc, 1);
}

#[test]
fn reading_16_the_room() {
    super::kept_in(b"//v\n", DOC.as_bytes(), 14, b"<g><v></v></g>", 1);
    super::kept_in(b"//v\n", DOC.as_bytes(), 99, b"<g><v></v></g>", 1);
    super::refused_in(b"//v\n", DOC.as_bytes(), 13, 9, 14);
    super::refused_in(b"", b"<g/>", 0, 9, 7);
}
