//! What is written: the three bullets, what they keep byte for byte and what they drop. Which elements are selected is
//! the matter of `selection`.

use super::kept;

#[test]
fn a_marked_entry_is_kept_as_it_came() {
    let entry = "<v\tk = \"a&#10;b\" >x&amp;<!--c--><?p?><![CDATA[<]]>\r\n<n /><m></m ></v\n>";
    kept("//v #\n", format!("<g z=''>t{entry}t</g>"), format!("<g>{entry}</g>"), 1);
    kept("/v #\n", entry, entry, 1);
    kept("/v #\n", format!("\u{FEFF}<?xml version='1.0'?>\n<!--c-->{entry}<?p?>\n"), entry, 1);
}

#[test]
fn a_plain_element_keeps_its_tag_and_nothing_under_it() {
    let doc = "<g>t<v\tk = \"a&#10;b\" >x&amp;<!--c--><?p?><![CDATA[<]]><n/></v\n>t</g>";
    kept("//v\n", doc, "<g><v\tk = \"a&#10;b\" ></v></g>", 1);
    kept("//v\n//n\n", doc, "<g><v\tk = \"a&#10;b\" ><n></n></v></g>", 2);
}

#[test]
fn plain_empty_tags() {
    kept("//v\n", "<g><v/></g>", "<g><v></v></g>", 1);
    kept("//v\n", "<g><v \n/></g>", "<g><v \n></v></g>", 1);
    kept("//v\n", "<g><v k='/'/></g>", "<g><v k='/'></v></g>", 1);
    kept("//v\n", "<g><v k='>'></v></g>", "<g><v k='>'></v></g>", 1);
    kept("/g\n", "<g k='1'/>", "<g k='1'></g>", 1);
}

#[test]
fn chain_elements_have_neither_attributes_nor_blanks() {
    let doc = "<g a=''><p b='' ><q\n><v/></q ></p ></g >";
    kept("//v\n", doc, "<g><p><q><v></v></q></p></g>", 1);
    kept("//p\n", doc, "<g><p b='' ></p></g>", 1);
    kept("//p\n//v\n", doc, "<g><p b='' ><q><v></v></q></p></g>", 2);
}

#[test]
fn a_branch_with_nothing_selected_is_dropped() {
    kept("//v\n", "<g><p><q/></p><p><v/></p><p/></g>", "<g><p><v></v></p></g>", 1);
    kept("//x\n", "<g><p><q/></p><p><v/></p><p/></g>", "<g></g>", 0);
    kept("", "<g a='1'>x<p/></g>", "<g></g>", 0);
}

#[test]
fn marked_and_plain_inside_each_other() {
    let doc = "<g><v k='1'>x<n>y</n>z</v></g>";
    kept("//v\n//n #\n", doc, "<g><v k='1'><n>y</n></v></g>", 2);
    kept("//v #\n//n\n", doc, doc, 2);
    kept("//v #\n//n #\n", doc, doc, 2);
    kept("//*\n", doc, "<g><v k='1'><n></n></v></g>", 3);
    // The same name marked at one place and plain at another.
    kept("//v/v #\n//v\n", "<v>a<v>b<v>c</v></v></v>", "<v><v>b<v>c</v></v></v>", 3);
}

#[test]
fn names_of_more_than_one_byte_a_character() {
    let doc = "<\u{E9}><\u{10000} \u{4E00}='\u{E9}'/></\u{E9}>";
    kept("//\u{10000}\n", doc, "<\u{E9}><\u{10000} \u{4E00}='\u{E9}'></\u{10000}></\u{E9}>", 1);
}

#[test]
fn order_is_that_of_the_document() {
    kept("//b #\n//a\n", "<g><a/><b/><a>x</a><b>y</b></g>", "<g><a></a><b/><a></a><b>y</b></g>", 4);
}

/// "a cut of an accepted document of n bytes has at most 2 × n − 1 bytes". `kept` asks for that in every test. A
/// document that is one empty tag reaches it: it has three bytes more than the name, its cut five more than the name twice.
#[test]
fn the_longest_cut_for_its_document() {
    kept("", "<g/>", "<g></g>", 0);
    for length in [1, 2, 254, 255] {
        let name = "n".repeat(length);
        let (doc, bytes) = (format!("<{name}/>"), format!("<{name}></{name}>"));
        assert_eq!(bytes.len(), 2 * doc.len() - 1);
        kept("", &doc, &bytes, 0);
        kept("//*\n", &doc, &bytes, 1);
    }
}
