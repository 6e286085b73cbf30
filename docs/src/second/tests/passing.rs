//! Document 02, Q-4, which elements pass: "if it has that attribute and the value ... equals it byte for byte", with reading
//! R-15; "Chain elements still lose their attributes"; and demand 3 with tests, reading R-17.

use super::{cut_of, fault, kept};

const DOC: &str = "<g><p k='x'>1<v k=\"x\"/></p><p k='y'><v k='x'>2</v></p><p><v l='x'/></p><p k=''/></g>";

#[test]
fn the_attribute_and_its_value() {
    kept("/g/p[@k=\"x\"]\n", DOC, "<g><p k='x'></p></g>", 1);
    kept("/g/p[@k=\"y\"] #\n", DOC, "<g><p k='y'><v k='x'>2</v></p></g>", 1);
    kept("/g/p[@k=\"\"]\n", DOC, "<g><p k=''></p></g>", 1);
    kept("/g/p[@k=\"X\"]\n", DOC, "<g></g>", 0);
    kept("/g/p[@K=\"x\"]\n", DOC, "<g></g>", 0);
    kept("/g/p[@k=\"xx\"]\n", DOC, "<g></g>", 0);
    kept("/g/p[@kk=\"x\"]\n", DOC, "<g></g>", 0);
    kept("//*[@k=\"x\"]\n", DOC, "<g><p k='x'><v k=\"x\"></v></p><p><v k='x'></v></p></g>", 3);
    kept("//v[@l=\"x\"] #\n", DOC, "<g><p><v l='x'/></p></g>", 1);
}

#[test]
fn reading_r_15_an_attribute_that_is_not_there() {
    kept("//*[@k=\"\"]\n", "<g><v/><v l=''/><v k=' '/></g>", "<g></g>", 0);
    kept("/g[@k=\"\"]\n", "<g/>", "<g></g>", 0);
    kept("/g[@k=\"\"]\n", "<g k=\"\"/>", "<g k=\"\"></g>", 1);
}

#[test]
fn one_among_many() {
    let tag = "<v a='1'\n b = \"2\"\tc='3' />";
    for list in ["//v[@a=\"1\"] #\n", "//v[@b=\"2\"] #\n", "//v[@c=\"3\"] #\n"] {
        kept(list, format!("<g>{tag}</g>"), format!("<g>{tag}</g>"), 1);
    }
    for list in ["//v[@a=\"2\"] #\n", "//v[@b=\"3\"] #\n", "//v[@v=\"1\"] #\n", "//v[@A=\"1\"] #\n"] {
        kept(list, format!("<g>{tag}</g>"), "<g></g>", 0);
    }
    let many: String = (0..32).map(|i| format!(" k{i}='{i}'")).collect();
    kept("/g[@k31=\"31\"]\n", format!("<g{many}/>"), format!("<g{many}></g>"), 1);
    kept("/g[@k31=\"30\"]\n", format!("<g{many}/>"), "<g></g>", 0);
}

#[test]
fn quotes_are_none_of_the_value() {
    kept("/g[@k=\"'\"] #\n", "<g k=\"'\"/>", "<g k=\"'\"/>", 1);
    kept("/g[@k=\"'x'\"]\n", "<g k='x'/>", "<g></g>", 0);
    kept("/g[@k=\"x\"]\n", "<g k='\"x\"'/>", "<g></g>", 0);
    kept("/g[@k=\"a>b/>\"] #\n", "<g k='a>b/>'>t</g>", "<g k='a>b/>'>t</g>", 1);
}

#[test]
fn accents_are_equal_by_bytes() {
    let doc = "<g><a k='\u{E9}'/><b k='e\u{301}'/><c \u{E9}='1'/><d e\u{301}='1'/></g>";
    kept("//*[@k=\"\u{E9}\"]\n", doc, "<g><a k='\u{E9}'></a></g>", 1);
    kept("//*[@k=\"e\u{301}\"]\n", doc, "<g><b k='e\u{301}'></b></g>", 1);
    kept("//*[@\u{E9}=\"1\"]\n", doc, "<g><c \u{E9}='1'></c></g>", 1);
    kept("//*[@e\u{301}=\"1\"]\n", doc, "<g><d e\u{301}='1'></d></g>", 1);
}

#[test]
fn an_attribute_twice_is_a_fault_as_before() {
    fault("<g><v k='x' k='x'/></g>", 7, 3);
    fault("<g><v k='x' k='y'/></g>", 7, 3);
}

#[test]
fn chain_elements_lose_their_attributes() {
    kept("/g/p/v[@k=\"x\"]\n", DOC, "<g><p><v k=\"x\"></v></p><p><v k='x'></v></p></g>", 2);
    kept("/g[@k=\"x\"]\n", "<g k='y'><v/></g>", "<g></g>", 0);
    kept("//v\n", "<g k='x'><v/></g>", "<g><v></v></g>", 1);
}

#[test]
fn several_lines() {
    kept("//p[@k=\"x\"]\n//p[@k=\"y\"]\n", DOC, "<g><p k='x'></p><p k='y'></p></g>", 2);
    kept("//p\n//p[@k=\"y\"] #\n", DOC, "<g><p k='x'></p><p k='y'><v k='x'>2</v></p><p></p><p k=''></p></g>", 4);
    kept("//p #\n//p[@k=\"y\"]\n", DOC, DOC, 4);
    kept("//p[@k=\"x\"]\n//p[@k=\"x\"] #\n", DOC, "<g><p k='x'>1<v k=\"x\"/></p></g>", 1);
}

/// The cut by the narrow list of the cut by the wide list is the narrow cut.
fn same_after(wide: &str, narrow: &str) {
    let (wide_cut, _) = cut_of(wide, DOC);
    assert_eq!(cut_of(narrow, wide_cut), cut_of(narrow, DOC));
}

#[test]
fn demand_3() {
    let wide = "//p[@k=\"x\"]\n//p[@k=\"y\"] #\n//p[@k=\"\"]\n//v[@k=\"x\"]\n//v[@l=\"\"]\n";
    for narrow in ["", "//p[@k=\"x\"]\n", "//p[@k=\"y\"]\n", "//p[@k=\"y\"] #\n", "//p[@k=\"\"]\n", "//v[@k=\"x\"]\n", "//v[@l=\"\"]\n"] {
        same_after(wide, narrow);
    }
    same_after("/g/p[@k=\"x\"]\n/g/p[@k=\"x\"] #\n", "/g/p[@k=\"x\"] #\n");
}

/// Reading R-17: with another test it is another path. Here the chain element `p` has lost what the narrow list asks for.
#[test]
fn reading_r_17_another_test_is_another_path() {
    let doc = "<g><p k='x'><v k='y'/></p></g>";
    let (wide_cut, _) = cut_of("//*[@k=\"y\"]\n", doc);
    assert_eq!(wide_cut, b"<g><p><v k='y'></v></p></g>");
    assert_eq!(cut_of("//*[@k=\"x\"]\n", wide_cut), (b"<g></g>".to_vec(), 0));
    assert_eq!(cut_of("//*[@k=\"x\"]\n", doc), (b"<g><p k='x'></p></g>".to_vec(), 1));
}
