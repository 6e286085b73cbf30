//! Document 02, Q-4, in the list: "The last step of a line, and only the last, may carry one such test, before the space and
//! #." How such lines read, their sizes, and what comes before what, with readings R-10 to R-14. Which elements pass is in
//! `passing`, what their values mean in `values`.

use super::lists::{accepted, malformed, DOC};
use super::{kept, refused};

fn too_large(list: impl AsRef<[u8]>) {
    refused(list, DOC, 3, 1);
}

#[test]
fn sound_tests() {
    for list in ["/g[@k=\"x\"]\n", "//place[@type=\"village\"] #\n", "/a//b/*[@k=\"1\"]\n", "/g[@k=\"\"]\n", "//*[@_=\"\"] #\n"] {
        accepted(list);
    }
    for list in
        ["/g[@xml:lang=\"fr\"]\n", "/g[@:=\":\"]\n", "/g[@\u{E9}=\"\u{E9}\"]\n", "/g[@e\u{301}=\"\u{10FFFF}\"]\n", "/g[@a-1.b=\"\"]\n"]
    {
        accepted(list);
    }
    kept("/g[@k=\"x\"]\n", "<g k='x'/>", "<g k='x'></g>", 1);
    kept("/g[@k=\"x\"] #\n", "<g k='x'/>", "<g k='x'/>", 1);
}

#[test]
fn reading_r_10_any_other_shape() {
    for list in ["/g[]\n", "/g[@]\n", "/g[@k]\n", "/g[@k=]\n", "/g[@k=x]\n", "/g[@k=\"x]\n", "/g[@k=x\"]\n", "/g[@k=\"x\"\n", "/g[@k=\"x\n"]
    {
        malformed(list);
    }
    for list in ["/g[@k='x']\n", "/g[k=\"x\"]\n", "/g[@*=\"x\"]\n", "/g[@=\"x\"]\n", "/g[@1=\"x\"]\n", "/g[@-k=\"x\"]\n", "/g[1]\n"] {
        malformed(list);
    }
    for list in ["/g[@k=\"x\"][@l=\"y\"]\n", "/g[@k=\"x\"][@k=\"x\"]\n", "/g[[@k=\"x\"]]\n", "/g[@k=\"x\"]]\n", "/g[@k==\"x\"]\n"] {
        malformed(list);
    }
    for list in
        ["/g[@k!=\"x\"]\n", "/g[\"x\"=@k]\n", "/g[@k=\"x\" and @l=\"y\"]\n", "/g[not(@k=\"x\")]\n", "/g[@k=\"x\"]v\n", "/g[@k=\"x\"]*\n"]
    {
        malformed(list);
    }
    for list in
        ["[@k=\"x\"]\n", "/[@k=\"x\"]\n", "//[@k=\"x\"]\n", "/self::[@k=\"x\"]\n", "/@k[@k=\"x\"]\n", "/g@k=\"x\"\n", "/g/[@k=\"x\"]\n"]
    {
        malformed(list);
    }
}

#[test]
fn reading_r_10_blanks() {
    for list in ["/g [@k=\"x\"]\n", "/g[ @k=\"x\"]\n", "/g[@ k=\"x\"]\n", "/g[@k =\"x\"]\n", "/g[@k= \"x\"]\n", "/g[@k=\"x\" ]\n"] {
        malformed(list);
    }
    for list in [
        "/g[@k=\"x\"] \n",
        "/g[@k=\"x\"]  #\n",
        "/g[@k=\"x\"]#\n",
        "/g[@k=\"x\"] # \n",
        "/g[@k=\"x\"]\r\n",
        "/g[@k=\"x\"]",
        "/g #[@k=\"x\"]\n",
    ] {
        malformed(list);
    }
}

#[test]
fn a_test_on_an_earlier_step() {
    for list in ["/g[@k=\"x\"]/v\n", "/g[@k=\"x\"]//v #\n", "//*[@k=\"x\"]/self::*\n", "/a/b[@k=\"x\"]/c\n", "/g[@k=\"x\"]/v[@k=\"x\"]\n"] {
        malformed(list);
    }
    refused("/g\n/g[@k=\"x\"]/v\n", DOC, 2, 2);
}

#[test]
fn reading_r_11_each_kind_of_step() {
    let doc = "<g k='x'/>";
    for list in
        ["/g[@k=\"x\"]\n", "/*[@k=\"x\"]\n", "//g[@k=\"x\"]\n", "//*[@k=\"x\"]\n", "/g/self::g[@k=\"x\"]\n", "/g/self::*[@k=\"x\"]\n"]
    {
        kept(list, doc, "<g k='x'></g>", 1);
        kept(list.replace("=\"x\"", "=\"y\""), doc, "<g></g>", 0);
    }
    kept("/descendant-or-self::g[@k=\"x\"] #\n", doc, doc, 1);
    kept("/g/descendant-or-self::*[@k=\"x\"] #\n", doc, doc, 1);
    kept("/g/descendant-or-self::*[@l=\"x\"] #\n", doc, "<g></g>", 0);
    kept("/self::g[@k=\"x\"]\n", doc, "<g></g>", 0);
}

#[test]
fn reading_r_12_characters_of_a_value() {
    for value in [
        "'",
        "]",
        "#",
        " ",
        ">",
        "/",
        "[@",
        "=",
        "'x'",
        "]]>",
        "\u{7F}",
        "\u{85}",
        "\u{A0}",
        "\u{2028}",
        "\u{FEFF}",
        "\u{FFFD}",
        "\u{10000}",
    ] {
        kept(format!("/g[@k=\"{value}\"] #\n"), format!("<g k=\"{value}\"/>"), format!("<g k=\"{value}\"/>"), 1);
    }
    for value in ["\"", "<", "&", "&amp;", "a\"b", "\t", "\r", "\n", "\0", "\u{1}", "\u{1F}", "\u{B}", "\u{FFFE}", "\u{FFFF}"] {
        malformed(format!("/g[@k=\"{value}\"]\n"));
    }
    for value in [b"\x80".as_ref(), b"\xFF", b"\xC3", b"\xC0\xA0", b"\xED\xA0\x80", b"\xF4\x90\x80\x80", b"\xF0\x90\x80"] {
        malformed([b"/g[@k=\"".as_ref(), value, b"\"]\n"].concat());
    }
}

#[test]
fn reading_r_12_sizes() {
    for value in ["a".repeat(255), "\u{E9}".repeat(127) + "a", "\u{3001}".repeat(85), "\u{10000}".repeat(63) + "\u{3001}"] {
        assert_eq!(value.len(), 255);
        kept(format!("/g[@k=\"{value}\"]\n"), format!("<g k='{value}'/>"), format!("<g k='{value}'></g>"), 1);
        too_large(format!("/g[@k=\"{value}a\"]\n"));
    }
    for value in ["a".repeat(256), "\u{E9}".repeat(128), "\u{10000}".repeat(64), "a".repeat(8_000)] {
        too_large(format!("/g[@k=\"{value}\"] #\n"));
    }
    for name in ["a".repeat(255), "\u{E9}".repeat(127) + "a", ":".repeat(255)] {
        kept(format!("/g[@{name}=\"\"]\n"), format!("<g {name}=''/>"), format!("<g {name}=''></g>"), 1);
        too_large(format!("/g[@{name}a=\"\"]\n"));
    }
}

#[test]
fn malformed_comes_before_too_large() {
    let long = "a".repeat(256);
    for list in
        [format!("/g[@k=\"{long}<\"]\n"), format!("/g[@k=\"{long}]\n"), format!("/g[@k=\"{long}\"]/v\n"), format!("/g[@{long}=\"]\n")]
    {
        malformed(list);
    }
    for list in
        [format!("/g[@{long}]\n"), format!("/{long}[@k=x]\n"), format!("/g[@k=\"{long}\"]  #\n"), format!("/g[@k=\"{long}\u{FFFF}\"]\n")]
    {
        malformed(list);
    }
    malformed("/a".repeat(17) + "[@k='x']\n");
    too_large("/a".repeat(17) + "[@k=\"x\"]\n");
    accepted("/a".repeat(16) + "[@k=\"x\"]\n");
    refused(format!("/g[@k=\"{long}\"]\n/g[@k]\n"), DOC, 3, 1);
    refused(format!("/g[@k=\"x\"]\n/g[@k]\n/g[@k=\"{long}\"]\n"), DOC, 2, 2);
    refused("/g[@k=\"x\"]\n".repeat(32) + "/g[@k]\n", DOC, 3, 33);
}

#[test]
fn the_test_counts_to_the_bytes_of_the_list() {
    let line = format!("/g[@k=\"{}\"]\n", "a".repeat(246));
    assert_eq!(line.len(), 256);
    accepted(line.repeat(32));
    refused(line.repeat(32) + "/", DOC, 1, 0);
}

#[test]
fn reading_r_13_the_mark_stands_behind_the_test() {
    let doc = "<g k=' #'><v/></g>";
    kept("/g[@k=\" #\"]\n", doc, "<g k=' #'></g>", 1);
    kept("/g[@k=\" #\"] #\n", doc, doc, 1);
    kept("/g[@k=\"\"] #\n", doc, "<g></g>", 0);
    malformed("/g[@k=\"x #\n");
    malformed("/g[@k=\"x #\"\n");
}

#[test]
fn reading_r_14_two_colons_in_an_attribute_name() {
    let doc = "<g a::b='x'/>";
    kept("/g[@a::b=\"x\"]\n", doc, "<g a::b='x'></g>", 1);
    kept("/g[@self::a=\"x\"]\n", doc, "<g></g>", 0);
    accepted("/g[@::=\"x\"]\n");
    too_large(format!("/g[@a::{}=\"x\"]\n", "b".repeat(253)));
    malformed("/a::b[@k=\"x\"]\n");
}
