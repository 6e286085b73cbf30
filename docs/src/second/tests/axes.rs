//! Document 02, Q-6: "Add `/self::` and `/descendant-or-self::` before a test." How such lines read, their sizes, and what
//! comes before what, with readings. What these steps select is in `same_place`.

use super::lists::{accepted, malformed, DOC};
use super::{kept, refused};

#[test]
fn the_two_axes() {
    for list in ["/self::p\n", "/self::* #\n", "/descendant-or-self::p\n", "/g/self::h #\n", "//p/self::*/q\n"] {
        accepted(list);
    }
    for list in ["/self::self\n", "/self::descendant-or-self\n", "/descendant-or-self::self:p\n", "/self::\u{E9}\n"] {
        accepted(list);
    }
    kept("/g/self::g\n", DOC, "<g></g>", 1);
    kept("/descendant-or-self::g #\n", DOC, "<g/>", 1);
    kept("/*/descendant-or-self::*\n", DOC, "<g></g>", 1);
}

#[test]
fn reading_r_18_one_slash() {
    for list in ["//self::p\n", "//descendant-or-self::p\n", "//self::*\n", "///self::p\n", "self::p\n", "/g//self::g\n"] {
        malformed(list);
    }
}

#[test]
fn reading_r_19_the_rest_is_a_name_test_of_its_own() {
    let doc = "<g><:p/><p/><:/></g>";
    kept("/g/*/self:::p\n", doc, "<g><:p></:p></g>", 1);
    kept("/g/*/self:::\n", doc, "<g><:></:></g>", 1);
    kept("/descendant-or-self:::p\n", doc, "<g><:p></:p></g>", 1);
    kept("/descendant-or-self::: #\n", doc, "<g><:/></g>", 1);
    for list in ["/self::::p\n", "/self::::\n", "/self::self::p\n", "/self::p::q\n", "/self::p::\n", "/self::a::b\n"] {
        malformed(list);
    }
    for list in ["/descendant-or-self::::p\n", "/descendant-or-self::self::p\n", "/descendant-or-self::child::p\n"] {
        malformed(list);
    }
}

#[test]
fn reading_r_19_an_axis_without_a_test() {
    for list in ["/self::\n", "/self:: #\n", "/self::/p\n", "/self:: p\n", "/self::-p\n", "/self::1\n", "/self::"] {
        malformed(list);
    }
    for list in ["/descendant-or-self::\n", "/p/descendant-or-self:: #\n", "/descendant-or-self::**\n", "/self::*p\n", "/self:::*\n"] {
        malformed(list);
    }
}

#[test]
fn reading_r_19_plain_names_near_an_axis() {
    let doc = "<g><self/><self:/><self:p/><descendant-or-self:p/><p/></g>";
    kept("/g/self\n", doc, "<g><self></self></g>", 1);
    kept("/g/self:\n", doc, "<g><self:></self:></g>", 1);
    kept("//self:p\n", doc, "<g><self:p></self:p></g>", 1);
    kept("/g/descendant-or-self:p\n", doc, "<g><descendant-or-self:p></descendant-or-self:p></g>", 1);
    for list in ["/self:p:q\n", "/:p:\n", "/descendant-or-self\n", "/descendant-or-self:\n", "/child:p\n", "//self\n"] {
        accepted(list);
    }
}

#[test]
fn reading_r_20_two_colons_anywhere_else() {
    for list in ["/a::b\n", "/a:::b\n", "/::\n", "/p::\n", "/:::p\n", "/::p\n", "//a::b\n", "//::\n", "/a/b::c/d #\n"] {
        malformed(list);
    }
    for list in ["/child::p\n", "/descendant::p\n", "/parent::p\n", "/Self::p\n", "/SELF::p\n", "/self-or-descendant::p\n"] {
        malformed(list);
    }
    for list in ["/descendant-or-Self::p\n", "/xself::p\n", "/or-self::p\n", "/child::*\n", "/descendant::*\n", "/\u{E9}::p\n"] {
        malformed(list);
    }
}

#[test]
fn reading_r_20_documents_keep_such_names() {
    let doc = "<g><a::b c::d='1'/><self::p/><::><p/></::></g>";
    kept("/g/*\n", doc, "<g><a::b c::d='1'></a::b><self::p></self::p><::></::></g>", 3);
    kept("/g/*/self::* #\n", doc, "<g><a::b c::d='1'/><self::p/><::><p/></::></g>", 3);
    kept("//p\n", doc, "<g><::><p></p></::></g>", 1);
    // A self step, not the plain name `self::p`.
    kept("/g/self::p\n", doc, "<g></g>", 0);
}

#[test]
fn reading_r_21_the_axis_is_not_counted() {
    for axis in ["/self::", "/descendant-or-self::"] {
        accepted(format!("{axis}{}\n", "a".repeat(255)));
        accepted(format!("/v{axis}:{} #\n", "a".repeat(254)));
        refused(format!("{axis}{}\n", "a".repeat(256)), DOC, 3, 1);
        refused(format!("/v{axis}:{} #\n", "a".repeat(255)), DOC, 3, 1);
        refused(format!("/v\n{axis}{}\n", "\u{E9}".repeat(128)), DOC, 3, 2);
    }
    let name = "a".repeat(255);
    kept(format!("/*/self::{name}\n"), format!("<{name}/>"), format!("<{name}></{name}>"), 1);
    // Without a second colon it is part of the name: 5 bytes and 250, 5 and 251.
    accepted(format!("/self:{}\n", "a".repeat(250)));
    refused(format!("/self:{}\n", "a".repeat(251)), DOC, 3, 1);
}

#[test]
fn reading_r_21_two_colons_come_before_too_large() {
    let long = "a".repeat(256);
    for list in [format!("/{long}::\n"), format!("/::{long}\n"), format!("/a::{long}\n"), format!("/{long}/a::b\n")] {
        malformed(list);
    }
    for list in [format!("/self::{long}::a\n"), format!("/self::{long}/self::\n"), format!("/{}::\n", "a".repeat(254))] {
        malformed(list);
    }
    malformed("/a".repeat(17) + "/a::b\n");
    malformed("/child::a".to_string() + &"/a".repeat(17) + "\n");
}

#[test]
fn steps_16_and_17_of_these_kinds() {
    kept(format!("/g{}\n", "/self::g".repeat(15)), DOC, "<g></g>", 1);
    refused(format!("/g{}\n", "/self::g".repeat(16)), DOC, 3, 1);
    kept("/descendant-or-self::*".repeat(16) + " #\n", DOC, DOC, 1);
    refused("/descendant-or-self::*".repeat(17) + " #\n", DOC, 3, 1);
    accepted("/self::*".repeat(16) + "\n");
    refused("/v\n".to_string() + &"/self::*".repeat(17) + "\n", DOC, 3, 2);
}

#[test]
fn the_axis_counts_to_the_bytes_of_the_list() {
    let line = format!("/self::{}\n", "a".repeat(248));
    assert_eq!(line.len(), 256);
    accepted(line.repeat(32));
    refused(line.repeat(32) + "\n", DOC, 1, 0);
}

#[test]
fn which_line_and_before_what() {
    refused("/g/self::g\n/a::b\n", DOC, 2, 2);
    refused(format!("/{}\n/a::b\n", "a".repeat(256)), DOC, 3, 1);
    refused(format!("/a::b\n/{}\n", "a".repeat(256)), DOC, 2, 1);
    refused("/self::v\n".repeat(32) + "/a::b\n", DOC, 3, 33);
    refused("//self::p\n", b"\xFF", 2, 1);
    refused("/child::p\n", "", 2, 1);
    refused("/::".to_string() + &"a".repeat(8_190) + "\n", DOC, 1, 0);
}
