//! What paths select: child and descendant steps, `*`, choices that must be taken back, and the count. The last test is
//! the request's third demand on one document.

use super::{cut_of, kept};

#[test]
fn the_first_step() {
    let doc = "<g a='1'><g a='2'/></g>";
    kept("/g\n", doc, "<g a='1'></g>", 1);
    kept("//g\n", doc, "<g a='1'><g a='2'></g></g>", 2);
    kept("/*\n", doc, "<g a='1'></g>", 1);
    kept("/h\n", doc, "<g></g>", 0);
}

#[test]
fn child_steps() {
    let doc = "<g><p><v/></p><v/><q><p><v/></p></q></g>";
    kept("/g/p/v\n", doc, "<g><p><v></v></p></g>", 1);
    kept("/g/v\n", doc, "<g><v></v></g>", 1);
    kept("/*/*\n", doc, "<g><p></p><v></v><q></q></g>", 3);
    kept("/*/*/*\n", doc, "<g><p><v></v></p><q><p></p></q></g>", 2);
    kept("/p/v\n", doc, "<g></g>", 0);
    kept("/g/p/v/v\n", doc, "<g></g>", 0);
}

#[test]
fn descendant_steps() {
    let doc = "<g><p><v/></p><v/><q><p><v/></p></q></g>";
    kept("/g//v\n", doc, "<g><p><v></v></p><v></v><q><p><v></v></p></q></g>", 3);
    kept("/g//p/v\n", doc, "<g><p><v></v></p><q><p><v></v></p></q></g>", 2);
    kept("//q//v\n", doc, "<g><q><p><v></v></p></q></g>", 1);
    kept("//q/v\n", doc, "<g></g>", 0);
    kept("//*//*//*//*\n", doc, "<g><q><p><v></v></p></q></g>", 1);
    kept("//g//g\n", doc, "<g></g>", 0);
}

#[test]
fn a_step_stands_at_least_one_place_below() {
    let doc = "<a><a><a/></a></a>";
    kept("//a//a\n", doc, "<a><a><a></a></a></a>", 2);
    kept("//a//a//a\n", doc, "<a><a><a></a></a></a>", 1);
    kept("//a//a//a//a\n", doc, "<a></a>", 0);
    kept("/a/a\n", doc, "<a><a></a></a>", 1);
    kept("//a/a\n", doc, "<a><a><a></a></a></a>", 2);
}

#[test]
fn choices_taken_back() {
    // The lower `v` has `v` directly above it; the middle one has `x`.
    kept("/g//v/v\n", "<g><v><x><v><v/></v></x></v></g>", "<g><v><x><v><v></v></v></x></v></g>", 1);
    // Only the upper `a` has `b` as its child, only the lower one is nearest to `c`.
    kept("//a/b//c\n", "<a><b><a><c/></a></b></a>", "<a><b><a><c></c></a></b></a>", 1);
    // Only the lower `a` has `b` as its child.
    kept("//a/b//c\n", "<a><x><a><b><c/></b></a></x></a>", "<a><x><a><b><c></c></b></a></x></a>", 1);
    kept("//a/*/a/b\n", "<a><a><a><a><b/></a></a></a></a>", "<a><a><a><a><b></b></a></a></a></a>", 1);
    kept("/a/*/a/b\n", "<a><a><a><a><b/></a></a></a></a>", "<a></a>", 0);
}

#[test]
fn names_are_equal_when_their_bytes_are() {
    let doc = "<g><v/><V/><vv/><p:v/><v.1/></g>";
    kept("//v\n", doc, "<g><v></v></g>", 1);
    kept("//V\n", doc, "<g><V></V></g>", 1);
    kept("//p:v\n", doc, "<g><p:v></p:v></g>", 1);
    kept("//v.1\n", doc, "<g><v.1></v.1></g>", 1);
    kept("/g/*\n", doc, "<g><v></v><V></V><vv></vv><p:v></p:v><v.1></v.1></g>", 5);
}

#[test]
fn the_count_is_of_elements() {
    kept("//v\n//*\n/g/v #\n", "<g><v><v/></v></g>", "<g><v><v/></v></g>", 3);
    kept("//v #\n//x\n", "<g><v><w><x/><x/></w></v><x/></g>", "<g><v><w><x/><x/></w></v><x></x></g>", 4);
}

#[test]
fn the_deepest_path_on_the_deepest_chain() {
    let chain = "<a>".repeat(64) + &"</a>".repeat(64);
    kept("//a".repeat(16) + "\n", &chain, &chain, 49);
    kept("/a".repeat(15) + "//a\n", &chain, &chain, 49);
}

#[test]
fn a_cut_of_a_wider_cut_is_the_narrow_cut() {
    let doc = "<g k='0'> <p k='1'>x<v k='2'>y<n/></v ></p><!--c--><v/><q><p/></q></g>";
    let (narrow, wide) = ("//p/v #\n//q\n", "//v\n//p\n//q #\n//p/v #\n");
    let (wide_cut, _) = cut_of(wide, doc);
    let expected = "<g><p><v k='2'>y<n/></v ></p><q></q></g>";
    kept(narrow, doc, expected, 2);
    kept(narrow, wide_cut, expected, 2);
}
