//! What self and descendant-or-self steps select, document 02, Q-6: "Self takes the same place as the step before,
//! descendant-or-self that place or any below; place 0 is no element, so no step takes it." With reading R-22. How such
//! lines read is in `axes`.

use super::{cut_of, kept};

#[test]
fn self_steps() {
    let doc = "<g k='1'><g k='2'/><h/></g>";
    kept("/g/self::g\n", doc, "<g k='1'></g>", 1);
    kept("/g/self::*\n", doc, "<g k='1'></g>", 1);
    kept("/*/self::g\n", doc, "<g k='1'></g>", 1);
    kept("/g/self::h\n", doc, "<g></g>", 0);
    kept("//g/self::g\n", doc, "<g k='1'><g k='2'></g></g>", 2);
    kept("/g/g/self::g\n", doc, "<g><g k='2'></g></g>", 1);
    kept("/g/self::g/g\n", doc, "<g><g k='2'></g></g>", 1);
    kept("/g/self::g/self::*/h\n", doc, "<g><h></h></g>", 1);
    kept("//*/self::h\n", doc, "<g><h></h></g>", 1);
    kept("/g/h/self::h/self::g\n", doc, "<g></g>", 0);
}

#[test]
fn reading_r_22_self_as_the_first_step() {
    let doc = "<g><g/><h/></g>";
    for list in ["/self::g\n", "/self::*\n", "/self::g/g\n", "/self::*//h\n", "/self::*/descendant-or-self::g #\n"] {
        kept(list, doc, "<g></g>", 0);
    }
    kept("/self::g #\n//h\n", doc, "<g><h></h></g>", 1);
}

#[test]
fn reading_r_22_descendant_or_self_as_the_first_step() {
    let doc = "<g k='1'><g k='2'/><h><g/></h></g>";
    for list in ["//g\n", "/descendant-or-self::g\n"] {
        kept(list, doc, "<g k='1'><g k='2'></g><h><g></g></h></g>", 3);
    }
    kept("/descendant-or-self::h/g\n", doc, "<g><h><g></g></h></g>", 1);
    kept("/descendant-or-self::*\n", doc, "<g k='1'><g k='2'></g><h><g></g></h></g>", 4);
    kept("/descendant-or-self::x\n", doc, "<g></g>", 0);
}

#[test]
fn descendant_or_self_steps() {
    // Places 1 to 4 are `a`, `b`, `a`, `b`.
    let doc = "<a><b><a><b/></a></b></a>";
    let (third, fourth) = ("<a><b><a></a></b></a>", "<a><b><a><b></b></a></b></a>");
    kept("//a//a\n", doc, third, 1);
    kept("//a/descendant-or-self::a\n", doc, third, 2);
    kept("/a/descendant-or-self::a\n", doc, third, 2);
    kept("/a/descendant-or-self::b\n", doc, fourth, 2);
    kept("/a/b/descendant-or-self::b\n", doc, fourth, 2);
    kept("/a/b/descendant-or-self::a\n", doc, third, 1);
    kept("//b/descendant-or-self::a/b\n", doc, fourth, 1);
    kept("//a//*/descendant-or-self::a\n", doc, third, 1);
    kept("//a/descendant-or-self::*//a\n", doc, third, 1);
    kept("/descendant-or-self::b/self::a\n", doc, "<a></a>", 0);
    kept("/descendant-or-self::a/descendant-or-self::b/self::*\n", doc, fourth, 2);
}

#[test]
fn places_may_repeat() {
    let doc = "<a><a><a/></a></a>";
    let all = "<a><a><a></a></a></a>";
    kept("//a//a//a//a\n", doc, "<a></a>", 0);
    kept("/descendant-or-self::a".repeat(4) + "\n", doc, all, 3);
    kept("/a/self::a/descendant-or-self::a/self::a\n", doc, all, 3);
    kept("//a/descendant-or-self::a/a\n", doc, all, 2);
    kept("//a/a/descendant-or-self::a\n", doc, all, 2);
    kept("/a/descendant-or-self::a//a\n", doc, all, 2);
    kept("/a/a/self::a/a\n", doc, all, 1);
    kept("/a/a/self::a\n", doc, "<a><a></a></a>", 1);
}

#[test]
fn choices_taken_back() {
    // The `b` under `c` has no `a` directly above it.
    let doc = "<a><b/><c><a><b/></a><b/></c></a>";
    kept("//a/self::*/self::a/b\n", doc, "<a><b></b><c><a><b></b></a></c></a>", 2);
    // Only the inner `b` has an `a` above it; the outer one is above all `a`.
    let doc = "<b><c/><a><c/><b><c/><x><c/></x></b></a></b>";
    kept("//a/descendant-or-self::b/c\n", doc, "<b><a><b><c></c></b></a></b>", 1);
    // `*` may stay at the first `a`, at the second, or go to `b`: only the last has `c` as its child.
    kept("/a/descendant-or-self::*/c\n", "<a><a><b><c/></b></a></a>", "<a><a><b><c></c></b></a></a>", 1);
    // The state is the parent's again behind an end tag.
    kept("/g/descendant-or-self::p/v\n", "<g><p/><v/><p><v/></p></g>", "<g><p><v></v></p></g>", 1);
}

#[test]
fn marks_on_these_steps() {
    let doc = "<g>s<v k='1'>t<n>u</n></v><n>w</n></g>";
    kept("//v/self::v #\n", doc, "<g><v k='1'>t<n>u</n></v></g>", 1);
    kept("//*/self::n #\n//v\n", doc, "<g><v k='1'><n>u</n></v><n>w</n></g>", 3);
    kept("/g/descendant-or-self::n\n", doc, "<g><v><n></n></v><n></n></g>", 2);
    kept("/g/descendant-or-self::* #\n", doc, doc, 4);
    kept("//v/descendant-or-self::*\n", doc, "<g><v k='1'><n></n></v></g>", 2);
    kept("//v/descendant-or-self::* #\n", doc, "<g><v k='1'>t<n>u</n></v></g>", 2);
    // The same elements by two paths, once marked: marked wins.
    kept("//v\n//v/self::v #\n", doc, "<g><v k='1'>t<n>u</n></v></g>", 1);
}

#[test]
fn many_of_these_steps_on_the_deepest_chain() {
    let chain = "<a>".repeat(64) + &"</a>".repeat(64);
    kept("/a".to_string() + &"/self::a".repeat(15) + "\n", &chain, "<a></a>", 1);
    kept("//a".to_string() + &"/self::a".repeat(15) + "\n", &chain, &chain, 64);
    kept("/descendant-or-self::a".repeat(16) + "\n", &chain, &chain, 64);
    kept("/a".repeat(15) + "/descendant-or-self::a\n", &chain, &chain, 50);
}

#[test]
fn a_cut_of_a_wider_cut_is_the_narrow_cut() {
    let doc = "<g k='0'> <p k='1'>x<v k='2'>y<n/></v ></p><!--c--><v/><q><p/></q></g>";
    let narrow = "//p/self::p/v #\n/g/descendant-or-self::q\n";
    let wide = "//v\n//p\n/g/descendant-or-self::q #\n//p/self::p/v #\n";
    let (wide_cut, _) = cut_of(wide, doc);
    let expected = "<g><p><v k='2'>y<n/></v ></p><q></q></g>";
    kept(narrow, doc, expected, 2);
    kept(narrow, wide_cut, expected, 2);
}
