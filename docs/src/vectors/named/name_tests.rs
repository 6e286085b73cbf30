// How many name tests are tried, document 02, Q-13: "for each element and each step of each line, one exactly when the steps before it can
// be laid so that the step's place would be that element", with the readings R-43 to R-46. A sum has one number for each step of each line,
// in the list's order; steps that are nowhere tried are left out at its end.

use super::{kept, refused, Named};

/// Four elements: `g`, under it `p` and `v`, under `p` another `v`.
const FOUR: &str = "<g><p><v/></p><v/></g>";
const FOUR_WRITTEN: &str = "<g><p><v></v></p><v></v></g>";

/// Seven elements. By their names from the root: a, ab, aba, abab, abc, aa, aaa.
const SEVEN: &str = "<a><b><a><b/></a><c/></b><a><a/></a></a>";
const SEVEN_WRITTEN: &str = "<a><b><a><b></b></a><c></c></b><a><a></a></a></a>";

pub fn all() -> Vec<Named> {
    let mut cases = child();
    cases.extend(descendant());
    cases.extend(itself());
    cases.extend(below());
    cases.extend(first());
    cases.extend(stars());
    cases.extend(layings());
    cases.extend(many());
    cases.extend(lines());
    cases.extend(marks());
    cases.extend(elements());
    cases.extend(attributes());
    cases.extend(bound());
    cases.extend(rooms());
    cases.extend(none());
    cases.extend(longest());
    cases
}

/// So many start tags and as many end tags.
fn nest(name: &str, levels: usize) -> String {
    format!("{}{}", format!("<{name}>").repeat(levels), format!("</{name}>").repeat(levels))
}

/// The first at the root; another at the children of what fits.
fn child() -> Vec<Named> {
    vec![
        kept("/g\n", FOUR, "<g></g>", 1).tried(1),
        kept("/x\n", FOUR, "<g></g>", 0).tried(1),
        kept("/g/p\n", FOUR, "<g><p></p></g>", 1).tried(1 + 2),
        kept("/g/x\n", FOUR, "<g></g>", 0).tried(1 + 2),
        kept("/x/p\n", FOUR, "<g></g>", 0).tried(1),
        kept("/g/p/v\n", FOUR, "<g><p><v></v></p></g>", 1).tried(1 + 2 + 1),
        kept("/g/v/v\n", FOUR, "<g></g>", 0).tried(1 + 2),
        kept("/g/p/v/v\n", FOUR, "<g></g>", 0).tried(1 + 2 + 1),
        kept("/a/b/c\n", SEVEN, "<a><b><c></c></b></a>", 1).tried(1 + 2 + 2),
        kept("/a/b/a/b\n", SEVEN, "<a><b><a><b></b></a></b></a>", 1).tried(1 + 2 + 2 + 1),
        kept("/b/a\n", SEVEN, "<a></a>", 0).tried(1),
    ]
}

/// The first at every element; another at all that is below what fits.
fn descendant() -> Vec<Named> {
    vec![
        kept("//v\n", FOUR, FOUR_WRITTEN, 2).tried(4),
        kept("//x\n", FOUR, "<g></g>", 0).tried(4),
        kept("//p/v\n", FOUR, "<g><p><v></v></p></g>", 1).tried(4 + 1),
        kept("//v/v\n", FOUR, "<g></g>", 0).tried(4),
        kept("/g//v\n", FOUR, FOUR_WRITTEN, 2).tried(1 + 3),
        kept("//g//p//v\n", FOUR, "<g><p><v></v></p></g>", 1).tried(4 + 3 + 1),
        kept("//x//v\n", FOUR, "<g></g>", 0).tried(4),
        // Children of a, aba and aa; aaa has none.
        kept("//a/b\n", SEVEN, "<a><b><a><b></b></a></b></a>", 2).tried(7 + 4),
        // Below ab: aba, abab, abc. Below abab nothing.
        kept("//b//b\n", SEVEN, "<a><b><a><b></b></a></b></a>", 1).tried(7 + 3),
        kept("//c//a\n", SEVEN, "<a></a>", 0).tried(7),
    ]
}

/// Where the step before can end.
fn itself() -> Vec<Named> {
    vec![
        kept("/g/self::g\n", FOUR, "<g></g>", 1).tried(1 + 1),
        kept("/g/self::x\n", FOUR, "<g></g>", 0).tried(1 + 1),
        kept("/x/self::g\n", FOUR, "<g></g>", 0).tried(1),
        kept("//v/self::v\n", FOUR, FOUR_WRITTEN, 2).tried(4 + 2),
        kept("/g/*/self::p/v\n", FOUR, "<g><p><v></v></p></g>", 1).tried(1 + 2 + 2 + 1),
        kept("/g/self::x/p\n", FOUR, "<g></g>", 0).tried(1 + 1),
        kept("//*/self::v/self::v/self::p\n", FOUR, "<g></g>", 0).tried(4 + 4 + 2 + 2),
        kept("/a/a/self::a/a\n", SEVEN, "<a><a><a></a></a></a>", 1).tried(1 + 2 + 1 + 1),
        kept("/a/*/self::b/*\n", SEVEN, "<a><b><a></a><c></c></b></a>", 2).tried(1 + 2 + 2 + 2),
    ]
}

/// Descendant-or-self: where the step before can end, and all that is below.
fn below() -> Vec<Named> {
    vec![
        kept("/g/descendant-or-self::v\n", FOUR, FOUR_WRITTEN, 2).tried(1 + 4),
        kept("//p/descendant-or-self::x\n", FOUR, "<g></g>", 0).tried(4 + 2),
        kept("//v/descendant-or-self::x\n", FOUR, "<g></g>", 0).tried(4 + 2),
        kept("/x/descendant-or-self::g\n", FOUR, "<g></g>", 0).tried(1),
        kept("/g/descendant-or-self::p/x\n", FOUR, "<g></g>", 0).tried(1 + 4 + 1),
        kept("/g/descendant-or-self::p/self::p\n", FOUR, "<g><p></p></g>", 1).tried(1 + 4 + 1),
        // ab and all below it, among which is abab.
        kept("//b/descendant-or-self::a\n", SEVEN, "<a><b><a></a></b></a>", 1).tried(7 + 4),
        // It ends at ab and at abab, which has no children.
        kept("//b/descendant-or-self::b/a\n", SEVEN, "<a><b><a></a></b></a>", 1).tried(7 + 4 + 2),
    ]
}

/// A first step self is never tried, nor what follows; a first step descendant-or-self is tried as `//`.
fn first() -> Vec<Named> {
    vec![
        kept("/self::g\n", FOUR, "<g></g>", 0).tried(0),
        kept("/self::*\n", FOUR, "<g></g>", 0).tried(0),
        kept("/self::g/p\n", FOUR, "<g></g>", 0).tried(0),
        kept("/self::*//v #\n", FOUR, "<g></g>", 0).tried(0),
        kept("/self::g/self::g\n", FOUR, "<g></g>", 0).tried(0),
        kept("/self::*/descendant-or-self::*\n", FOUR, "<g></g>", 0).tried(0),
        kept(format!("{}\n", "/self::*".repeat(16)), FOUR, "<g></g>", 0).tried(0),
        kept("/self::*\n".repeat(32), FOUR, "<g></g>", 0).tried(0),
        kept("/self::a/b\n//c\n", SEVEN, "<a><b><c></c></b></a>", 1).tried(7),
        kept("/descendant-or-self::v\n", FOUR, FOUR_WRITTEN, 2).tried(4),
        kept("/descendant-or-self::p/v\n", FOUR, "<g><p><v></v></p></g>", 1).tried(4 + 1),
        kept("/descendant-or-self::g/self::g\n", FOUR, "<g></g>", 1).tried(4 + 1),
        kept("/descendant-or-self::b//b\n", SEVEN, "<a><b><a><b></b></a></b></a>", 1).tried(7 + 3),
    ]
}

fn stars() -> Vec<Named> {
    vec![
        kept("/*\n", FOUR, "<g></g>", 1).tried(1),
        kept("//*\n", FOUR, FOUR_WRITTEN, 4).tried(4),
        kept("/*/*/*\n", FOUR, "<g><p><v></v></p></g>", 1).tried(1 + 2 + 1),
        kept("//*//*//*//*\n", FOUR, "<g></g>", 0).tried(4 + 3 + 1),
        kept("/*/self::*/descendant-or-self::*\n", FOUR, FOUR_WRITTEN, 4).tried(1 + 1 + 4),
        kept("//*/*/*\n", SEVEN, SEVEN_WRITTEN, 4).tried(7 + 6 + 4),
        kept("//*/self::*//*\n", SEVEN, SEVEN_WRITTEN, 6).tried(7 + 7 + 6),
        kept("/*\n", "<a::b/>", "<a::b></a::b>", 1).tried(1),
    ]
}

/// One for an element and a step, however many layings there are.
fn layings() -> Vec<Named> {
    vec![
        kept("//a//a\n", nest("a", 3), nest("a", 3), 2).tried(3 + 2),
        kept("//a//a//a\n", nest("a", 4), nest("a", 4), 2).tried(4 + 3 + 2),
        kept("//a//a/a\n", nest("a", 5), nest("a", 5), 3).tried(5 + 4 + 3),
        kept(format!("{}\n", "/descendant-or-self::a".repeat(3)), nest("a", 3), nest("a", 3), 3).tried(3 * 3),
        kept("//a/descendant-or-self::a/self::a\n", nest("a", 4), nest("a", 4), 4).tried(4 * 3),
        kept("//a//a\n", SEVEN, "<a><b><a></a></b><a><a></a></a></a>", 3).tried(7 + 6),
        // `//a//a` ends at aba, aa and aaa; below these are abab and aaa.
        kept("//a//a//a\n", SEVEN, "<a><a><a></a></a></a>", 1).tried(7 + 6 + 2),
        // `//a/b` ends at ab and abab; below ab are aba, abab and abc.
        kept("//a/b//b\n", SEVEN, "<a><b><a><b></b></a></b></a>", 1).tried(7 + 4 + 3),
        kept("//a/b/descendant-or-self::b\n", SEVEN, "<a><b><a><b></b></a></b></a>", 2).tried(7 + 4 + 4),
    ]
}

/// The most steps, and the most levels.
fn many() -> Vec<Named> {
    let down = format!("{}\n", "/a".repeat(16));
    let other = format!("/a/self::a/self::b{}\n", "/self::a".repeat(13));
    vec![
        kept(&down, nest("a", 64), nest("a", 16), 1).tried(16),
        kept(&down, nest("a", 16), nest("a", 16), 1).tried(16),
        kept(&down, nest("a", 15), nest("a", 1), 0).tried(15),
        kept(&down, "<a/>", "<a></a>", 0).tried(1),
        // Step j at the places j to 64, then to 17: 64 + ... + 49, 17 + ... + 2.
        kept(format!("{}\n", "//a".repeat(16)), nest("a", 64), nest("a", 64), 49).tried((64 + 49) * 16 / 2),
        kept(format!("{}\n", "//*".repeat(16)), nest("b", 17), nest("b", 17), 2).tried((17 + 2) * 16 / 2),
        kept(format!("/a{}\n", "/self::a".repeat(15)), nest("a", 64), "<a></a>", 1).tried(1 + 15),
        kept(other, nest("a", 64), "<a></a>", 0).tried(1 + 2),
        kept(format!("{}/descendant-or-self::a\n", "/a".repeat(15)), nest("a", 64), nest("a", 64), 50).tried(15 + 50),
        kept(format!("{}//a\n", "/a".repeat(15)), nest("a", 64), nest("a", 64), 49).tried(15 + 49),
        kept(format!("{}/b\n", "/*".repeat(15)), nest("a", 64), "<a></a>", 0).tried(16),
    ]
}

/// Every line counts by itself, one that stands there twice too.
fn lines() -> Vec<Named> {
    vec![
        kept("//v\n//v\n", FOUR, FOUR_WRITTEN, 2).tried(4 + 4),
        kept("//v\n".repeat(32), FOUR, FOUR_WRITTEN, 2).tried(4 * 32),
        kept("/g/p/v\n/g/p/x\n/g/p\n", FOUR, "<g><p><v></v></p></g>", 2).tried((1 + 2 + 1) + (1 + 2 + 1) + (1 + 2)),
        kept("/x\n/g\n/self::g\n//p/v\n", FOUR, "<g><p><v></v></p></g>", 2).tried(1 + 1 + (4 + 1)),
        kept("//v\n/descendant-or-self::v\n", FOUR, FOUR_WRITTEN, 2).tried(4 + 4),
        kept(format!("{}//v\n", "/x\n".repeat(31)), FOUR, FOUR_WRITTEN, 2).tried(31 + 4),
    ]
}

/// A mark changes nothing, and the count is taken inside what is kept by one.
fn marks() -> Vec<Named> {
    vec![
        kept("//v #\n", FOUR, FOUR, 2).tried(4),
        kept("//v\n//v #\n", FOUR, FOUR, 2).tried(4 + 4),
        kept("/g #\n", FOUR, FOUR, 1).tried(1),
        kept("/g #\n//v\n", FOUR, FOUR, 3).tried(1 + 4),
        kept("/g #\n/g/p/v\n", FOUR, FOUR, 2).tried(1 + (1 + 2 + 1)),
        kept("//p #\n//p/v/x\n", FOUR, "<g><p><v/></p></g>", 1).tried(4 + (4 + 1)),
        kept("//* #\n", FOUR, FOUR, 4).tried(4),
        kept("/a/b #\n//b/a/b #\n", SEVEN, "<a><b><a><b/></a><c/></b></a>", 2).tried((1 + 2) + (7 + 2 + 1)),
        kept("/a/b/c\n/a/b/c\n/a/b/a/b #\n", SEVEN, "<a><b><a><b/></a><c></c></b></a>", 2).tried(5 + 5 + (1 + 2 + 2 + 1)),
    ]
}

/// What no path can reach, what stands behind an end tag, and what is no element.
fn elements() -> Vec<Named> {
    let doc = "<x><y><z/><z/></y><y/></x>";
    let back = "<g><p><q><v/></q><v/></p><v/><q><v/></q></g>";
    let items = "<?xml version='1.0'?><!--a--><g k='v'>t<?p?>&amp;<![CDATA[<v/>]]><v></v ><!--<v/>--></g>\n";
    let accents = "<g><\u{e9}><x/></\u{e9}><e\u{301}><x/></e\u{301}></g>";
    vec![
        kept("/g/p/v\n", doc, "<x></x>", 0).tried(1),
        kept("/x/q//z\n", doc, "<x></x>", 0).tried(1 + 2),
        kept("/x/y/z//y\n", doc, "<x></x>", 0).tried(1 + 2 + 2),
        kept("//z//*\n", doc, "<x></x>", 0).tried(5),
        kept("/g/p/v\n", back, "<g><p><v></v></p></g>", 1).tried(1 + 3 + 2),
        kept("//q/v\n", back, "<g><p><q><v></v></q></p><q><v></v></q></g>", 2).tried(8 + 2),
        kept("//*\n", items, "<g k='v'><v></v></g>", 2).tried(2),
        kept("/g/v\n", "\u{feff}<g>\n<v/> <v l=''/>\n</g>", "<g><v></v><v l=''></v></g>", 2).tried(1 + 2),
        kept("//\u{e9}/x\n", accents, "<g><\u{e9}><x></x></\u{e9}></g>", 1).tried(5 + 1),
        kept("//e\u{301}/x\n", accents, "<g><e\u{301}><x></x></e\u{301}></g>", 1).tried(5 + 1),
        kept("//e/x\n", accents, "<g></g>", 0).tried(5),
    ]
}

/// Tests of an attribute change nothing, passed or not.
fn attributes() -> Vec<Named> {
    let doc = "<g k='1'><p k='1'><v k='2'/></p><v/></g>";
    vec![
        kept("//v\n", doc, "<g><p><v k='2'></v></p><v></v></g>", 2).tried(4),
        kept("//v[@k=\"2\"]\n", doc, "<g><p><v k='2'></v></p></g>", 1).tried(4),
        kept("//v[@k=\"1\"]\n", doc, "<g></g>", 0).tried(4),
        kept("//v[@k=\"\"]\n", doc, "<g></g>", 0).tried(4),
        kept("/g/p[@k=\"1\"] #\n", doc, "<g><p k='1'><v k='2'/></p></g>", 1).tried(1 + 2),
        kept("/g/p[@l=\"1\"] #\n", doc, "<g></g>", 0).tried(1 + 2),
        kept("//*/self::*[@k=\"1\"]\n", doc, "<g k='1'><p k='1'></p></g>", 2).tried(4 + 4),
        kept("//v[@k=\"1\"]\n//v[@k=\"2\"]\n", doc, "<g><p><v k='2'></v></p></g>", 1).tried(4 + 4),
        kept("/self::g[@k=\"1\"]\n", doc, "<g></g>", 0).tried(0),
    ]
}

/// Each step at each element: the most there can be.
fn bound() -> Vec<Named> {
    let full = format!("//*{}\n", "/self::*".repeat(15)).repeat(32);
    let wide = format!("<g>{}</g>", "<v/>".repeat(999));
    let wide_written = format!("<g>{}</g>", "<v></v>".repeat(999));
    vec![
        kept("//*\n".repeat(32), FOUR, FOUR_WRITTEN, 4).tried(4 * 32),
        kept(format!("{}\n", "/descendant-or-self::*".repeat(16)), SEVEN, SEVEN_WRITTEN, 7).tried(7 * 16),
        kept(&full, "<g/>", "<g></g>", 1).tried(512),
        kept(&full, nest("a", 64), nest("a", 64), 64).tried(64 * 512),
        kept(&full, wide, wide_written, 1_000).tried(1_000 * 512),
    ]
}

/// With the cut's room and more; none under 9, however little is missing.
fn rooms() -> Vec<Named> {
    vec![
        kept("//v\n", FOUR, FOUR_WRITTEN, 2).tried(4).room(28),
        kept("//v\n", FOUR, FOUR_WRITTEN, 2).tried(4).room(29),
        kept("//v\n", FOUR, FOUR_WRITTEN, 2).tried(4).room(1_000),
        refused("//v\n", FOUR, 9, 28).room(27),
        refused("//v\n", FOUR, 9, 28).room(1),
        refused("//v\n", FOUR, 9, 28).room(0),
        refused("//*\n".repeat(32), FOUR, 9, 28).room(27),
        refused("/g #\n//v\n", FOUR, 9, 22).room(21),
    ]
}

/// No line, and every other refusal that a case can have.
fn none() -> Vec<Named> {
    vec![
        kept("", "<g/>", "<g></g>", 0).tried(0),
        kept("", FOUR, "<g></g>", 0).tried(0),
        refused("//*\n".repeat(2_049), FOUR, 1, 0),
        refused("//*\nv\n", FOUR, 2, 2),
        refused("//*\n".repeat(33), FOUR, 3, 33),
        refused(format!("/g{}\n", "/self::g".repeat(16)), FOUR, 3, 1),
        refused("//*\n", b"<g><v/>\xff</g>", 5, 7),
        refused("//*\n", "<g><v/><!DOCTYPE g></g>", 6, 7),
        refused("//*\n", "<g><v/></h>", 7, 7),
        refused("//*\n", "<g><v/>", 7, 7),
        refused("//*\n", "<a>".repeat(65), 8, 192),
        refused("//*\n", "<?xml version='1.0' encoding='x'?><g/>", 10, 0),
    ]
}

/// "a cut of an accepted document of n bytes has at most 2 × n − 1 bytes": so many has the cut of one empty tag.
fn longest() -> Vec<Named> {
    let name = "n".repeat(255);
    vec![
        kept("", "<g/>", "<g></g>", 0).tried(0).room(7),
        kept("//g\n", "<g/>", "<g></g>", 1).tried(1).room(7),
        kept("", format!("<{name}/>"), format!("<{name}></{name}>"), 0).tried(0).room(515),
        kept("/*\n", format!("<{name}/>"), format!("<{name}></{name}>"), 1).tried(1).room(515),
        refused("/*\n", format!("<{name}/>"), 9, 515).room(514),
    ]
}
