// What self and descendant-or-self steps select, document 02, Q-6: "Self takes the same place as the step before, descendant-or-self that
// place or any below; place 0 is no element, so no step takes it. Places may now repeat". With the reading R-22, and demand 3 with such
// steps. How such lines read is in axes.rs.

use super::{kept, refused, Named};

pub fn all() -> Vec<Named> {
    let mut cases = itself();
    cases.extend(first());
    cases.extend(below());
    cases.extend(repeated());
    cases.extend(many());
    cases.extend(back());
    cases.extend(marks());
    cases.extend(narrower());
    cases
}

/// So many start tags and as many end tags.
fn nest(name: &str, levels: usize) -> String {
    format!("{}{}", format!("<{name}>").repeat(levels), format!("</{name}>").repeat(levels))
}

fn itself() -> Vec<Named> {
    let doc = "<g><p><v/></p><v/></g>";
    vec![
        kept("/g/self::g\n", doc, "<g></g>", 1),
        kept("/g/self::h\n", doc, "<g></g>", 0),
        kept("/g/self::*\n", doc, "<g></g>", 1),
        kept("/*/self::g\n", doc, "<g></g>", 1),
        kept("/*/self::v\n", doc, "<g></g>", 0),
        kept("/g/p/self::p\n", doc, "<g><p></p></g>", 1),
        kept("/g/self::g/v\n", doc, "<g><v></v></g>", 1),
        kept("/g/self::p/v\n", doc, "<g></g>", 0),
        kept("/g/p/self::g\n", doc, "<g></g>", 0),
        kept("/g/self::g/p/self::p/v/self::v\n", doc, "<g><p><v></v></p></g>", 1),
        kept("//v/self::v\n", doc, "<g><p><v></v></p><v></v></g>", 2),
        kept("//v/self::*/self::v/self::*\n", doc, "<g><p><v></v></p><v></v></g>", 2),
        kept("//*/self::v\n", doc, "<g><p><v></v></p><v></v></g>", 2),
        kept("/g//v/self::v\n", doc, "<g><p><v></v></p><v></v></g>", 2),
        kept("//p/*/self::v\n", doc, "<g><p><v></v></p></g>", 1),
        kept("//p/self::v\n", doc, "<g></g>", 0),
        kept("/g/*/self::*\n", doc, "<g><p></p><v></v></g>", 2),
        kept("/g/*/self::p/v\n", doc, "<g><p><v></v></p></g>", 1),
        kept("/g/*/self::v/v\n", doc, "<g></g>", 0),
        kept("//a/self::*/self::a/b\n", "<a><b/><c><a><b/></a><b/></c></a>", "<a><b></b><c><a><b></b></a></c></a>", 2),
        kept("//a/*/self::a/b\n", "<a><a><b/></a><c><b/></c></a>", "<a><a><b></b></a></a>", 1),
    ]
}

/// A first step self is never laid, nor is what follows it; a first step descendant-or-self is as `//`.
fn first() -> Vec<Named> {
    let doc = "<g><g/><p><g/></p></g>";
    let all = "<g><g></g><p><g></g></p></g>";
    vec![
        kept("/self::g\n", doc, "<g></g>", 0),
        kept("/self::* #\n", doc, "<g></g>", 0),
        kept("/self::g/g\n", doc, "<g></g>", 0),
        kept("/self::*//g\n", doc, "<g></g>", 0),
        kept("/self::*/self::g\n", doc, "<g></g>", 0),
        kept("/self::*/descendant-or-self::*\n", doc, "<g></g>", 0),
        kept("/self::g\n/g\n", doc, "<g></g>", 1),
        kept("/self::g #\n/descendant-or-self::p #\n", doc, "<g><p><g/></p></g>", 1),
        kept("//g\n", doc, all, 3),
        kept("/descendant-or-self::g\n", doc, all, 3),
        kept("/descendant-or-self::g/self::g\n", doc, all, 3),
        kept("/descendant-or-self::*\n", doc, all, 4),
        kept("/descendant-or-self::p\n", doc, "<g><p></p></g>", 1),
        kept("/descendant-or-self::p/g\n", doc, "<g><p><g></g></p></g>", 1),
        kept("/descendant-or-self::g/g\n", doc, "<g><g></g></g>", 1),
        kept("/descendant-or-self::*/self::*/g\n", doc, all, 2),
    ]
}

fn below() -> Vec<Named> {
    let doc = "<a><c/><b><a/><c><b/></c></b></a>";
    let all = "<a><c></c><b><a></a><c><b></b></c></b></a>";
    vec![
        kept("//a/descendant-or-self::a\n", doc, "<a><b><a></a></b></a>", 2),
        kept("//a//a\n", doc, "<a><b><a></a></b></a>", 1),
        kept("/a/descendant-or-self::*\n", doc, all, 6),
        kept("/a//*\n", doc, all, 5),
        kept("/a/b/descendant-or-self::b\n", doc, "<a><b><c><b></b></c></b></a>", 2),
        kept("/a/descendant-or-self::b/c\n", doc, "<a><b><c></c></b></a>", 1),
        kept("/a/descendant-or-self::a/c\n", doc, "<a><c></c></a>", 1),
        kept("//b/descendant-or-self::c/b\n", doc, "<a><b><c><b></b></c></b></a>", 1),
        kept("//b/descendant-or-self::*/descendant-or-self::c\n", doc, "<a><b><c></c></b></a>", 1),
        kept("//c/descendant-or-self::b\n", doc, "<a><b><c><b></b></c></b></a>", 1),
        kept("//c/descendant-or-self::a\n", doc, "<a></a>", 0),
        kept("/b/descendant-or-self::b\n", doc, "<a></a>", 0),
        kept("//b/descendant-or-self::a/descendant-or-self::b\n", doc, "<a></a>", 0),
        kept("/descendant-or-self::a/descendant-or-self::b/descendant-or-self::c\n", doc, "<a><b><c></c></b></a>", 1),
        kept("/a/descendant-or-self::b/self::c\n", doc, "<a></a>", 0),
        kept("/a/descendant-or-self::*/self::c\n", doc, "<a><c></c><b><c></c></b></a>", 2),
    ]
}

/// Nested same names, on which steps may share a place or part.
fn repeated() -> Vec<Named> {
    let doc = "<a><a><b><a/></b></a></a>";
    vec![
        kept(format!("{}\n", "/descendant-or-self::a".repeat(3)), nest("a", 3), nest("a", 3), 3),
        kept("//a//a//a\n", nest("a", 3), nest("a", 3), 1),
        kept(format!("{}\n", "/descendant-or-self::a".repeat(16)), nest("a", 2), nest("a", 2), 2),
        kept("//a/descendant-or-self::a//a\n", nest("a", 4), nest("a", 4), 3),
        kept("/a/descendant-or-self::a/a\n", nest("a", 4), nest("a", 4), 3),
        kept("/a/a/descendant-or-self::a/a/descendant-or-self::a\n", nest("a", 5), nest("a", 5), 3),
        kept("//a/self::a/a/self::a\n", nest("a", 3), nest("a", 3), 2),
        kept("/a/self::a/self::a/a\n", nest("a", 3), nest("a", 2), 1),
        kept("//a/descendant-or-self::b/descendant-or-self::a\n", doc, "<a><a><b><a></a></b></a></a>", 1),
        kept("//b/descendant-or-self::a/descendant-or-self::b\n", doc, "<a></a>", 0),
        kept("/descendant-or-self::a/a/descendant-or-self::b\n", doc, "<a><a><b></b></a></a>", 1),
    ]
}

fn many() -> Vec<Named> {
    let (down, same, below) = ("/a", "/self::a", "/descendant-or-self::a");
    let other = format!("/a{}\n", "/self::b".repeat(15));
    vec![
        kept(format!("/a{}\n", same.repeat(15)), nest("a", 3), nest("a", 1), 1),
        kept(format!("//a{}\n", "/self::*".repeat(15)), nest("a", 64), nest("a", 64), 64),
        kept(format!("{}/self::a\n", "/*".repeat(15)), nest("a", 17), nest("a", 15), 1),
        kept(format!("{}{below}\n", down.repeat(15)), nest("a", 17), nest("a", 17), 3),
        kept(format!("{}\n", "/descendant-or-self::*".repeat(16)), nest("b", 64), nest("b", 64), 64),
        kept(format!("{}/self::b\n", below.repeat(15)), nest("a", 20), nest("a", 1), 0),
        kept(format!("/a{}{same}\n", "/self::a/a".repeat(7)), nest("a", 9), nest("a", 8), 1),
        kept("/a/self::a\n".repeat(32), nest("a", 2), nest("a", 1), 1),
        kept(format!("{}/a{} #\n", other.repeat(31), same.repeat(15)), nest("a", 2), nest("a", 2), 1),
        kept(other.repeat(32), nest("a", 2), nest("a", 1), 0),
    ]
}

/// At an end tag the places are those of the parent again.
fn back() -> Vec<Named> {
    vec![
        kept("/g/self::g/v\n", "<g><p><v/></p><v/><p/><v/></g>", "<g><v></v><v></v></g>", 2),
        kept("/g/descendant-or-self::p/v\n", "<g><p/><v/><p><v/><x><v/></x><v/></p><v/></g>", "<g><p><v></v><v></v></p></g>", 2),
        kept("//p/descendant-or-self::p/v\n", "<g><p><p><p/></p><v/></p><v/><p><v/></p></g>", "<g><p><v></v></p><p><v></v></p></g>", 2),
        kept("//c/descendant-or-self::d\n", "<a><c/><d/><b><d/></b><c><d/></c><d/></a>", "<a><c><d></d></c></a>", 1),
    ]
}

fn marks() -> Vec<Named> {
    let doc = "<g>s<v>t<n>u</n></v><n>w</n></g>";
    vec![
        kept("//v/self::v #\n", doc, "<g><v>t<n>u</n></v></g>", 1),
        kept("//v/self::n #\n", doc, "<g></g>", 0),
        kept("/g/self::g #\n", doc, doc, 1),
        kept("/g/self::* #\n//n\n", doc, doc, 3),
        kept("/self::g #\n//n\n", doc, "<g><v><n></n></v><n></n></g>", 2),
        kept("/g/descendant-or-self::n #\n", doc, "<g><v><n>u</n></v><n>w</n></g>", 2),
        kept("/g/descendant-or-self::* #\n", doc, doc, 4),
        kept("//v/descendant-or-self::*\n", doc, "<g><v><n></n></v></g>", 2),
        kept("//v/descendant-or-self::* #\n", doc, "<g><v>t<n>u</n></v></g>", 2),
        kept("//v\n//v/self::v #\n", doc, "<g><v>t<n>u</n></v></g>", 1),
        kept("//*/self::n\n/g/n #\n", doc, "<g><v><n></n></v><n>w</n></g>", 2),
        kept("/descendant-or-self::v/n #\n//v\n", doc, "<g><v><n>u</n></v></g>", 2),
        kept("/g/self::g/v\n", doc, "<g><v></v></g>", 1).room(14),
        refused("/g/self::g/v\n", doc, 9, 14).room(13),
    ]
}

/// Demand 3: the wide cut, and each narrow cut of the document and of the wide cut.
fn narrower() -> Vec<Named> {
    let doc = "<g k='0'> <p k='1'>x<v k='2'>y<n/></v ></p><!--c--><v/><q><p/></q></g>";
    let wide = "<g><p k='1'><v k='2'>y<n/></v ></p><v/><q><p/></q></g>";
    let mut cases = vec![kept("//p/self::p\n//v/descendant-or-self::* #\n/g/self::g/q #\n//p/v\n", doc, wide, 6)];
    for from in [doc, wide] {
        cases.push(kept("//p/self::p\n/g/self::g/q\n", from, "<g><p k='1'></p><q><p></p></q></g>", 3));
        cases.push(kept("//v/descendant-or-self::*\n", from, "<g><p><v k='2'><n></n></v></p><v></v></g>", 3));
        cases.push(kept("//v/descendant-or-self::* #\n//p/v\n", from, "<g><p><v k='2'>y<n/></v ></p><v/></g>", 3));
    }
    let doc = "<a k='1'><a k='2'><b/><a>t</a></a><c><a/></c></a>";
    let wide = "<a k='1'><a k='2'><b></b><a></a></a><c><a/></c></a>";
    cases.push(kept("//a/descendant-or-self::a\n//c/a #\n//a/self::a/b\n/self::a\n", doc, wide, 5));
    for from in [doc, wide] {
        cases.push(kept("//a/self::a/b\n/self::a\n", from, "<a><a><b></b></a></a>", 1));
        cases.push(kept("//c/a\n", from, "<a><c><a></a></c></a>", 1));
    }
    cases
}
