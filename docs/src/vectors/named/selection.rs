// What a path selects: child and descendant steps, names and `*`, nested same names, the most steps, and marks. Every cut is of documents
// whose tags have nothing but names, so that what is written shows what is selected.

use super::{kept, Named};

pub fn all() -> Vec<Named> {
    let mut cases = child();
    cases.extend(descendant());
    cases.extend(stars());
    cases.extend(same_names());
    cases.extend(many_steps());
    cases.extend(deep());
    cases.extend(back());
    cases.extend(marks());
    cases.extend(one_length());
    cases
}

/// So many start tags and as many end tags.
fn nest(name: &str, levels: usize) -> String {
    format!("{}{}", format!("<{name}>").repeat(levels), format!("</{name}>").repeat(levels))
}

fn child() -> Vec<Named> {
    let doc = "<g><p><v/></p><v/></g>";
    vec![
        kept("/g\n", doc, "<g></g>", 1),
        kept("/g/v\n", doc, "<g><v></v></g>", 1),
        kept("/g/p\n", doc, "<g><p></p></g>", 1),
        kept("/g/p/v\n", doc, "<g><p><v></v></p></g>", 1),
        kept("/p/v\n", doc, "<g></g>", 0),
        kept("/v\n", doc, "<g></g>", 0),
        kept("/g/g\n", doc, "<g></g>", 0),
        kept("/g/p/v/v\n", doc, "<g></g>", 0),
        kept("/g/g/v\n", "<g><g><v/></g><v/></g>", "<g><g><v></v></g></g>", 1),
        kept("/a/a/b\n", "<x><a><a><b/></a></a></x>", "<x></x>", 0),
        kept("/g\n/g/v\n/g/p/v\n", doc, "<g><p><v></v></p><v></v></g>", 3),
    ]
}

fn descendant() -> Vec<Named> {
    let doc = "<g><p><v/></p><v/></g>";
    vec![
        kept("//g\n", doc, "<g></g>", 1),
        kept("//v\n", doc, "<g><p><v></v></p><v></v></g>", 2),
        kept("//p//v\n", doc, "<g><p><v></v></p></g>", 1),
        kept("//g//v\n", doc, "<g><p><v></v></p><v></v></g>", 2),
        kept("//g/v\n", doc, "<g><v></v></g>", 1),
        kept("/g//v\n", doc, "<g><p><v></v></p><v></v></g>", 2),
        kept("//v//v\n", doc, "<g></g>", 0),
        kept("//g//g\n", doc, "<g></g>", 0),
        kept("//p//g\n", doc, "<g></g>", 0),
        kept("//a/b//c\n", "<a><c/><b><c/><d><c/></d></b><c/></a>", "<a><b><c></c><d><c></c></d></b></a>", 2),
        kept("//a//b/c\n", "<a><b><d><c/></d><c/></b><c/></a>", "<a><b><c></c></b></a>", 1),
        kept("//b/c\n//d\n", "<a><b><d/><c/></b></a>", "<a><b><d></d><c></c></b></a>", 2),
    ]
}

fn stars() -> Vec<Named> {
    let doc = "<g><p><v/></p></g>";
    vec![
        kept("/*\n", doc, "<g></g>", 1),
        kept("//*\n", doc, "<g><p><v></v></p></g>", 3),
        kept("/*/*\n", doc, "<g><p></p></g>", 1),
        kept("/*//*\n", doc, "<g><p><v></v></p></g>", 2),
        kept("//*//*\n", doc, "<g><p><v></v></p></g>", 2),
        kept("//*/*\n", doc, "<g><p><v></v></p></g>", 2),
        kept("//*/*/*\n", doc, "<g><p><v></v></p></g>", 1),
        kept("//*//*//*//*\n", doc, "<g></g>", 0),
        kept("/*/v\n", doc, "<g></g>", 0),
        kept("/*/*/v\n", doc, "<g><p><v></v></p></g>", 1),
        kept("//*/v\n", doc, "<g><p><v></v></p></g>", 1),
        kept("//p/*\n", doc, "<g><p><v></v></p></g>", 1),
        kept("/g/*/v\n//p\n", doc, "<g><p><v></v></p></g>", 2),
    ]
}

fn same_names() -> Vec<Named> {
    vec![
        kept("//a/a\n", nest("a", 3), nest("a", 3), 2),
        kept("/a/a\n", nest("a", 3), nest("a", 2), 1),
        kept("//a//a//a\n", nest("a", 5), nest("a", 5), 3),
        kept("//a//a//a\n", nest("a", 2), nest("a", 1), 0),
        kept("/a//a\n", nest("a", 4), nest("a", 4), 3),
        kept("//a/a/b\n", "<a><b/><a><b/><a><b/></a></a></a>", "<a><a><b></b><a><b></b></a></a></a>", 2),
        kept("//a/b/a/b\n", "<a><b><a><b><a><b/></a></b></a></b></a>", "<a><b><a><b><a><b></b></a></b></a></b></a>", 2),
        kept("//a/b//b\n", "<a><a><b><b/></b></a></a>", "<a><a><b><b></b></b></a></a>", 1),
        kept("//a//b//a\n", "<a><a><b/></a><b><c><a/></c></b></a>", "<a><b><c><a></a></c></b></a>", 1),
    ]
}

fn many_steps() -> Vec<Named> {
    let (down, below) = ("/a".repeat(16), "//a".repeat(16));
    vec![
        kept(format!("{down}\n"), nest("a", 17), nest("a", 16), 1),
        kept(format!("{down}\n"), nest("a", 16), nest("a", 16), 1),
        kept(format!("{down}\n"), nest("a", 15), nest("a", 1), 0),
        kept(format!("{below}\n"), nest("a", 17), nest("a", 17), 2),
        kept(format!("{below}\n"), nest("a", 16), nest("a", 16), 1),
        kept(format!("{below}\n"), nest("a", 15), nest("a", 1), 0),
        kept(format!("{}\n", "/*".repeat(16)), nest("a", 18), nest("a", 16), 1),
        kept(format!("{}\n", "//*".repeat(16)), nest("b", 18), nest("b", 18), 3),
        kept(format!("{}//b\n", "/a".repeat(15)), nest("a", 16), nest("a", 1), 0),
        kept(format!("//*{}\n", "/a".repeat(15)), nest("a", 18), nest("a", 18), 3),
        kept(format!("{down} #\n{}\n", "/a".repeat(15)), nest("a", 17), nest("a", 17), 2),
        kept(format!("{down}\n").repeat(32), nest("a", 17), nest("a", 16), 1),
    ]
}

fn deep() -> Vec<Named> {
    let inner = format!("{}<b/>{}", "<a>".repeat(63), "</a>".repeat(63));
    let chain = format!("{}<b></b>{}", "<a>".repeat(63), "</a>".repeat(63));
    vec![
        kept("//a//a//a\n", nest("a", 64), nest("a", 64), 62),
        kept("//a\n", nest("a", 64), nest("a", 64), 64),
        kept("//a/a\n", nest("a", 64), nest("a", 64), 63),
        kept("/a\n", nest("a", 64), nest("a", 1), 1),
        kept("/a/a/a\n", nest("a", 64), nest("a", 3), 1),
        kept("//a #\n", nest("a", 64), nest("a", 64), 64),
        kept("//b\n", inner.as_str(), chain.as_str(), 1),
        kept("//b #\n", inner.as_str(), inner.as_str(), 1),
        kept("/a//b\n", inner.as_str(), chain.as_str(), 1),
        kept("//a/a/b\n", inner.as_str(), chain.as_str(), 1),
        kept("/a/b\n", inner.as_str(), "<a></a>", 0),
        kept("//b//a\n", inner.as_str(), "<a></a>", 0),
    ]
}

/// At an end tag the state is the parent's again: what follows an inner element is judged as if it had not been.
fn back() -> Vec<Named> {
    vec![
        kept("/g/v\n", "<g><p><v/></p><v/><p/><v/></g>", "<g><v></v><v></v></g>", 2),
        kept("/g/p/v\n", "<g><p><p><p/></p><v/></p><p><v/></p></g>", "<g><p><v></v></p><p><v></v></p></g>", 2),
        kept("//p/p/v\n", "<g><p><v/><p><v/></p><v/></p><v/></g>", "<g><p><p><v></v></p></p></g>", 1),
        kept("//b\n", "<a><c><d/></c><b/><c/></a>", "<a><b></b></a>", 1),
        kept("//c/d\n", "<a><c><b/></c><d/><c><d/></c></a>", "<a><c><d></d></c></a>", 1),
        kept("//c//d\n", "<a><c/><d/><b><d/></b></a>", "<a></a>", 0),
    ]
}

fn marks() -> Vec<Named> {
    let doc = "<g>s<v>t<n>u</n></v><n>w</n></g>";
    vec![
        kept("//v\n//n #\n", doc, "<g><v><n>u</n></v><n>w</n></g>", 3),
        kept("//v #\n//n\n", doc, "<g><v>t<n>u</n></v><n></n></g>", 3),
        kept("//v #\n", doc, "<g><v>t<n>u</n></v></g>", 1),
        kept("//v #\n//n #\n", doc, "<g><v>t<n>u</n></v><n>w</n></g>", 3),
        kept("/g #\n", doc, doc, 1),
        kept("/g #\n//n\n", doc, doc, 3),
        kept("//* #\n", doc, doc, 4),
        kept("//* #\n//*\n", doc, doc, 4),
        kept("/g\n//v/n #\n", doc, "<g><v><n>u</n></v></g>", 2),
        kept("/g/n\n//n #\n", doc, "<g><v><n>u</n></v><n>w</n></g>", 2),
        kept("/g/n #\n//n\n", doc, "<g><v><n></n></v><n>w</n></g>", 2),
        kept("//x #\n//v\n", doc, "<g><v></v></g>", 1),
        kept("//v/n\n//v #\n/g/n\n", doc, "<g><v>t<n>u</n></v><n></n></g>", 3),
    ]
}

/// Every name of two letters, and one of them in the list: names of one length are told apart by their bytes, however they are looked up.
fn one_length() -> Vec<Named> {
    let letters = || 'a'..='z';
    let tags: String = letters().flat_map(|one| letters().map(move |other| format!("<{one}{other}/>"))).collect();
    let doc = format!("<g>{tags}</g>");
    let only = |name: &str| kept(format!("//{name}\n"), &doc, format!("<g><{name}></{name}></g>"), 1);
    ["aa", "ba", "mq", "nn", "qm", "zz"].into_iter().map(only).collect()
}
