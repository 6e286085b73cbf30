// Lists and documents with one size near its limit, on either side of it: levels, attributes, names and tested values in each place, lines,
// steps, and the bytes of the list. No path has over three descendant or descendant-or-self steps where the document is deep: the second
// program tries every choice of places.

use super::documents;
use super::lists;
use super::random::Random;

/// What stands before a name whose size is tried.
const AXES: &[&str] = &["//", "//", "/self::", "/descendant-or-self::"];

/// A list and a document, and from where on their relatives may differ: what stands before would only be repeated in a pack.
pub struct Near {
    pub list: Vec<u8>,
    pub doc: Vec<u8>,
    pub list_from: usize,
    pub doc_from: usize,
}

pub fn near(random: &mut Random) -> Near {
    let (list, doc) = match random.below(21) {
        0..=2 => deep(random),
        3 | 4 => attributes(random),
        5..=8 => names(random),
        9 | 10 => lines(random),
        11 | 12 => steps(random),
        13..=18 => tests(random),
        _ => bytes(random),
    };
    let (list_from, doc_from) = (list.len().saturating_sub(60), doc.len().saturating_sub(120));
    Near { list: list.into_bytes(), doc: doc.into_bytes(), list_from, doc_from }
}

/// The list with a line more that makes it too large, or nearly; at times the line is malformed as well, which comes first.
pub fn too_large(list: &[u8], random: &mut Random) -> Vec<u8> {
    let more = match random.below(4) {
        0 => format!("/a{}\n", random.pick(&["/a", "/a", "/self::a"]).repeat(random.between(15, 17))),
        1 => format!("{}{}{}\n", random.pick(AXES), "n".repeat(random.between(255, 257)), random.pick(&["", "", "::", "::n"])),
        2 => {
            let (name, value) = random.pick(&[(256, 1), (255, 256), (1, 256), (255, 255), (257, 300)]);
            let end = random.pick(&["\"]", "\"]", "\"] #", "<\"]", "\"]/a", "\""]);
            format!("/a[@{}=\"{}{end}\n", "k".repeat(name), "1".repeat(value))
        }
        _ => "/a\n".repeat(random.between(24, 33)),
    };
    [list, more.as_bytes()].concat()
}

/// The document with an element put in, before what begins an item or seems to, whose name or attributes are near the limit.
pub fn crowded(doc: &[u8], random: &mut Random) -> Vec<u8> {
    let mut at = random.below(doc.len());
    at += doc[at..].iter().take_while(|b| **b != b'<').count();
    let tag = match random.below(4) {
        0 => format!("<{}/>", "a".repeat(random.between(254, 257))),
        1 => format!("<a{}/>", many(random.between(31, 34), 99)),
        2 => format!("<a {}=''/>", "k".repeat(random.between(254, 257))),
        _ => format!("</{}>", "a".repeat(random.between(254, 257))),
    };
    [&doc[..at], tag.as_bytes(), &doc[at..]].concat()
}

/// 63 to 66 levels, the last of them by an empty tag or by a start tag.
fn deep(random: &mut Random) -> (String, String) {
    let levels = random.between(63, 66);
    let names: Vec<&str> = (0..levels).map(|_| random.pick(&["a", "a", "b"])).collect();
    let attribute = |random: &mut Random| random.pick(&["", "", "", " k='1'", " k='2'"]);
    let mut doc: String = names[..levels - 1].iter().map(|name| format!("<{name}{}>", attribute(random))).collect();
    let last = names[levels - 1];
    let k = attribute(random);
    doc += &if random.one_in(2) { format!("<{last}{k}/>") } else { format!("<{last}{k}>Aar</{last}>") };
    for name in names[..levels - 1].iter().rev() {
        doc += &format!("</{name}>");
        if random.one_in(20) {
            doc += random.pick(&["<a/>", "<b/>", "Aar"]);
        }
    }
    (random.pick(ON_DEEP).into(), doc)
}

/// Lists for documents of many levels.
#[rustfmt::skip]
const ON_DEEP: &[&str] = &[
    "//a//b//a\n", "//a/a/a\n//b #\n", "/a/*//b/a\n", "//*\n", "//b//a #\n/*\n", "//a/b/a/b\n", "//a/self::a/b\n", "//*/self::b #\n",
    "//b/descendant-or-self::a/b\n", "/descendant-or-self::a/a/descendant-or-self::b\n", "/self::a\n/a/self::*/a\n",
    "//*[@k=\"1\"]\n", "//a/b[@k=\"1\"]\n//a[@k=\"2\"] #\n", "//b//*[@k=\"2\"]\n/a[@k=\"1\"]\n",
];

/// So many attributes. The one at `twice` has the name of another.
fn many(count: usize, twice: usize) -> String {
    let names = (0..count).map(|i| if i == twice { (i + 7) % count } else { i });
    names.map(|i| format!(" k{i}=''")).collect()
}

/// 31 to 34 attributes in one tag, at times with a name twice.
fn attributes(random: &mut Random) -> (String, String) {
    let count = random.between(31, 34);
    let twice = if random.one_in(4) { random.below(count) } else { count };
    let tag = many(count, twice);
    let doc = match random.below(3) {
        0 => format!("<g{tag}/>"),
        1 => format!("<g><v{tag}/><n/></g>"),
        _ => format!("<g><v{tag}><n/></v></g>"),
    };
    let lists = ["//v\n", "//n\n", "//* #\n", "/g\n", "", "//*[@k31=\"\"]\n", "//*[@k0=\"\"] #\n", "//v[@k32=\"\"]\n/g[@k1=\"1\"]\n"];
    (random.pick(&lists).into(), doc)
}

/// A name of so many bytes, of characters of one to four bytes; what is over is filled up by one byte each.
fn name(random: &mut Random, bytes: usize) -> String {
    let mut name = String::from(random.pick(&["a", "_", "\u{e9}"]));
    let usual = random.pick(&["a", "\u{e9}", "\u{3001}", "\u{10000}"]);
    while name.len() + usual.len() <= bytes {
        name += usual;
    }
    while name.len() < bytes {
        name += "z";
    }
    name
}

/// A name of 254 to 257 bytes in the list, a start tag and its end tag, an empty tag, an end tag alone or an attribute.
fn names(random: &mut Random) -> (String, String) {
    let bytes = random.between(254, 257);
    let name = name(random, bytes);
    let list = random.pick(&["//v\n", "/g/*\n", "//n #\n"]);
    let axis = random.pick(AXES);
    let before = if axis == "/self::" { "/g/*" } else { "" };
    match random.below(6) {
        0 => (format!("//n\n{axis}{name}\n"), "<g><n/></g>".into()),
        1 => (list.into(), format!("<g><n/><{name}><n/></{name}></g>")),
        2 => (list.into(), format!("<g><n/><{name}/></g>")),
        3 => (list.into(), format!("<g><n/></{name}></g>")),
        4 => (list.into(), format!("<g><n/><v {name}=''/></g>")),
        _ => (format!("{before}{axis}{name}\n"), format!("<g><n/><{name} k='1'/></g>")),
    }
}

/// A test whose name or value has 254 to 257 bytes, on an element that has nearly the same.
fn tests(random: &mut Random) -> (String, String) {
    let bytes = random.between(254, 257);
    let long = name(random, bytes);
    let other = match random.below(8) {
        0 | 1 => format!("{long}1"),
        2 => long[..long.len() - long.chars().last().map_or(0, char::len_utf8)].to_string(),
        3 => long.replacen('z', "a", 1),
        _ => long.clone(),
    };
    let steps = random.pick(&["//v", "/g/*", "//*/self::v", "/descendant-or-self::*"]);
    let mark = random.pick(&["", "", " #"]);
    if random.one_in(3) {
        return (format!("//n\n{steps}[@{long}=\"1\"]{mark}\n"), format!("<g><n/><v {other}='1'/></g>"));
    }
    let written = match random.below(5) {
        0 => other.replace('a', "&#97;"),
        1 => other.replacen('z', "&#x7A;", 1),
        2 => other + &"1".repeat(256),
        _ => other,
    };
    let bad = random.pick(&["", "", "", "", "<", "&", "\u{ffff}"]);
    (format!("//n\n{steps}[@k=\"{long}{bad}\"]{mark}\n"), format!("<g><n/><v l='' k='{written}'/></g>"))
}

/// 31 to 34 lines. The last may be malformed, or lack its line feed.
fn lines(random: &mut Random) -> (String, String) {
    let doc = documents::document(random);
    let count = random.between(31, 34);
    let mut list: String =
        (1..count).map(|_| random.pick(&["/a\n", "/b\n", "//a\n", "/* #\n", "/a/self::a\n", "//*[@k=\"1\"]\n"])).collect();
    list += &match random.below(4) {
        0 => random.pick(&["\n", "a\n", "/a", "/a #", "/", "/a::b\n", "/a[@k]\n"]).to_string(),
        _ => lists::line(random, &doc),
    };
    (list, String::from_utf8_lossy(&doc.bytes).into_owned())
}

/// A line of 15 to 18 steps, and a document of about as many levels as it goes down. In half of the lines one step in three stays.
fn steps(random: &mut Random) -> (String, String) {
    let count = random.between(15, 18);
    let far: Vec<usize> = (0..3).map(|_| random.below(count)).collect();
    let has_same = random.one_in(2);
    let mut list = String::from(random.pick(&["", "//b\n"]));
    let mut down = 0;
    for i in 0..count {
        let axis = if far.contains(&i) {
            random.pick(&["//", "//", "/descendant-or-self::"])
        } else if has_same && i > 0 && random.one_in(3) {
            "/self::"
        } else {
            "/"
        };
        down += usize::from(axis != "/self::");
        list += axis;
        list += random.pick(&["a", "a", "a", "*"]);
    }
    list += random.pick(&["\n", "\n", " #\n", " # \n", "/\n", "[@k=\"1\"]\n", "[@k=\"2\"] #\n", "[@k=\"1\"]/a\n"]);
    let levels = random.between(down - 1, down + 2);
    (list, format!("{}<a k='1'/><b/>{}", "<a>".repeat(levels - 1), "</a>".repeat(levels - 1)))
}

/// A list of 8,191 to 8,194 bytes, of 32 lines of up to 256 bytes. The last line is the one that varies.
fn bytes(random: &mut Random) -> (String, String) {
    let count = random.between(8_191, 8_194);
    let mut list = format!("//{}\n", "n".repeat(253)).repeat(31);
    let left = count - list.len() - 4;
    list += &format!("/g/{}/n\n", "v".repeat(left - 2))[..left + 3];
    list += "\n";
    (list, "<g><v><n/></v></g>".into())
}
