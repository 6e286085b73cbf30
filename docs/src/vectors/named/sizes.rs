// The sizes of the document, each at its limit and one past it: depth, attributes, names in every kind of tag; their order among the other
// faults of an item; and what has no size. That a document is too long (4) is not among the cases: it takes 16 MiB.

use super::{kept, refused, sound, Named};

pub fn all() -> Vec<Named> {
    let mut cases = depth();
    cases.extend(attributes());
    cases.extend(names());
    cases.extend(attribute_names());
    cases.extend(wide_names());
    cases.extend(no_size());
    cases.extend(long());
    cases
}

/// A size is passed, here.
fn over(doc: impl AsRef<[u8]>, place: usize) -> Named {
    refused("/* #\n", doc, 8, place)
}

fn fault(doc: impl AsRef<[u8]>, place: usize) -> Named {
    refused("/* #\n", doc, 7, place)
}

fn depth() -> Vec<Named> {
    let (down, up) = ("<a>".repeat(64), "</a>".repeat(64));
    let (down63, up63) = (&down[3..], &up[4..]);
    vec![
        sound(format!("{down}{up}")),
        sound(format!("{down}Aar<!--a-->&amp;{up}")),
        sound(format!("{down63}<a/>{up63}")),
        sound(format!("{down63}<a/><a></a><a/>{up63}")),
        sound(format!("<a>{0}{1}{0}{1}</a>", down63, up63)),
        over(format!("{down}<a>"), 192),
        over(format!("{down}<a/>"), 192),
        over(format!("{down}<a></a>{up}"), 192),
        over(format!("{down}<a/>{up}"), 192),
        over(format!("{down63}<a/><a><a/>"), 196),
        over(format!("\u{feff}{down}<a/>"), 195),
        over("<a>".repeat(1_000), 192),
        fault(format!("{down}<a"), 192),
        fault(format!("{down}<a k>"), 192),
        fault(format!("{down}<a k='1'l='2'/>"), 192),
        over(format!("{down}<a k='' k=''/>"), 192),
        refused("", format!("{down}<!DOCTYPE"), 6, 192),
        fault(format!("{down}</b>"), 192),
        fault(&down, 192),
        refused("", [down.as_bytes(), b"<a/>\xff"].concat(), 5, 196),
    ]
}

/// So many attributes, each with its blank.
fn many(count: usize) -> String {
    (0..count).map(|i| format!(" k{i}=''")).collect()
}

fn attributes() -> Vec<Named> {
    let (most, more) = (many(32), many(33));
    vec![
        sound(format!("<g{}/>", many(31))),
        sound(format!("<g{most}/>")),
        sound(format!("<g{most} ></g>")),
        sound(format!("<g{most}><v{most}/></g>")),
        over(format!("<g{more}/>"), 0),
        over(format!("<g{more}></g>"), 0),
        over(format!("<g{}/>", many(100)), 0),
        over(format!("<g><v/><v{more}/></g>"), 7),
        over(format!("<g{most} k0=''/>"), 0),
        over(format!("<g k='' k=''{most}/>"), 0),
        fault(format!("<g{} k0=''/>", many(31)), 0),
        fault(format!("<g{} k30=''/>", many(31)), 0),
        fault(format!("<g{more}l=''/>"), 0),
        fault(format!("<g{more} l/>"), 0),
        fault(format!("<g{more}"), 0),
        fault(format!("<g{more} l='<'/>"), 0),
        over(format!("<g{more}>"), 0),
        over(format!("<g/><g{more}/>"), 4),
    ]
}

fn names() -> Vec<Named> {
    let (n255, n256) = ("v".repeat(255), "v".repeat(256));
    vec![
        sound(format!("<{n255}/>")),
        sound(format!("<{n255}></{n255}>")),
        sound(format!("<g><{n255}/><{n255} k=''></{n255} ></g>")),
        kept("", format!("<{n255}/>"), format!("<{n255}></{n255}>"), 0),
        over(format!("<{n256}/>"), 0),
        over(format!("<{n256}>"), 0),
        over(format!("<{n256}></{n256}>"), 0),
        over(format!("<g><{n256}/></g>"), 3),
        over(format!("<g><{n256} k=''></{n256}></g>"), 3),
        over(format!("<g></{n256}>"), 3),
        over(format!("<g></{n256} >"), 3),
        over(format!("<g/></{n256}>"), 4),
        over(format!("</{n256}>"), 0),
        over(format!("<{n255}></{n256}>"), 257),
        fault(format!("<g></{n255}>"), 3),
        fault(format!("<{n255}></{}w>", &n255[1..]), 257),
        fault(format!("<{n256}"), 0),
        fault(format!("<{n256} k/>"), 0),
        fault(format!("<{n256}/ >"), 0),
        fault(format!("<g></{n256}"), 3),
        fault(format!("<g></{n256} k>"), 3),
        over(format!("<{n256} k='' k=''/>"), 0),
        over(format!("<g/><{n256}/>"), 4),
    ]
}

fn attribute_names() -> Vec<Named> {
    let (n255, n256) = ("k".repeat(255), "k".repeat(256));
    vec![
        sound(format!("<g {n255}=''/>")),
        sound(format!("<g l='' {n255}=''></g>")),
        over(format!("<g {n256}=''/>"), 0),
        over(format!("<g l='' {n256}='' m=''></g>"), 0),
        over(format!("<g><v {n256}=''/></g>"), 3),
        over(format!("<g {n256}='' {n256}=''/>"), 0),
        over(format!("<g l='' l='' {n256}=''/>"), 0),
        fault(format!("<g {n255}='' {n255}=''/>"), 0),
        sound(format!("<g {n255}='' {}l=''/>", &n255[1..])),
        fault(format!("<g {n256}/>"), 0),
        fault(format!("<g {n256}=''l=''/>"), 0),
        fault(format!("<g {n256}='' l=1/>"), 0),
    ]
}

/// Names whose last character of several bytes ends at the limit or passes it.
fn wide_names() -> Vec<Named> {
    let two = "\u{e9}".repeat(127);
    let three = "\u{3001}".repeat(85);
    let four = "\u{10000}".repeat(63);
    vec![
        sound(format!("<v{two}/>")),
        sound(format!("<{two}v></{two}v>")),
        sound(format!("<{three}/>")),
        sound(format!("<vvv{four}/>")),
        sound(format!("<g v{two}='' {three}='' {four}vvv=''/>")),
        over(format!("<{two}\u{e9}/>"), 0),
        over(format!("<{three}v/>"), 0),
        over(format!("<vv{}/>", "\u{3001}".repeat(85)), 0),
        over(format!("<{four}\u{10000}/>"), 0),
        over(format!("<{four}vv\u{e9}/>"), 0),
        over(format!("<g></{two}\u{e9}>"), 3),
        over(format!("<g {two}\u{e9}=''/>"), 0),
        over(format!("<g {four}v\u{3001}=''/>"), 0),
    ]
}

/// Targets, values, text, comments, sections, numbers and blanks are bounded by the document only.
fn no_size() -> Vec<Named> {
    let long = "v".repeat(2_000);
    vec![
        sound(format!("<g>{long}</g>")),
        sound(format!("<g k='{long}'/>")),
        sound(format!("<g><!--{long}--></g>")),
        sound(format!("<g><![CDATA[{long}]]></g>")),
        sound(format!("<g><?{long}?></g>")),
        sound(format!("<g><?v {long}?></g>")),
        sound(format!("<g{}/>", " ".repeat(2_000))),
        sound(format!("<g></g{}>", "\n".repeat(2_000))),
        sound(format!("<g>{}</g>", "<v/>".repeat(500))),
        fault(format!("<g>&{long};</g>"), 3),
        kept("", format!("<?xml version='1.{}' encoding='UTF-8'{}?><g/>", "0".repeat(300), " ".repeat(2_000)), "<g></g>", 0),
        refused("", format!("<?xml version='1.{}' encoding='{long}'?><g/>", "0".repeat(300)), 10, 0),
        kept("//v\n", format!("<g>{}</g>", "<v/>".repeat(500)), format!("<g>{}</g>", "<v></v>".repeat(500)), 500),
    ]
}

/// Lengths and offsets about and past 32,768, where numbers of fewer bits end and where the program `cut` takes no more.
fn long() -> Vec<Named> {
    let doc = format!("<g>{}</g>", "<v/>".repeat(8_190));
    let cut = format!("<g>{}</g>", "<v></v>".repeat(8_190));
    vec![
        kept("//v\n", format!("{doc} "), &cut, 8_190),
        kept("//v\n", format!("{doc}\n\n"), &cut, 8_190),
        refused("//v\n", format!("{doc}\n\n"), 9, cut.len()).room(cut.len() - 1),
        kept("//v\n", format!("{doc}\n\n"), &cut, 8_190).room(65_535),
        kept("/g #\n", format!("{doc}\n\n"), &doc, 1),
        fault(format!("{doc}\n\n<v/>"), doc.len() + 2),
        refused("", [doc.as_bytes(), b"\n\n\xff"].concat(), 5, doc.len() + 2),
        refused("", format!("{doc}\n\n<!DOCTYPE"), 6, doc.len() + 2),
        fault(&doc[..doc.len() - 4], doc.len() - 4),
    ]
}
