// Rows by a generator: documents of the cut's generator with commas, quotes, line ends of each kind, references to them and CDATA sections
// put in before items, and their relatives: other lists, damage.

use super::{second, MOST};
use crate::calls::{case, made_by, room};
use crate::made::{damage, documents, lists, narrower, Case, Random};

#[rustfmt::skip]
const PIECES: &[&str] = &[
    ",", "\"", "\"\"", "\r", "\n", "\r\n", "\n\r", "\r\r\n", "&#13;", "&#10;", "&#xD;", "&#44;", "&quot;", "&#34;", "&amp;", "&#9;", "a,b",
    "<![CDATA[,]]>", "<![CDATA[\"]]>", "<![CDATA[\r]]>", "<![CDATA[\n]]>", "<![CDATA[\r\n]]>", "<![CDATA[&#13;]]>", "<!--,\r-->", "<?p ,?>",
    "\r<!---->\n", "\r&#10;", "&#13;\n", "\r<![CDATA[\n", "x", " ", "\u{e9}", "\u{10000}", "&#x10ffff;",
];

pub fn some(random: &mut Random) -> Vec<Case> {
    let grown = documents::document(random);
    let list = lists::list(random, &grown);
    let all = b"//*\n".to_vec();
    let mut cases = Vec::new();
    push(&mut cases, &list, &grown.bytes, random);
    for _ in 0..6 {
        let doc = filled(&grown.bytes, random);
        for list in [&list, &all, &all] {
            push(&mut cases, list, &doc, random);
        }
    }
    let doc = filled(&grown.bytes, random);
    for list in [narrower(&list, random), lists::turned(&list, random), lists::list(random, &grown), damage::list(&list, 0, random)] {
        push(&mut cases, &list, &doc, random);
    }
    for _ in 0..4 {
        push(&mut cases, &list, &damage::document(&doc, 0, random), random);
    }
    cases
}

fn push(cases: &mut Vec<Case>, list: &[u8], doc: &[u8], random: &mut Random) {
    let length = made_by(second, list, doc, MOST).len();
    cases.push(case(list, doc, room(length, random)));
}

/// The document with pieces put in before some `<` behind the first end of a tag, which is mostly inside the root.
fn filled(doc: &[u8], random: &mut Random) -> Vec<u8> {
    let mut doc = doc.to_vec();
    for _ in 0..random.between(1, 5) {
        let places: Vec<usize> = (2..doc.len()).filter(|&at| doc[at] == b'<' && doc[..at].contains(&b'>')).collect();
        if places.is_empty() {
            break;
        }
        let at = random.pick(&places);
        drop(doc.splice(at..at, random.pick(PIECES).bytes()));
    }
    doc
}
