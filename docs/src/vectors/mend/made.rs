// Documents to mend, by a generator: sound ones, cut off at any place, small ones at every place, damaged by every means of the cut's
// generator, with a bad sequence put in, and near the sizes.

use super::{most, second};
use crate::calls::{case, made_by, room};
use crate::made::{damage, documents, limits, Case, Random};

pub fn some(random: &mut Random) -> Vec<Case> {
    let doc = if random.one_in(8) { limits::near(random).doc } else { documents::document(random).bytes };
    let mut docs = vec![doc.clone()];
    if doc.len() < 70 && random.one_in(8) {
        docs.extend((0..doc.len()).rev().map(|end| doc[..end].to_vec()));
    }
    for _ in 0..6 {
        docs.push(doc[..random.below(doc.len() + 1)].to_vec());
        docs.push(damage::document(&doc, 0, random));
    }
    for _ in 0..3 {
        let at = random.below(doc.len() + 1);
        let bad = random.pick(&[&b"\xff"[..], b"\0", b"\xc3", b"\xef\xbf\xbf", b"\x80"]);
        docs.push([&doc[..at], bad, &doc[at..]].concat());
    }
    let last = docs[random.below(docs.len())].clone();
    docs.push(damage::document(&last, 0, random));
    docs.push(damage::doctype(&doc, random));
    docs.push(damage::outside(&doc, random));
    docs.push(limits::crowded(&doc, random));
    docs.into_iter().map(|doc| with_room(doc, random)).collect()
}

fn with_room(doc: Vec<u8>, random: &mut Random) -> Case {
    let length = made_by(second, b"", &doc, most(&doc)).len();
    case("", doc, room(length, random))
}
