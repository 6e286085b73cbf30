// Batches by a generator: documents that are sound, damaged or empty, by one list, and their relatives: narrower lists, the result as a
// batch again, a length one off, bytes cut off at the end or put there, another version, and damage anywhere.

use super::{laid, second};
use crate::calls::{case, made_by, room};
use crate::made::{damage, documents, lists, narrower, Case, Random};

pub fn some(random: &mut Random) -> Vec<Case> {
    let mut grown = documents::document(random);
    let list = lists::list(random, &grown);
    let mut documents = Vec::new();
    for _ in 0..random.pick(&[0, 1, 1, 2, 2, 3, 4, 6]) {
        documents.push(match random.below(8) {
            0 => Vec::new(),
            1 | 2 => damage::document(&grown.bytes, 0, random),
            3 => damage::outside(&grown.bytes, random),
            _ => grown.bytes.clone(),
        });
        if random.one_in(2) {
            grown = documents::document(random);
        }
    }
    let batch = laid(&documents);
    let result = made_by(second, &list, &batch, most(&batch));
    let mut cases: Vec<Case> = [result.len() + 3, result.len(), result.len() - 1, 0].map(|room| case(&list, &batch, room)).to_vec();
    let narrow = narrower(&list, random);
    for (list, batch) in [(&narrow, &batch), (&narrow, &result), (&damage::list(&list, 0, random), &batch)] {
        push(&mut cases, list, batch, random);
    }
    for _ in 0..6 {
        let other = relative(&batch, &documents, random);
        push(&mut cases, &list, &other, random);
    }
    // Both at fault, mostly: the list comes first.
    let (list, batch) = (damage::list(&list, 0, random), relative(&batch, &documents, random));
    push(&mut cases, &list, &batch, random);
    cases
}

/// No cut is over twice as long as its document.
pub fn most(batch: &[u8]) -> usize {
    2 * batch.len() + 8
}

fn push(cases: &mut Vec<Case>, list: &[u8], batch: &[u8], random: &mut Random) {
    let length = made_by(second, list, batch, most(batch)).len();
    cases.push(case(list, batch, room(length, random)));
}

fn relative(batch: &[u8], documents: &[Vec<u8>], random: &mut Random) -> Vec<u8> {
    let mut bytes = batch.to_vec();
    match random.below(8) {
        0 => bytes.truncate(random.below(batch.len() + 1)),
        1 => (0..random.between(1, 5)).for_each(|_| bytes.push(random.pick(b"\0\0\0\x01\x04<"))),
        2 => bytes[0] = random.pick(b"\0\x01\x02\xff"),
        3 | 4 => {
            let lengths = lengths(documents);
            if !lengths.is_empty() {
                let at = random.pick(&lengths) + random.pick(&[3, 3, 3, 0, 1, 2]);
                bytes[at] = bytes[at].wrapping_add(random.pick(&[1, 255, 4, 252, 128]));
            }
        }
        _ => return damage::document(batch, 0, random),
    }
    bytes
}

/// Where the lengths stand.
fn lengths(documents: &[Vec<u8>]) -> Vec<usize> {
    let mut at = 1;
    let places = documents.iter().map(|document| {
        let place = at;
        at += 4 + document.len();
        place
    });
    places.collect()
}
