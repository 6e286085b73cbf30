// Cases by a generator: a batch is one list and document, mostly sound, and their relatives, so that whatever is accepted stands beside
// what is nearly the same and refused. Here are the relatives, the rooms, and narrower lists; documents.rs and lists.rs make what is sound,
// limits.rs what is near a size, damage.rs the damage, random.rs the draws.

pub(crate) mod damage;
pub(crate) mod documents;
pub(crate) mod limits;
pub(crate) mod lists;
mod random;

pub use random::Random;

#[derive(Clone)]
pub struct Case {
    pub list: Vec<u8>,
    pub doc: Vec<u8>,
    pub room: usize,
}

fn case(list: &[u8], doc: &[u8], room: usize) -> Case {
    let (list, doc) = (list.to_vec(), doc.to_vec());
    Case { list, doc, room }
}

/// The cases of one list and one document. Relatives follow each other, which makes a pack small.
pub fn batch(random: &mut Random) -> Vec<Case> {
    let mut cases = Vec::new();
    if random.one_in(6) {
        near(&mut cases, random);
    } else {
        general(&mut cases, random);
    }
    cases
}

/// A narrower list in the sense of demand 3: some of the lines, and a mark dropped here and there.
pub fn narrower(list: &[u8], random: &mut Random) -> Vec<u8> {
    let mut narrow = Vec::new();
    for line in list.split_inclusive(|b| *b == b'\n') {
        if random.one_in(3) {
            continue;
        }
        match line.strip_suffix(b" #\n") {
            Some(steps) if random.one_in(3) => {
                narrow.extend_from_slice(steps);
                narrow.push(b'\n');
            }
            _ => narrow.extend_from_slice(line),
        }
    }
    narrow
}

/// A sound list and document in every room, narrower lists, lists with another kind of step, lists with another test, damaged lists, other
/// lists, and last other documents.
fn general(cases: &mut Vec<Case>, random: &mut Random) {
    let grown = documents::document(random);
    let doc = &grown.bytes;
    let list = lists::list(random, &grown);
    every_room(cases, &list, doc, random);
    for _ in 0..random.between(2, 5) {
        push(cases, &narrower(&list, random), doc, random);
    }
    for _ in 0..2 {
        push(cases, &lists::turned(&list, random), doc, random);
        push(cases, &lists::retested(&list, random, &grown), doc, random);
    }
    for _ in 0..4 {
        push(cases, &damage::list(&list, 0, random), doc, random);
    }
    if random.one_in(3) {
        push(cases, &limits::too_large(&list, random), doc, random);
    }
    for _ in 0..random.between(3, 6) {
        push(cases, &lists::list(random, &grown), doc, random);
    }
    let list = lists::list(random, &grown);
    other_documents(cases, &list, doc, random);
}

/// A sound document cut off, with more in it, cut by the list (demand 3), and damaged.
fn other_documents(cases: &mut Vec<Case>, list: &[u8], doc: &[u8], random: &mut Random) {
    if doc.len() < 70 && random.one_in(8) {
        cut_off(cases, list, doc);
    }
    if random.one_in(3) {
        push(cases, list, &damage::doctype(doc, random), random);
    }
    if random.one_in(2) {
        push(cases, list, &damage::outside(doc, random), random);
    }
    if random.one_in(3) {
        push(cases, list, &limits::crowded(doc, random), random);
    }
    if random.one_in(2) {
        push(cases, &narrower(list, random), &written(list, doc), random);
    }
    for _ in 0..random.between(5, 9) {
        push(cases, list, &damage::document(doc, 0, random), random);
    }
}

/// A size near its limit, then damage behind the part that makes the size.
fn near(cases: &mut Vec<Case>, random: &mut Random) {
    let near = limits::near(random);
    every_room(cases, &near.list, &near.doc, random);
    for _ in 0..5 {
        push(cases, &damage::list(&near.list, near.list_from, random), &near.doc, random);
    }
    let list = if near.list.len() > 1_000 { b"//n\n".to_vec() } else { near.list };
    for _ in 0..6 {
        push(cases, &list, &damage::document(&near.doc, near.doc_from, random), random);
    }
}

/// Rooms that are large, exact, one more, one less, and none. Where nothing is written all of them must be left alone.
fn every_room(cases: &mut Vec<Case>, list: &[u8], doc: &[u8], random: &mut Random) {
    let length = written(list, doc).len();
    let large = length + random.between(2, 300);
    for room in [large, length, length + 1, length.saturating_sub(1), 0] {
        cases.push(case(list, doc, room));
    }
}

/// One case, in a room that is mostly large enough.
fn push(cases: &mut Vec<Case>, list: &[u8], doc: &[u8], random: &mut Random) {
    let length = written(list, doc).len();
    let room = match random.below(20) {
        0 => length.saturating_sub(1),
        1 => random.between(0, length),
        2 => random.between(4_000, 5_000),
        3..=8 => length,
        9..=11 => length + 1,
        _ => length + random.between(2, 100),
    };
    cases.push(case(list, doc, room));
}

/// The document cut off at every place, the longest first.
fn cut_off(cases: &mut Vec<Case>, list: &[u8], doc: &[u8]) {
    for end in (0..doc.len()).rev() {
        cases.push(case(list, &doc[..end], 100));
    }
}

/// The cut by the second program, empty where it refuses. No cut is over twice as long as its document.
fn written(list: &[u8], doc: &[u8]) -> Vec<u8> {
    let mut out = vec![0; 2 * doc.len()];
    let numbers = second::cut(list, doc, &mut out);
    out.truncate(if numbers.number == 0 { numbers.second as usize } else { 0 });
    out
}
