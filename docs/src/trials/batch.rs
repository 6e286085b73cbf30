// Batches, Q-2 of document 02: the library beside the second program. Also, of each answer 0: every entry is the single cut or has length
// 0, the third number is their sum, and the narrow result of the wide result is the narrow result (reading R-7). At the end of the packs,
// batches at the most bytes and one past it.
use vectors::asked::Four;
use vectors::batch::{laid, BATCH};
use vectors::calls::case;
use vectors::made::{narrower, Case, Random};

const MOST: usize = 67_108_864;

fn library(list: &[u8], batch: &[u8], out: &mut [u8]) -> Four {
    let answer = choughbell::batch(list, batch, out);
    [answer.number, answer.second, answer.third, 0]
}

pub fn packs() {
    BATCH.on_all(library);
    for length in [MOST, MOST + 1] {
        let mut batch = laid(&[b"<g/>", b"<v/>"]);
        batch.extend_from_slice(&((length - batch.len() - 4) as u32).to_be_bytes());
        batch.resize(length, b'.');
        let ([number, second, third, _], _) = BATCH.both(library, &case("//v\n", batch, 40));
        println!("batch of {length} bytes: {number} {second} {third}");
    }
}

pub fn fuzz(cases: usize, seed: u64) {
    BATCH.fuzz(library, cases, seed, |case, answer, out, random| {
        if answer[0] == 0 {
            is_by_single_cuts(case, answer, out);
            is_narrowed(case, &out[..answer[1] as usize], random);
        }
    });
}

/// "Each entry must equal what a single call with room enough gives."
fn is_by_single_cuts(case: &Case, answer: Four, out: &[u8]) {
    let mut sum = 0;
    let mut entry = |document: &[u8]| {
        let mut cut = vec![0; 2 * document.len()];
        let numbers = choughbell::cut(&case.list, document, &mut cut);
        sum += numbers.third;
        cut.truncate(if numbers.number == 0 { numbers.second as usize } else { 0 });
        cut
    };
    let cuts: Vec<Vec<u8>> = documents(&case.doc).into_iter().map(&mut entry).collect();
    assert!(laid(&cuts) == out[..answer[1] as usize] && sum == answer[2], "not by single cuts: {answer:?}");
}

/// The documents of a sound batch.
fn documents(batch: &[u8]) -> Vec<&[u8]> {
    let mut rest = &batch[1..];
    let mut found = Vec::new();
    while !rest.is_empty() {
        let length = rest[..4].iter().fold(0, |length, &byte| 256 * length + usize::from(byte));
        found.push(&rest[4..4 + length]);
        rest = &rest[4 + length..];
    }
    found
}

/// No document that the generator makes is near a size, so nothing is over one.
fn is_narrowed(wide: &Case, result: &[u8], random: &mut Random) {
    let narrow = narrower(&wide.list, random);
    let room = 2 * wide.doc.len() + 8;
    let once = BATCH.both(library, &case(&narrow, &wide.doc, room));
    let twice = BATCH.both(library, &case(&narrow, result, room));
    assert!(once.0[0] == 0 && once == twice, "demand 3 fails in a batch: {:?} and {:?}", once.0, twice.0);
}
