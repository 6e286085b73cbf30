//! One night's post in one call, document 02, Q-2: "one version byte 1, then for each document a four-byte big-endian length
//! and its bytes. The result is the same layout, with the cut of each document". The layout is judged whole before any
//! document is (reading R-5); then each document is cut by itself.

use crate::limits::BATCH_BYTES;
use crate::three::{refused, written, Three};
use crate::{list, whole};

const VERSION: u8 = 1;
const LENGTH_BYTES: usize = 4;

/// "after 1 to 3 comes 11 ...; then 9 with the length of the whole result"
pub fn batch(list: &[u8], batch: &[u8], out: &mut [u8]) -> Three {
    if let Err(refusal) = list::paths(list) {
        return refusal.into();
    }
    let documents = match documents(batch) {
        Ok(documents) => documents,
        Err(offset) => return refused(11, offset),
    };
    let mut result = vec![VERSION];
    let mut selected = 0;
    for document in documents {
        let (cut, count) = entry(list, document);
        result.extend_from_slice(&(cut.len() as u32).to_be_bytes());
        result.extend_from_slice(&cut);
        // "Under 0 the third number is the sum over the entries."
        selected += count;
    }
    written(&result, selected, out)
}

/// "the cut of each document, or length 0 where that document is refused by 4 to 8 or 10"
fn entry(list: &[u8], document: &[u8]) -> (Vec<u8>, u64) {
    match whole(list, document) {
        Ok(cut) => (cut.bytes, cut.selected),
        Err(_) => (Vec::new(), 0),
    }
}

/// The documents of a batch, or "the offset of the version byte or length at fault, for, in this order, an empty batch, one over
/// 67,108,864 bytes (both offset 0), another version, or the first length that is cut short or runs past the end".
fn documents(batch: &[u8]) -> Result<Vec<&[u8]>, usize> {
    if batch.is_empty() || batch.len() > BATCH_BYTES || batch[0] != VERSION {
        return Err(0);
    }
    let mut found = Vec::new();
    let mut at = 1;
    while at < batch.len() {
        let document = document_at(&batch[at..]).ok_or(at)?;
        found.push(document);
        at += LENGTH_BYTES + document.len();
    }
    Ok(found)
}

/// The document whose length stands at the front, if all of it is there.
fn document_at(rest: &[u8]) -> Option<&[u8]> {
    let length = rest.get(..LENGTH_BYTES)?;
    let length = u32::from_be_bytes(length.try_into().ok()?);
    rest[LENGTH_BYTES..].get(..length as usize)
}
