//! Four clients in one reading, document 02, Q-14: "What a client gets back, its number, place, counts and bytes, depends on its
//! list, its buffer and the document only ... and equals a call made for it alone." So here each has a call made for it alone.

use crate::{cut, Numbers};

/// The numbers of each client, its name tests too (reading R-47). An unused seat, which "has an empty list", is no special case
/// (reading R-48).
pub fn four(lists: [&[u8]; 4], doc: &[u8], outs: [&mut [u8]; 4]) -> [Numbers; 4] {
    let [first, second, third, fourth] = outs;
    [cut(lists[0], doc, first), cut(lists[1], doc, second), cut(lists[2], doc, third), cut(lists[3], doc, fourth)]
}
