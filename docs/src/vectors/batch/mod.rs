// Batches, Q-2 of document 02. A case is a list, a batch and a room.

mod made;
#[rustfmt::skip]
mod told;

use crate::asked::Four;
use crate::calls::Call;

pub const BATCH: Call = Call { name: "batch", numbers: 3, second, told: told::all, made: made::some, seed: 20_020_001, least: 4_000 };

fn second(list: &[u8], batch: &[u8], out: &mut [u8]) -> Four {
    let answer = second::batch(list, batch, out);
    [answer.number, answer.second, answer.third, 0]
}

/// Documents in the layout of a batch.
pub fn laid<D: AsRef<[u8]>>(documents: &[D]) -> Vec<u8> {
    let mut batch = vec![1];
    for document in documents {
        batch.extend_from_slice(&(document.as_ref().len() as u32).to_be_bytes());
        batch.extend_from_slice(document.as_ref());
    }
    batch
}
