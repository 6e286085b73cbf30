// Mending, Q-11 of document 02. A case has no first input; the second is the document.

mod made;
#[rustfmt::skip]
mod told;

use crate::asked::Four;
use crate::calls::Call;

pub const MEND: Call = Call { name: "mend", numbers: 4, second, told: told::all, made: made::some, seed: 20_110_001, least: 8_000 };

fn second(_: &[u8], doc: &[u8], out: &mut [u8]) -> Four {
    let answer = second::mend(doc, out);
    [answer.number, answer.second, answer.third, answer.fourth]
}

/// At most 64 end tags are added, of names of 255 bytes.
pub fn most(doc: &[u8]) -> usize {
    doc.len() + 64 * 258
}
