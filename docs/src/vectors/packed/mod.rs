// Packed lists, Q-7 of document 02: the writer `pack` and the reader `unpack`. A case has no first input; the second is the text, or the
// packed form.

mod made;
#[rustfmt::skip]
mod told;

use crate::asked::Four;
use crate::calls::Call;
use second::three::Three;

pub const PACK: Call =
    Call { name: "pack", numbers: 3, second: pack, told: told::texts, made: made::texts, seed: 20_070_001, least: 2_000 };
pub const UNPACK: Call =
    Call { name: "unpack", numbers: 3, second: unpack, told: told::forms, made: made::forms, seed: 20_070_002, least: 6_000 };

fn pack(_: &[u8], text: &[u8], out: &mut [u8]) -> Four {
    four(second::pack(text, out))
}

fn unpack(_: &[u8], packed: &[u8], out: &mut [u8]) -> Four {
    four(second::unpack(packed, out))
}

fn four(answer: Three) -> Four {
    [answer.number, answer.second, answer.third, 0]
}

/// Room for the packed form of every sound text: a step of two characters takes three bytes, and a line five more.
pub const MOST: usize = 3 * 8_192;
