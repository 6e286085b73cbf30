// Lists within wider ones, Q-12 of document 02. A case is a narrow list and a wide one; nothing is written, so the room is 0.

mod made;
#[rustfmt::skip]
mod told;

pub use made::{narrowed, some};

use crate::asked::Four;
use crate::calls::Call;

pub const COVERS: Call = Call { name: "covers", numbers: 3, second, told: told::all, made: some, seed: 20_120_001, least: 6_000 };

fn second(narrow: &[u8], wide: &[u8], _: &mut [u8]) -> Four {
    let answer = second::covers(narrow, wide);
    [answer.number, answer.second, answer.third, 0]
}
