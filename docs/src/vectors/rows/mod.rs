// Rows for a spreadsheet, Q-8 of document 02. A case is a list, a document and a room, as that of a cut.

mod made;
#[rustfmt::skip]
mod told;

use crate::asked::Four;
use crate::calls::{made_by, Call};
use std::collections::HashSet;

pub const ROWS: Call = Call { name: "rows", numbers: 3, second, told: told::all, made: made::some, seed: 20_080_001, least: 8_000 };

fn second(list: &[u8], doc: &[u8], out: &mut [u8]) -> Four {
    let answer = second::rows(list, doc, out);
    [answer.number, answer.second, answer.third, 0]
}

/// Room for every table of these cases.
pub const MOST: usize = 50_000;

/// Every document of the cases that is sound, once, with its table of all elements.
pub fn tables() -> Vec<(Vec<u8>, Vec<u8>)> {
    let mut seen = HashSet::new();
    let docs = [ROWS.by_hand(), ROWS.generated()].concat().into_iter().map(|case| case.doc);
    let tables = docs.filter(|doc| seen.insert(doc.clone())).map(|doc| (made_by(second, b"//*\n", &doc, MOST), doc));
    tables.filter(|(table, _)| !table.is_empty()).map(|(table, doc)| (doc, table)).collect()
}
