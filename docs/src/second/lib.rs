//! The filter of document 01 with the requests of document 02, written a second time from these pages
//! alone, slow and obvious. Here: the numbers handed back and the three public questions. The list is in `list`, the
//! characters in `chars`, the productions in `declaration`, `markup`, `reference` and `tag` over `reader`, the items in
//! `items`, their faults in `faults`, the tree in `tree` and `document`, the choice of places in `select`, the name tests in
//! `tried`, what an attribute's value means in `value`, the bytes in `write`, what the program prints in `program`.
//! The other calls of document 02 are in files of their own: Q-2 in `batch`, Q-7 in `packed`, Q-12 in `covers`, Q-11 in `mend`,
//! Q-8 in `rows`, Q-14 in `four`.

mod batch;
mod chars;
mod covers;
mod declaration;
mod document;
mod faults;
mod four;
mod items;
mod limits;
mod list;
mod markup;
mod mend;
mod packed;
pub mod program;
mod reader;
mod reference;
mod rows;
mod select;
mod tag;
#[cfg(test)]
mod tests;
pub mod three;
mod tree;
mod tried;
mod value;
mod write;

pub use batch::batch;
pub use covers::covers;
pub use four::four;
pub use mend::mend;
pub use packed::{pack, unpack};
pub use rows::rows;

/// Document 01's answer: the number, the second number and the third; and as the fourth, how many name tests were tried, which
/// Q-13 of document 02 adds.
#[derive(Clone, Copy, PartialEq, Eq, Debug)]
pub struct Numbers {
    pub number: u64,
    pub second: u64,
    pub third: u64,
    pub fourth: u64,
}

/// "The third number is 0 except under 0", and the fourth "is 0 under every number but 0".
fn refusal(number: u64, second: usize) -> Numbers {
    Numbers { number, second: second as u64, third: 0, fourth: 0 }
}

/// A cut, whatever room there is.
#[derive(PartialEq, Eq, Debug)]
pub struct Whole {
    pub bytes: Vec<u8>,
    /// How many elements are selected.
    pub selected: u64,
    /// How many name tests are tried.
    pub tried: u64,
}

/// The cut, or the refusal, which is never 9. The list is judged before the document: "1; 2 and 3 by line; 4; 5; 6 to 8 by
/// item", and 10 "stands between 4 and 5".
pub fn whole(list: &[u8], doc: &[u8]) -> Result<Whole, Numbers> {
    let paths = list::paths(list)?;
    let mut root = document::root(doc)?;
    select::mark(&mut root, &mut Vec::new(), &paths);
    let tried = tried::count(&root, &paths);
    Ok(Whole { bytes: write::cut(&root, doc), selected: select::count(&root), tried })
}

/// The answer for the document alone, 4 to 8 or 10, or `None` if it is sound.
pub fn judge(doc: &[u8]) -> Option<Numbers> {
    document::root(doc).err()
}

/// The answer of the single cut. The output is touched only under 0, and only as far as the cut reaches.
pub fn cut(list: &[u8], doc: &[u8], out: &mut [u8]) -> Numbers {
    let Whole { bytes, selected, tried } = match whole(list, doc) {
        Ok(found) => found,
        Err(numbers) => return numbers,
    };
    if bytes.len() > out.len() {
        return refusal(9, bytes.len());
    }
    out[..bytes.len()].copy_from_slice(&bytes);
    Numbers { number: 0, second: bytes.len() as u64, third: selected, fourth: tried }
}
