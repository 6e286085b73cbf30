//! The filter of documents 01 and 02 in ordinary Rust, written for speed: what the proved one is timed beside. It shares nothing with the
//! Rattle source or the second program, and has no `unsafe`. The characters are checked first (`chars`), then one pass over the items
//! (`filter`) checks, matches and writes; the cut goes into a vector, and from there into the buffer if it has room. `list` reads the
//! list, `machine` makes it the bits that are matched by, `names` finds a name's bits; `marks` looks for bytes a word at a time, `tag` and
//! `markup` read items, `value` holds attributes against tests.

mod chars;
mod filter;
mod list;
mod machine;
mod marks;
mod markup;
mod names;
mod tag;
mod value;

use filter::Filter;
use list::Path;
use machine::Machine;
use markup::Front;

const LIST_BYTES: usize = 8_192;
const DOCUMENT_BYTES: usize = 16_777_216;

/// Document 01's numbers handed back.
#[derive(Clone, Copy, PartialEq, Eq, Debug)]
pub struct Numbers {
    pub number: u64,
    pub second: u64,
    pub third: u64,
}

/// Why there is no cut: the number, and the line, offset or length that goes with it.
struct Refusal {
    number: u64,
    second: usize,
}

fn refuse<A>(number: u64, second: usize) -> Result<A, Refusal> {
    Err(Refusal { number, second })
}

struct Cut {
    bytes: Vec<u8>,
    selected: u64,
}

/// Writes the cut of a document by a list to the front of `out`, or refuses and leaves all of `out` as it was.
pub fn cut(list: &[u8], doc: &[u8], out: &mut [u8]) -> Numbers {
    let written = answer(list, doc).and_then(|cut| match out.get_mut(..cut.bytes.len()) {
        None => refuse(9, cut.bytes.len()),
        Some(front) => {
            front.copy_from_slice(&cut.bytes);
            Ok(cut)
        }
    });
    match written {
        Ok(cut) => Numbers { number: 0, second: cut.bytes.len() as u64, third: cut.selected },
        Err(Refusal { number, second }) => Numbers { number, second: second as u64, third: 0 },
    }
}

/// The cut, or the first refusal in the order 1; 2 and 3 by line; 4; 10; 5; 6 to 8 by item.
fn answer(list: &[u8], doc: &[u8]) -> Result<Cut, Refusal> {
    if list.len() > LIST_BYTES {
        return refuse(1, 0);
    }
    let paths = list::paths(list)?;
    if doc.len() > DOCUMENT_BYTES {
        return refuse(4, 0);
    }
    let front = markup::front(doc);
    if let Front::OtherEncoding { at } = front {
        return refuse(10, at);
    }
    let text = chars::text(doc).or_else(|offset| refuse(5, offset))?;
    match front {
        Front::Broken { at } => refuse(7, at),
        Front::OtherEncoding { .. } => unreachable!("answered above"),
        Front::Sound { end } => filtered(&paths, text, end),
    }
}

/// The pass by a machine of so many words as the list needs: few, for most lists.
fn filtered(paths: &[Path], text: &str, from: usize) -> Result<Cut, Refusal> {
    match machine::words(paths) {
        0 | 1 => Filter::new(text, &Machine::<1>::new(paths)).run(from),
        2 => Filter::new(text, &Machine::<2>::new(paths)).run(from),
        3 | 4 => Filter::new(text, &Machine::<4>::new(paths)).run(from),
        _ => Filter::new(text, &Machine::<8>::new(paths)).run(from),
    }
}
