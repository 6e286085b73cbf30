// The cases written by hand, with what documents 01 and 02 say of each, and the check that the second program says the same. The tables are
// in the files by topic: examples.rs and readings.rs, lists.rs, characters.rs, the items (markup.rs, tags.rs, references.rs,
// declarations.rs), places.rs, selection.rs, written.rs, limits.rs (list) and sizes.rs (document), order.rs; of document 02, encodings.rs,
// axes.rs and same_place.rs, attributes.rs, values.rs and passing.rs, name_tests.rs. A case that is kept has its whole cut there, so its
// second number is the cut's length. How many name tests are tried is told in examples.rs and name_tests.rs alone; a refusal tries none.

// Tables have one case a line.
#[rustfmt::skip]
mod attributes;
#[rustfmt::skip]
mod axes;
#[rustfmt::skip]
mod characters;
#[rustfmt::skip]
mod declarations;
#[rustfmt::skip]
mod encodings;
#[rustfmt::skip]
mod examples;
#[rustfmt::skip]
mod limits;
#[rustfmt::skip]
mod lists;
#[rustfmt::skip]
mod markup;
#[rustfmt::skip]
mod name_tests;
#[rustfmt::skip]
mod order;
#[rustfmt::skip]
mod passing;
#[rustfmt::skip]
mod places;
#[rustfmt::skip]
mod readings;
#[rustfmt::skip]
mod references;
#[rustfmt::skip]
mod same_place;
#[rustfmt::skip]
mod selection;
#[rustfmt::skip]
mod sizes;
#[rustfmt::skip]
mod tags;
#[rustfmt::skip]
mod values;
#[rustfmt::skip]
mod written;

use crate::show::show;
use vectors::asked::{ask, fresh, second};
use vectors::made::Case;

/// A case, and by hand: its first three numbers, the fourth where it is told, and the cut under 0.
pub struct Named {
    case: Case,
    numbers: [u64; 3],
    tried: Option<u64>,
    cut: Vec<u8>,
}

impl Named {
    /// The same in a buffer of so many bytes. Elsewhere the buffer is a little longer than what is written.
    fn room(mut self, room: usize) -> Named {
        self.case.room = room;
        self
    }

    /// The same, and so many name tests are tried.
    fn tried(mut self, tests: u64) -> Named {
        self.tried = Some(tests);
        self
    }
}

/// Answer 0: the cut, and how many elements are selected.
fn kept(list: impl AsRef<[u8]>, doc: impl AsRef<[u8]>, cut: impl AsRef<[u8]>, selected: u64) -> Named {
    let cut = cut.as_ref().to_vec();
    let length = cut.len();
    Named { case: case(list, doc, length + 5), numbers: [0, length as u64, selected], tried: None, cut }
}

/// Any other answer: its number and second number.
fn refused(list: impl AsRef<[u8]>, doc: impl AsRef<[u8]>, number: u64, second: usize) -> Named {
    Named { case: case(list, doc, 40), numbers: [number, second as u64, 0], tried: Some(0), cut: Vec::new() }
}

/// The list is sound, and the document's one element `g` is not selected.
fn sound_list(list: impl AsRef<[u8]>) -> Named {
    kept(list, "<g/>", "<g></g>", 0)
}

/// The first line is malformed.
fn bad_list(list: impl AsRef<[u8]>) -> Named {
    refused(list, "<g/>", 2, 1)
}

/// The first line is too large.
fn large_list(list: impl AsRef<[u8]>) -> Named {
    refused(list, "<g/>", 3, 1)
}

/// The document is one element, and every item in it is sound: a path with a mark keeps it as it came.
fn sound(doc: impl AsRef<[u8]>) -> Named {
    let cut = doc.as_ref().to_vec();
    kept("/* #\n", doc, cut, 1)
}

/// Some item is not well-formed, here.
fn fault(doc: impl AsRef<[u8]>, place: usize) -> Named {
    refused("/* #\n", doc, 7, place)
}

fn case(list: impl AsRef<[u8]>, doc: impl AsRef<[u8]>, room: usize) -> Case {
    Case { list: list.as_ref().to_vec(), doc: doc.as_ref().to_vec(), room }
}

fn tables() -> Vec<Vec<Named>> {
    vec![
        examples::all(),
        readings::all(),
        lists::all(),
        characters::all(),
        markup::all(),
        tags::all(),
        references::all(),
        declarations::all(),
        places::all(),
        selection::all(),
        written::all(),
        limits::all(),
        sizes::all(),
        order::all(),
        encodings::all(),
        axes::all(),
        same_place::all(),
        attributes::all(),
        values::all(),
        passing::all(),
        name_tests::all(),
    ]
}

pub fn cases() -> Vec<Case> {
    tables().into_iter().flatten().map(|named| named.case).collect()
}

/// Whether the second program says of every case what is written here; shows each of which it does not.
pub fn agree() -> bool {
    let wrong: Vec<Named> = tables().into_iter().flatten().filter(|named| !agrees(named)).collect();
    for named in &wrong {
        println!("by hand {:?} {:?}, but the second program says otherwise:", named.numbers, named.tried);
        show(&named.case);
    }
    wrong.is_empty()
}

/// The numbers, and every byte of the buffer: the cut and then what was there before.
fn agrees(named: &Named) -> bool {
    let (numbers, out) = ask(&named.case, second);
    let mut after = fresh(named.case.room);
    after[..named.cut.len()].copy_from_slice(&named.cut);
    numbers[..3] == named.numbers && named.tried.map_or(true, |tests| tests == numbers[3]) && out == after
}
