//! Tests of the filter against document 01 and of document 02. Every expected value is worked out by
//! hand from these pages. Here are the questions that the tests ask; each of them checks every byte of the lent output. How
//! many name tests are tried is asked in `name_tests`; elsewhere they are only held to their bound, and cuts to theirs. The other
//! calls of document 02 have their own questions beside their tests.

mod attributes;
mod axes;
mod batch;
mod characters;
mod covers;
mod declaration;
mod encoding;
mod examples;
mod four;
mod limits;
mod list_sizes;
mod lists;
mod markup;
mod mend;
mod name_tests;
mod names;
mod order;
mod packed;
mod passing;
mod program;
mod readings;
mod references;
mod rows;
mod same_place;
mod selection;
mod tags;
mod values;
mod written;

use crate::{cut, judge, list, whole, Numbers, Whole};

/// An output as it is lent: each byte differs from its neighbours, so that a byte moved or lost shows.
fn lent(room: usize) -> Vec<u8> {
    (0..room).map(|offset| (offset % 251) as u8 ^ 0xA5).collect()
}

/// A refusal's four numbers.
fn refusal(number: u64, second: usize) -> Numbers {
    Numbers { number, second: second as u64, third: 0, fourth: 0 }
}

/// The cut and the number of elements selected, where there is one.
fn cut_of(list: impl AsRef<[u8]>, doc: impl AsRef<[u8]>) -> (Vec<u8>, u64) {
    let Whole { bytes, selected, .. } = whole(list.as_ref(), doc.as_ref()).unwrap();
    (bytes, selected)
}

/// "It is at most elements times steps in the list, repeats counted." `//*` selects every element.
fn most_tests(list: &[u8], doc: &[u8]) -> u64 {
    let steps: usize = list::paths(list).unwrap().iter().map(|path| path.steps.len()).sum();
    cut_of("//*\n", doc).1 * steps as u64
}

/// With this room the cut is written: these bytes, then the output as it was.
fn kept_in(list: &[u8], doc: &[u8], room: usize, bytes: &[u8], selected: u64) {
    let mut out = lent(room);
    let mut expected = lent(room);
    expected[..bytes.len()].copy_from_slice(bytes);
    let Numbers { number, second, third, fourth } = cut(list, doc, &mut out);
    assert_eq!((number, second, third), (0, bytes.len() as u64, selected));
    assert!(fourth <= most_tests(list, doc) && bytes.len() < 2 * doc.len());
    assert_eq!(String::from_utf8_lossy(&out), String::from_utf8_lossy(&expected));
    assert!(out == expected);
}

/// With this room the call is refused by these two numbers, and the output stays as it was.
fn refused_in(list: &[u8], doc: &[u8], room: usize, number: u64, second: usize) {
    let mut out = lent(room);
    assert_eq!(cut(list, doc, &mut out), refusal(number, second));
    assert!(out == lent(room));
}

/// The cut is written with exactly its room and with more, and is refused by 9 with one byte less and with none.
fn kept(list: impl AsRef<[u8]>, doc: impl AsRef<[u8]>, bytes: impl AsRef<[u8]>, selected: u64) {
    let (list, doc, bytes) = (list.as_ref(), doc.as_ref(), bytes.as_ref());
    assert_eq!(cut_of(list, doc), (bytes.to_vec(), selected));
    kept_in(list, doc, bytes.len(), bytes, selected);
    kept_in(list, doc, bytes.len() + 9, bytes, selected);
    refused_in(list, doc, bytes.len() - 1, 9, bytes.len());
    refused_in(list, doc, 0, 9, bytes.len());
}

/// The call is refused, with much room, little and none.
fn refused(list: impl AsRef<[u8]>, doc: impl AsRef<[u8]>, number: u64, second: usize) {
    let (list, doc) = (list.as_ref(), doc.as_ref());
    assert_eq!(whole(list, doc), Err(refusal(number, second)));
    for room in [0, 1, 20, 1_000] {
        refused_in(list, doc, room, number, second);
    }
}

/// The document is sound.
fn sound(doc: impl AsRef<[u8]>) {
    let doc = doc.as_ref();
    assert_eq!(judge(doc), None, "{}", String::from_utf8_lossy(doc));
    assert!(whole(b"", doc).is_ok());
}

/// The document is refused, alone and with a list.
fn fault(doc: impl AsRef<[u8]>, number: u64, second: usize) {
    let doc = doc.as_ref();
    assert_eq!(judge(doc), Some(refusal(number, second)), "{}", String::from_utf8_lossy(doc));
    refused(b"//v\n", doc, number, second);
}
