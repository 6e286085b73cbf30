//! Batches, document 02, Q-2, with the readings. Batches and results are written out byte by byte.

use super::lent;
use crate::three::Three;

/// The result is these bytes, with exactly their room and with more, and 9 with one byte less and with none.
fn kept(list: &str, batch: &[u8], result: &[u8], selected: u64) {
    for room in [result.len(), result.len() + 7] {
        let mut out = lent(room);
        let numbers = crate::batch(list.as_bytes(), batch, &mut out);
        assert_eq!(numbers, Three { number: 0, second: result.len() as u64, third: selected });
        assert_eq!(&out[..result.len()], result);
        assert_eq!(out[result.len()..], lent(room)[result.len()..]);
    }
    refused_in(list.as_bytes(), batch, result.len() - 1, 9, result.len());
    refused_in(list.as_bytes(), batch, 0, 9, result.len());
}

fn refused_in(list: &[u8], batch: &[u8], room: usize, number: u64, second: usize) {
    let mut out = lent(room);
    assert_eq!(crate::batch(list, batch, &mut out), Three { number, second: second as u64, third: 0 });
    assert!(out == lent(room));
}

fn refused(list: impl AsRef<[u8]>, batch: impl AsRef<[u8]>, number: u64, second: usize) {
    for room in [0, 1, 100] {
        refused_in(list.as_ref(), batch.as_ref(), room, number, second);
    }
}

#[test]
fn one_document() {
    kept("//v\n", b"\x01\0\0\0\x12<g><p><v/></p></g>", b"\x01\0\0\0\x15<g><p><v></v></p></g>", 1);
    kept("", b"\x01\0\0\0\x04<g/>", b"\x01\0\0\0\x07<g></g>", 0);
}

/// "The version byte alone is a sound batch of no documents".
#[test]
fn no_documents() {
    kept("//v\n", b"\x01", b"\x01", 0);
    kept("", b"\x01", b"\x01", 0);
}

#[test]
fn the_third_number_is_the_sum() {
    let batch = b"\x01\0\0\0\x0b<g><v/></g>\0\0\0\x04<v/>\0\0\0\x04<g/>";
    kept("//v\n", batch, b"\x01\0\0\0\x0e<g><v></v></g>\0\0\0\x07<v></v>\0\0\0\x07<g></g>", 2);
    kept("//*\n", batch, b"\x01\0\0\0\x0e<g><v></v></g>\0\0\0\x07<v></v>\0\0\0\x07<g></g>", 4);
}

/// "length 0 where that document is refused by 4 to 8 or 10", and the batch goes on.
#[test]
fn a_refused_document_has_length_0() {
    for bad in ["\u{1}", "<!DOCTYPE g><g/>", "<g>", "<?xml version='1.0' encoding='latin1'?><g/>", ""] {
        let length = (bad.len() as u32).to_be_bytes();
        let batch = [b"\x01\0\0\0\x04<v/>", &length[..], bad.as_bytes(), b"\0\0\0\x04<v/>"].concat();
        kept("//v\n", &batch, b"\x01\0\0\0\x07<v></v>\0\0\0\0\0\0\0\x07<v></v>", 2);
    }
    let deep = "<a>".repeat(65) + &"</a>".repeat(65);
    let batch = [b"\x01", &(deep.len() as u32).to_be_bytes()[..], deep.as_bytes()].concat();
    kept("//v\n", &batch, b"\x01\0\0\0\0", 0);
    kept("//v\n", b"\x01\0\0\0\0", b"\x01\0\0\0\0", 0);
    kept("//v\n", b"\x01\0\0\0\0\0\0\0\0", b"\x01\0\0\0\0\0\0\0\0", 0);
}

/// "one over 16,777,216 bytes is refused by 4, so length 0, and the batch goes on".
#[test]
fn a_document_too_long_is_an_entry() {
    let document = |length: usize| format!("<g>{}</g>", ".".repeat(length - 7));
    let at = |length: usize| [&(length as u32).to_be_bytes()[..], document(length).as_bytes()].concat();
    let batch = [&b"\x01"[..], &at(16_777_217), &at(16_777_216), b"\0\0\0\x04<v/>"].concat();
    kept("//v\n", &batch, b"\x01\0\0\0\0\0\0\0\x07<g></g>\0\0\0\x07<v></v>", 1);
}

#[test]
fn a_batch_at_fault() {
    refused("", "", 11, 0);
    refused("", [0], 11, 0);
    refused("", [2], 11, 0);
    refused("", b"\xFF\0\0\0\0", 11, 0);
    // "1 to 3 bytes left, or more promised than left"
    refused("", b"\x01\0", 11, 1);
    refused("", b"\x01\0\0", 11, 1);
    refused("", b"\x01\0\0\0", 11, 1);
    refused("", b"\x01\0\0\0\x01", 11, 1);
    refused("", b"\x01\0\0\0\x05<g/>", 11, 1);
    refused("", b"\x01\xFF\xFF\xFF\xFF<g/>", 11, 1);
    refused("", b"\x01\x01\0\0\x04<g/>", 11, 1);
    refused("", b"\x01\0\0\0\x04<g/>\0", 11, 9);
    refused("", b"\x01\0\0\0\x04<g/>\0\0\0\x05<g/>", 11, 9);
    refused("", b"\x01\0\0\0\x03<g/>\0\0\0\x04<g/>", 11, 8);
}

/// The layout is judged whole, so a bad document before the fault changes nothing, nor does the room.
#[test]
fn the_order_of_refusals() {
    refused("x".repeat(8_193), "", 1, 0);
    refused("x\n", "", 2, 1);
    refused("/v\n/v", b"\x02", 2, 2);
    refused("/v".repeat(17) + "\n", b"\x01\0", 3, 1);
    refused("/v\n".repeat(33), b"\x01\0\0\0\x01x", 3, 33);
    refused("//v\n", b"\x01\0\0\0\x01x\0", 11, 6);
    refused("//v\n", b"\x01\0\0\0\x0c<!DOCTYPE g>\0\0\0\x01", 11, 17);
}

#[test]
fn the_size_of_a_batch() {
    let mut batch = vec![b'.'; 67_108_864];
    batch[..5].copy_from_slice(&[1, 0x03, 0xFF, 0xFF, 0xFB]);
    kept("", &batch, b"\x01\0\0\0\0", 0);
    batch.push(b'.');
    batch[4] = 0xFC;
    refused("", &batch, 11, 0);
    refused("x\n", &batch, 2, 1);
    // Over the size and of another version, or at fault in a length, it is at 0 as well.
    batch[1] = 0xFF;
    refused("", &batch, 11, 0);
    batch[0] = 2;
    refused("", &batch, 11, 0);
}

/// an entry of length 0 in a wide result is refused again, so the narrow result of the wide one is the narrow result.
#[test]
fn narrow_of_wide() {
    let batch = b"\x01\0\0\0\x0f<g><v/>x<n/></g>\0\0\0\x01x\0\0\0\x04<n/>";
    assert_eq!(crate::batch(b"", batch, &mut []).number, 11);
    let batch = b"\x01\0\0\0\x10<g><v/>x<n/></g>\0\0\0\x01x\0\0\0\x04<n/>";
    let wide = b"\x01\0\0\0\x15<g><v></v><n></n></g>\0\0\0\0\0\0\0\x07<n></n>";
    let narrow = b"\x01\0\0\0\x0e<g><n></n></g>\0\0\0\0\0\0\0\x07<n></n>";
    kept("//v\n//n\n", batch, wide, 3);
    kept("//n\n", batch, narrow, 2);
    kept("//n\n", wide, narrow, 2);
}
