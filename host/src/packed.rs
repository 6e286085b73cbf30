//! The packed list: from text to the packed form, and back. Both functions write into a lent buffer, as the library does; `pack_of` and
//! `unpack_of` bring a buffer of their own.
use crate::{Numbers, Refusal, LIST_LIMIT};

/// The longest packed form that a sound list has; anything longer is answer 13. This is proved: `pack_bound` in
/// crates/packed/proofs/Bound.antt.
pub const PACKED_LIMIT: usize = 8_833;

#[link(name = "exported", kind = "static")]
extern "C" {
    // Nothing checks these against the Rattle source, crates/exported_c/src/lib.rt: a slice is its pointer and then its length.
    fn choughbell_pack(text: *const u8, text_len: usize, out: *mut u8, out_len: usize) -> Numbers;
    fn choughbell_unpack(packed: *const u8, packed_len: usize, out: *mut u8, out_len: usize) -> Numbers;
}

/// Writes the packed form of a list to the front of `out`, or refuses, by 1 to 3 or 9, and leaves all of `out` as it was.
///
/// ```
/// let mut out = [7; 10];
/// let numbers = choughbell::pack(b"/a #\n", &mut out);
/// assert_eq!((numbers.number, numbers.second, numbers.third), (0, 9, 0));
/// assert_eq!(out, [1, 0, 6, 1, 1, 0, 1, b'a', 0, 7]);
/// ```
pub fn pack(text: &[u8], out: &mut [u8]) -> Numbers {
    // SAFETY: each pointer and length are those of a slice that is borrowed for the call, `out` alone for writing.
    unsafe { choughbell_pack(text.as_ptr(), text.len(), out.as_mut_ptr(), out.len()) }
}

/// Writes the text of a packed list to the front of `out`, or refuses, by 13 or 9, and leaves all of `out` as it was.
///
/// ```
/// let mut out = [0; 4];
/// let numbers = choughbell::unpack(&[1, 0, 6, 1, 1, 0, 1, b'a', 0], &mut out);
/// assert_eq!((numbers.number, numbers.second, numbers.third), (9, 5, 0));
/// ```
pub fn unpack(packed: &[u8], out: &mut [u8]) -> Numbers {
    // SAFETY: each pointer and length are those of a slice that is borrowed for the call, `out` alone for writing.
    unsafe { choughbell_unpack(packed.as_ptr(), packed.len(), out.as_mut_ptr(), out.len()) }
}

/// The packed form of a list, in a buffer that suffices: `Refusal::Short` is never the answer.
pub fn pack_of(text: &[u8]) -> Result<Vec<u8>, Refusal> {
    filled(PACKED_LIMIT, |out| pack(text, out))
}

/// The text of a packed list, in a buffer that suffices: `Refusal::Short` is never the answer.
pub fn unpack_of(packed: &[u8]) -> Result<Vec<u8>, Refusal> {
    filled(LIST_LIMIT, |out| unpack(packed, out))
}

fn filled(room: usize, write: impl FnOnce(&mut [u8]) -> Numbers) -> Result<Vec<u8>, Refusal> {
    let mut bytes = vec![0; room];
    let numbers = write(&mut bytes);
    if let Some(refusal) = Refusal::of(numbers.number, numbers.second) {
        return Err(refusal);
    }
    bytes.truncate(numbers.second as usize);
    Ok(bytes)
}

#[cfg(test)]
mod tests {
    use super::*;

    const LINE: &[u8] = &[0, 6, 0, 1, 0, 1, b'a', 0];

    #[test]
    fn text_and_packed_form_give_each_other() {
        let test: &[u8] = &[1, 0, 10, 1, 1, 1, 1, b'b', 1, b'k', 2, b'x', b'y'];
        let rows: [(&[u8], &[u8]); 4] =
            [(b"", &[1]), (b"/*\n", &[1, 0, 5, 0, 1, 0, 0, 0]), (b"//b[@k=\"xy\"] #\n", test), (b"/a\n", &[&[1], LINE].concat())];
        for (text, packed) in rows {
            assert_eq!(pack_of(text).as_deref(), Ok(packed));
            assert_eq!(unpack_of(packed).as_deref(), Ok(text));
        }
    }

    #[test]
    fn other_bytes_are_refused() {
        let bad: [&[u8]; 8] = [
            &[],
            &[2],
            &[1, 0],
            &[1, 0, 6, 2, 1, 0, 1, b'a', 0],
            &[1, 0, 3, 0, 0, 0],
            &[1, 0, 6, 0, 1, 4, 1, b'a', 0],
            &[&[1], LINE, &[0]].concat(),
            &vec![1; PACKED_LIMIT + 1],
        ];
        for packed in bad {
            let mut out = *b"room";
            assert_eq!(unpack(packed, &mut out), Numbers { number: 13, second: 0, third: 0 });
            assert_eq!((&out, unpack_of(packed)), (b"room", Err(Refusal::NotPacked)));
        }
        assert_eq!(pack_of(b"/a\n/b"), Err(Refusal::ListMalformed { line: 2 }));
        assert_eq!(pack_of(&[b'/'; LIST_LIMIT + 1]), Err(Refusal::ListTooLong));
        assert_eq!(pack_of("/a\n".repeat(33).as_bytes()), Err(Refusal::ListTooLarge { line: 33 }));
    }

    #[test]
    fn room_is_looked_at_last() {
        let mut out = *b"12345678";
        assert_eq!(pack(b"/a\n", &mut out), Numbers { number: 9, second: 9, third: 0 });
        assert_eq!(unpack(&[&[1], LINE].concat(), &mut out[..2]), Numbers { number: 9, second: 3, third: 0 });
        assert_eq!(unpack(&[1], &mut []), Numbers { number: 0, second: 0, third: 0 });
        assert_eq!(&out, b"12345678");
        assert_eq!(unpack(&[&[1], LINE].concat(), &mut out), Numbers { number: 0, second: 3, third: 0 });
        assert_eq!(&out, b"/a\n45678");
    }
}
