// Bytes looked for eight at a time. A word's byte that is zero is found by a subtraction, whose borrow can only reach bytes above the first
// that is: so the lowest bit that is left tells the first byte, also where several words of bits are joined.

const LOW: u64 = 0x0101_0101_0101_0101;
const HIGH: u64 = 0x8080_8080_8080_8080;

/// Eight bytes from a place on, where there are as many.
#[inline(always)]
pub fn word_at(doc: &[u8], at: usize) -> Option<u64> {
    let eight = doc.get(at..at + 8)?;
    Some(u64::from_le_bytes(eight.try_into().ok()?))
}

/// The high bits of the bytes that are `byte`, right up to the first of them.
fn is(word: u64, byte: u8) -> u64 {
    let zero = word ^ LOW * u64::from(byte);
    zero.wrapping_sub(LOW) & !zero & HIGH
}

/// Where the first of three bytes stands, from a place on; or the length.
#[inline(always)]
pub fn first_of(doc: &[u8], from: usize, bytes: [u8; 3]) -> usize {
    let mut at = from;
    while let Some(word) = word_at(doc, at) {
        let found = is(word, bytes[0]) | is(word, bytes[1]) | is(word, bytes[2]);
        if found != 0 {
            return at + found.trailing_zeros() as usize / 8;
        }
        at += 8;
    }
    while doc.get(at).map_or(false, |b| !bytes.contains(b)) {
        at += 1;
    }
    at
}

/// Where a text that begins with `byte` may begin next, from a place on.
pub fn first(doc: &[u8], from: usize, byte: u8) -> usize {
    first_of(doc, from, [byte; 3])
}
