// The check of characters that the library hands out, behind a safe function: the crate over the library has no call of it. Nothing checks
// the declaration against the Rattle source.

extern "C" {
    fn choughbell_characters(s: *const u8, len: usize) -> usize;
}

/// How many bytes at the front are characters that XML allows.
pub fn check(s: &[u8]) -> usize {
    unsafe { choughbell_characters(s.as_ptr(), s.len()) }
}
