// A case asked of a program: the buffer before the call, the numbers, and the buffer after it. The digest is over the whole buffer, so it
// also says that a refusal changed nothing and that the bytes after a cut stayed.

use crate::crc::crc32;
use crate::made::Case;

/// The four numbers of a single cut, in order.
pub type Four = [u64; 4];

/// A program: from a list, a document and a buffer the four numbers.
pub type Program = fn(&[u8], &[u8], &mut [u8]) -> Four;

/// The buffer before a call: byte i is i modulo 251. 251 is prime, so no shift of the bytes by a power of two looks like the bytes
/// themselves.
pub fn fresh(room: usize) -> Vec<u8> {
    let turn: Vec<u8> = (0..251).collect();
    let mut bytes = turn.repeat(room / 251 + 1);
    bytes.truncate(room);
    bytes
}

/// The program's numbers, and the buffer after the call.
pub fn ask(case: &Case, program: Program) -> (Four, Vec<u8>) {
    let mut out = fresh(case.room);
    let numbers = program(&case.list, &case.doc, &mut out);
    (numbers, out)
}

/// The line of the answers for this case.
pub fn line(case: &Case, program: Program) -> String {
    let ([number, second, third, fourth], out) = ask(case, program);
    format!("{number} {second} {third} {fourth} {:08x}", crc32(&out))
}

/// The second program.
pub fn second(list: &[u8], doc: &[u8], out: &mut [u8]) -> Four {
    let second::Numbers { number, second, third, fourth } = second::cut(list, doc, out);
    [number, second, third, fourth]
}
