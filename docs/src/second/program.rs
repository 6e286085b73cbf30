//! What the program `cut` prints for a list and a document, and where its list comes from: "The program `cut`" of
//! document 01.

use std::path::Path;

use crate::limits::{PROGRAM_DOCUMENT_BYTES, PROGRAM_ROOM_BYTES};

/// The bytes of the list's file: "a file that can't be opened counts as an empty list".
pub fn list_at(path: &Path) -> Vec<u8> {
    std::fs::read(path).unwrap_or_default()
}

/// All that the program prints. `too long` comes "for every list", so before the list is judged.
pub fn printed(list: &[u8], doc: &[u8]) -> Vec<u8> {
    if doc.len() > PROGRAM_DOCUMENT_BYTES {
        return b"too long\n".to_vec();
    }
    let mut room = vec![0; PROGRAM_ROOM_BYTES];
    let numbers = crate::cut(list, doc, &mut room);
    if numbers.number != 0 {
        return format!("refused {} {}\n", numbers.number, numbers.second).into_bytes();
    }
    let mut lines = format!("kept {} {}\n", numbers.third, numbers.second).into_bytes();
    lines.extend_from_slice(&room[..numbers.second as usize]);
    lines.push(b'\n');
    lines
}
