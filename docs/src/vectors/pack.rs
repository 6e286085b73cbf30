// A pack: a file of cases, each kept by what differs from the case before it. A case is five numbers of two bytes, the low byte first
// (list_keep, list_more, doc_keep, doc_more, room), then the bytes of list_more and doc_more. Its list is the first list_keep bytes of the
// list before and then these; its document likewise. Before the first case both are empty.

use crate::made::Case;
use std::fs;

/// The packs of the program `vectors`, in its order.
pub const PACKS: [&str; 3] = ["suite", "named", "made"];

const LIST: usize = 16_000;
const DOC: usize = 60_000;
const ROOM: usize = 65_535;

/// The cases of a pack in a folder.
pub fn read(folder: &str, name: &str) -> Result<Vec<Case>, String> {
    let path = format!("{folder}/{name}");
    let bytes = fs::read(&path).map_err(|e| format!("{path}: {e}"))?;
    cases(&bytes).ok_or(format!("{path} is no pack"))
}

/// The pack's bytes.
pub fn write(cases: &[Case]) -> Vec<u8> {
    let mut pack = Vec::new();
    let (mut list, mut doc): (&[u8], &[u8]) = (&[], &[]);
    for case in cases {
        assert!(case.list.len() <= LIST && case.doc.len() <= DOC && case.room <= ROOM);
        let (lists, docs) = (common(list, &case.list), common(doc, &case.doc));
        for number in [lists, case.list.len() - lists, docs, case.doc.len() - docs, case.room] {
            pack.extend_from_slice(&(number as u16).to_le_bytes());
        }
        pack.extend_from_slice(&case.list[lists..]);
        pack.extend_from_slice(&case.doc[docs..]);
        list = &case.list;
        doc = &case.doc;
    }
    pack
}

/// The cases that these bytes hold, or nothing if they are no pack.
fn cases(mut pack: &[u8]) -> Option<Vec<Case>> {
    let mut cases: Vec<Case> = Vec::new();
    while !pack.is_empty() {
        let mut numbers = [0; 5];
        for number in numbers.iter_mut() {
            let bytes = take(&mut pack, 2)?;
            *number = usize::from(bytes[0]) + 256 * usize::from(bytes[1]);
        }
        let mut list = cases.last().map_or(&[][..], |c| &c.list).get(..numbers[0])?.to_vec();
        list.extend_from_slice(take(&mut pack, numbers[1])?);
        let mut doc = cases.last().map_or(&[][..], |c| &c.doc).get(..numbers[2])?.to_vec();
        doc.extend_from_slice(take(&mut pack, numbers[3])?);
        let room = numbers[4];
        cases.push(Case { list, doc, room });
    }
    Some(cases)
}

/// The first bytes of what is left, which are then no longer left.
fn take<'a>(left: &mut &'a [u8], length: usize) -> Option<&'a [u8]> {
    let (front, rest) = (left.get(..length)?, left.get(length..)?);
    *left = rest;
    Some(front)
}

/// How many bytes the two have in common at their fronts.
fn common(one: &[u8], other: &[u8]) -> usize {
    one.iter().zip(other).take_while(|(a, b)| a == b).count()
}
