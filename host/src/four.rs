//! Four clients in one call, for callers in Rust: each has a list and a buffer of its own, and gets what a call made for it alone gives.
use crate::{room, Cut, FourNumbers, Refusal, Written, NOTES};

extern "C" {
    // As in crates/clients_c/src/lib.rt: a slice is its pointer and then its length, an array its pointer.
    fn choughbell_four(
        list1: *const u8,
        list1_len: usize,
        list2: *const u8,
        list2_len: usize,
        list3: *const u8,
        list3_len: usize,
        list4: *const u8,
        list4_len: usize,
        doc: *const u8,
        doc_len: usize,
        out1: *mut u8,
        out1_len: usize,
        out2: *mut u8,
        out2_len: usize,
        out3: *mut u8,
        out3_len: usize,
        out4: *mut u8,
        out4_len: usize,
        results: *mut [FourNumbers; 4],
    );
    fn choughbell_four_with(
        list1: *const u8,
        list1_len: usize,
        list2: *const u8,
        list2_len: usize,
        list3: *const u8,
        list3_len: usize,
        list4: *const u8,
        list4_len: usize,
        doc: *const u8,
        doc_len: usize,
        out1: *mut u8,
        out1_len: usize,
        out2: *mut u8,
        out2_len: usize,
        out3: *mut u8,
        out3_len: usize,
        out4: *mut u8,
        out4_len: usize,
        log1: *mut u64,
        log1_len: usize,
        log2: *mut u64,
        log2_len: usize,
        log3: *mut u64,
        log3_len: usize,
        log4: *mut u64,
        log4_len: usize,
        results: *mut [FourNumbers; 4],
    );
}

/// What stands in the results before the call, which sets them all.
const UNSET: FourNumbers = FourNumbers { number: 0, second: 0, third: 0, fourth: 0 };

/// Writes the cut of a document by each of four lists to the front of its own buffer, and gives the numbers of each, in their order. What a
/// client gets, its numbers and every byte of its buffer, is what `cut` gives it alone: a fault in the document reaches each client whose
/// list is sound, a fault in a list and a buffer that is too short its owner only. A seat that is not used has an empty list.
///
/// ```
/// let mut outs = [[b'.'; 24]; 4];
/// let [out1, out2, out3, out4] = &mut outs;
/// let numbers = choughbell::four([b"//v\n", b"v\n", b"//n\n", b""], b"<g><p><v/></p></g>", [out1, out2, out3, out4]);
/// assert_eq!(numbers.map(|seat| (seat.number, seat.second, seat.third)), [(0, 21, 1), (2, 1, 0), (0, 7, 0), (0, 7, 0)]);
/// assert_eq!(&outs[0], b"<g><p><v></v></p></g>...");
/// assert_eq!((&outs[1], &outs[3][..8]), (&[b'.'; 24], &b"<g></g>."[..]));
/// ```
pub fn four(lists: [&[u8]; 4], doc: &[u8], outs: [&mut [u8]; 4]) -> [FourNumbers; 4] {
    let mut results = [UNSET; 4];
    let [l1, l2, l3, l4] = lists;
    let [o1, o2, o3, o4] = outs;
    // SAFETY: each pointer and length are those of a slice that is borrowed for the call, the four of `outs` alone for writing, so that
    // none overlaps another. The array of results has the layout of the library's sixteen numbers.
    unsafe {
        choughbell_four(
            l1.as_ptr(),
            l1.len(),
            l2.as_ptr(),
            l2.len(),
            l3.as_ptr(),
            l3.len(),
            l4.as_ptr(),
            l4.len(),
            doc.as_ptr(),
            doc.len(),
            o1.as_mut_ptr(),
            o1.len(),
            o2.as_mut_ptr(),
            o2.len(),
            o3.as_mut_ptr(),
            o3.len(),
            o4.as_mut_ptr(),
            o4.len(),
            &mut results,
        );
    }
    results
}

/// The same, with a log for each client that is lent: room for notes on what is written, as `cut_with` has it. Numbers and bytes do not
/// depend on the logs, and what they hold afterwards says nothing.
pub fn four_with(lists: [&[u8]; 4], doc: &[u8], outs: [&mut [u8]; 4], logs: [&mut [u64]; 4]) -> [FourNumbers; 4] {
    let mut results = [UNSET; 4];
    let [l1, l2, l3, l4] = lists;
    let [o1, o2, o3, o4] = outs;
    let [g1, g2, g3, g4] = logs;
    // SAFETY: as above; the four of `logs` are borrowed alone for writing too.
    unsafe {
        choughbell_four_with(
            l1.as_ptr(),
            l1.len(),
            l2.as_ptr(),
            l2.len(),
            l3.as_ptr(),
            l3.len(),
            l4.as_ptr(),
            l4.len(),
            doc.as_ptr(),
            doc.len(),
            o1.as_mut_ptr(),
            o1.len(),
            o2.as_mut_ptr(),
            o2.len(),
            o3.as_mut_ptr(),
            o3.len(),
            o4.as_mut_ptr(),
            o4.len(),
            g1.as_mut_ptr(),
            g1.len(),
            g2.as_mut_ptr(),
            g2.len(),
            g3.as_mut_ptr(),
            g3.len(),
            g4.as_mut_ptr(),
            g4.len(),
            &mut results,
        );
    }
    results
}

/// Four buffers, lent.
fn lent<T>(vecs: &mut [Vec<T>; 4]) -> [&mut [T]; 4] {
    let [first, second, third, fourth] = vecs;
    [first, second, third, fourth]
}

/// The cuts of a document by four lists, in buffers that suffice: `Refusal::Short` is never an answer. A seat that is not used has an empty
/// list, and gets the root's tags.
///
/// ```
/// let [atlas, desk, ..] = choughbell::four_of([b"//v\n", b"v\n", b"", b""], b"<g><p><v/></p></g>");
/// assert_eq!(atlas.unwrap().bytes, b"<g><p><v></v></p></g>");
/// assert_eq!(desk, Err(choughbell::Refusal::ListMalformed { line: 1 }));
/// ```
pub fn four_of(lists: [&[u8]; 4], doc: &[u8]) -> [Result<Cut, Refusal>; 4] {
    // The room of `cut_of`; by an empty list at most the root's two tags, with a name of 255 bytes, and their notes.
    let seats = lists.map(|list| if list.is_empty() { (room(doc).min(515), 16) } else { (room(doc), NOTES.min(doc.len() / 2)) });
    let mut outs = seats.map(|(bytes, _)| vec![0; bytes]);
    let mut logs = seats.map(|(_, notes)| vec![0; notes]);
    let numbers = four_with(lists, doc, lent(&mut outs), lent(&mut logs));
    let mut seats = numbers.into_iter().zip(outs).map(|(numbers, mut bytes)| {
        let Written { length, selected, name_tests } = numbers.answer()?;
        bytes.truncate(length as usize);
        Ok(Cut { bytes, selected, name_tests })
    });
    std::array::from_fn(|_| seats.next().expect("a result for each seat"))
}

#[cfg(test)]
mod tests {
    use super::*;
    use crate::{cut, cut_of, largest, DOCUMENT_LIMIT};

    const DOC: &[u8] = b"<g><p><v k='1'>a</v></p><w><v/>b</w><v/></g>";
    const LISTS: [&[u8]; 8] = [b"//v\n", b"//w #\n", b"", b"v\n", b"/g/p/v[@k=\"1\"] #\n", b"//v\n//w\n", b"/g/x/\n", b"//*\n"];

    /// Each client's numbers and buffer by one call, with rooms and logs of some lengths.
    fn together(lists: [&[u8]; 4], doc: &[u8], rooms: [usize; 4], notes: Option<usize>) -> Vec<(FourNumbers, Vec<u8>)> {
        let mut outs = rooms.map(|room| vec![b'+'; room]);
        let numbers = match notes {
            None => four(lists, doc, lent(&mut outs)),
            Some(notes) => four_with(lists, doc, lent(&mut outs), lent(&mut [(); 4].map(|()| vec![u64::MAX; notes]))),
        };
        numbers.into_iter().zip(outs).collect()
    }

    fn alone(list: &[u8], doc: &[u8], room: usize) -> (FourNumbers, Vec<u8>) {
        let mut out = vec![b'+'; room];
        (cut(list, doc, &mut out), out)
    }

    #[test]
    fn each_client_gets_what_it_gets_alone() {
        for shift in 0..LISTS.len() {
            let lists = std::array::from_fn(|seat| LISTS[(shift + 3 * seat) % LISTS.len()]);
            for doc in [DOC, b"<g>", b"", b"<g/>", b"<g>\xFF</g>", b"<?xml version='1.0' encoding='x'?><g/>"] {
                let rooms = std::array::from_fn(|seat| [0, 7, 40, 80][(seat + shift) % 4]);
                let single: Vec<_> = lists.iter().zip(rooms).map(|(list, room)| alone(list, doc, room)).collect();
                assert_eq!(together(lists, doc, rooms, None), single);
                assert_eq!(together(lists, doc, rooms, Some(0)), single);
                assert_eq!(together(lists, doc, rooms, Some(shift)), single);
            }
        }
    }

    #[test]
    fn a_client_does_not_depend_on_the_others() {
        for seat in 0..4 {
            let mut lists = [LISTS[7]; 4];
            lists[seat] = LISTS[0];
            let got = together(lists, DOC, [80; 4], None).swap_remove(seat);
            let (mut others, mut rooms) = ([LISTS[3], LISTS[6], LISTS[1], LISTS[2]], [3, 0, 5, 1]);
            (others[seat], rooms[seat]) = (LISTS[0], 80);
            assert_eq!(together(others, DOC, rooms, None)[seat], got);
        }
    }

    #[test]
    fn four_of_brings_its_room() {
        let name = "n".repeat(255);
        let long = format!("<{name}/>");
        for doc in [DOC, b"<g/>", b"<g", long.as_bytes()] {
            for lists in [[LISTS[0], LISTS[1], LISTS[2], LISTS[3]], [LISTS[4], LISTS[5], LISTS[6], LISTS[7]]] {
                assert_eq!(four_of(lists, doc), lists.map(|list| cut_of(list, doc)));
            }
        }
    }

    #[test]
    fn nothing_is_reserved_for_what_is_too_long() {
        let long = vec![b' '; DOCUMENT_LIMIT + 1];
        let none = || assert!(four_of([b"//v\n", b"", b"", b""], &long).iter().all(|seat| *seat == Err(Refusal::DocumentTooLong)));
        assert!(largest::during(none) <= 8 * NOTES);
        // And for seats that are not used next to nothing.
        assert!(largest::during(|| drop(four_of([b""; 4], &long[1..]))) <= 515);
    }
}
