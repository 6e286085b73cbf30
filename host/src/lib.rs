//! The proved filter, for callers in Rust: functions on byte slices. `cut` writes into a lent buffer, as the library does; `cut_of` brings
//! a buffer of its own; `check` judges a document alone. `plain` and `plain_of` cut by the plain engine, a second one to be read,
//! and give the same numbers and bytes; they count no name tests. `batch` and `batch_of` cut many documents in one call; `four`,
//! `four_with` and `four_of` cut one document for four clients. `rows` and `rows_of` write a table for a spreadsheet. `pack` and
//! `unpack` bring a list into its packed form and back, `covers` and `covers_of` compare two lists, `mend` and `mend_of` keep what is whole
//! of a document that stops half way.
//!
//! The static library comes from Rattle. Its contract asks nothing of the lists and documents that it is given, and says of every byte of
//! the buffer what it is afterwards. What a caller of the library's own function owes is that the buffer overlaps neither the list nor the
//! document; here the types see to that, since `out` is borrowed for writing and the others for reading.
//!
//! Any number of threads may call at once: the library allocates nothing, and keeps nothing between calls. A call takes less than 96 KiB of
//! stack, with a log that is lent less than 64, by the plain engine less than 192, for four clients less than 512 and with logs that are
//! lent less than 384, and to mend less than 8. The functions in `_of` allocate their buffer, after they have looked at the length: for
//! what is over a limit there is none.
//!
//! ```
//! let cut = choughbell::cut_of(b"//v\n", b"<g><p><v/></p></g>").unwrap();
//! assert_eq!((cut.bytes.as_slice(), cut.selected, cut.name_tests), (&b"<g><p><v></v></p></g>"[..], 1, 3));
//!
//! let refusal = choughbell::check(b"<g><v></g>").unwrap_err();
//! assert_eq!((refusal.number(), refusal.offset()), (7, Some(6)));
//! assert_eq!(refusal.to_string(), "7: not well-formed, at offset 6");
//! ```

mod answer;
mod bundle;
mod four;
#[cfg(test)]
mod largest;
mod mending;
mod packed;
mod rows;

pub use answer::{Refusal, Written};
pub use bundle::{bundle, entries};
pub use four::{four, four_of, four_with};
pub use mending::{mend, mend_of, Mended, MENDED_MORE};
pub use packed::{pack, pack_of, unpack, unpack_of, PACKED_LIMIT};
pub use rows::{rows, rows_of, Rows};

/// A longer list is answer 1.
pub const LIST_LIMIT: usize = 8_192;
/// A longer document is answer 4.
pub const DOCUMENT_LIMIT: usize = 16_777_216;
/// A longer batch is answer 11.
pub const BATCH_LIMIT: usize = 67_108_864;

/// The numbers that a cut hands back: which answer it is, and what goes with it. Of mending they are other ones: see `mend`.
#[must_use = "the numbers say whether anything is written"]
#[repr(C)]
#[derive(Clone, Copy, PartialEq, Eq, Debug)]
pub struct FourNumbers {
    /// 0 where the cut is written, else why it is refused.
    pub number: u64,
    /// Under 0 the length written, under 9 the length needed, else the line or the offset at fault, or 0.
    pub second: u64,
    /// Under 0 how many elements are selected, else 0.
    pub third: u64,
    /// Under 0 how many name tests were tried, else 0.
    pub fourth: u64,
}

/// The numbers that a call hands back which counts no name tests: a cut by the plain engine, a batch, rows; a document alone and a packed
/// list, whose third is always 0; and the check of two lists.
#[must_use = "the numbers say whether anything is written"]
#[repr(C)]
#[derive(Clone, Copy, PartialEq, Eq, Debug)]
pub struct Numbers {
    /// 0 where what is asked for is sound or written, else why it is refused.
    pub number: u64,
    /// Under 0 the length written, or of two lists 1 if the narrow one is covered; under 9 the length needed, else the line or the offset
    /// at fault, or 0.
    pub second: u64,
    /// Under 0 how many elements are selected, in a batch in all documents; of two lists, which is refused, 1 or 2; else 0.
    pub third: u64,
}

#[link(name = "exported", kind = "static")]
extern "C" {
    // Nothing checks these against the Rattle source, crates/exported_c/src/lib.rt: a slice is its pointer and then its length.
    fn choughbell_judge(doc: *const u8, doc_len: usize) -> Numbers;
    fn choughbell_plain(list: *const u8, list_len: usize, doc: *const u8, doc_len: usize, out: *mut u8, out_len: usize) -> Numbers;
    fn choughbell_batch(list: *const u8, list_len: usize, batch: *const u8, batch_len: usize, out: *mut u8, out_len: usize) -> Numbers;
    fn choughbell_covers(narrow: *const u8, narrow_len: usize, wide: *const u8, wide_len: usize) -> Numbers;
    fn choughbell_cut(list: *const u8, list_len: usize, doc: *const u8, doc_len: usize, out: *mut u8, out_len: usize) -> FourNumbers;
    fn choughbell_cut_with(
        list: *const u8,
        list_len: usize,
        doc: *const u8,
        doc_len: usize,
        out: *mut u8,
        out_len: usize,
        log: *mut u64,
        log_len: usize,
    ) -> FourNumbers;
}

/// Notes enough for a cut of most documents, in a megabyte.
const NOTES: usize = 131_072;

/// Writes the cut of a document by a list to the front of `out`, or refuses and leaves all of `out` as it was. For a document of n bytes a
/// buffer of 2n - 1 bytes always suffices.
///
/// ```
/// let mut out = [0; 20];
/// let numbers = choughbell::cut(b"//v\n", b"<g><p><v/></p></g>", &mut out);
/// assert_eq!((numbers.number, numbers.second, numbers.third, numbers.fourth), (9, 21, 0, 0));
/// assert_eq!(out, [0; 20]);
/// ```
pub fn cut(list: &[u8], doc: &[u8], out: &mut [u8]) -> FourNumbers {
    // SAFETY: each pointer and length are those of a slice that is borrowed for the call, `out` alone for writing.
    unsafe { choughbell_cut(list.as_ptr(), list.len(), doc.as_ptr(), doc.len(), out.as_mut_ptr(), out.len()) }
}

/// The same, with a log that is lent: room for notes on what is written. Where all notes fit, the document is gone through once, and else a
/// second time. Numbers and bytes do not depend on the log, and what it holds afterwards says nothing.
///
/// ```
/// let (mut out, mut log) = ([0; 21], [7; 3]);
/// let numbers = choughbell::cut_with(b"//v\n", b"<g><p><v/></p></g>", &mut out, &mut log);
/// assert_eq!((numbers.number, numbers.second, numbers.third, numbers.fourth), (0, 21, 1, 3));
/// assert_eq!(&out, b"<g><p><v></v></p></g>");
/// ```
pub fn cut_with(list: &[u8], doc: &[u8], out: &mut [u8], log: &mut [u64]) -> FourNumbers {
    // SAFETY: each pointer and length are those of a slice that is borrowed for the call, `out` and `log` alone for writing.
    unsafe {
        choughbell_cut_with(list.as_ptr(), list.len(), doc.as_ptr(), doc.len(), out.as_mut_ptr(), out.len(), log.as_mut_ptr(), log.len())
    }
}

/// A cut with its bytes.
#[derive(Clone, PartialEq, Eq, Debug)]
pub struct Cut {
    /// What is written.
    pub bytes: Vec<u8>,
    /// How many elements the list selects, those inside a kept entry too.
    pub selected: u64,
    /// How many name tests were tried, over the whole document.
    pub name_tests: u64,
}

/// The room that a cut needs at most. A document over the limit is refused by 4, which comes before 9: it needs none.
fn room(doc: &[u8]) -> usize {
    if doc.len() > DOCUMENT_LIMIT {
        return 0;
    }
    (2 * doc.len()).saturating_sub(1)
}

/// The cut of a document by a list, in a buffer that suffices: `Refusal::Short` is never the answer.
pub fn cut_of(list: &[u8], doc: &[u8]) -> Result<Cut, Refusal> {
    // With so much room no list and no document are answered by 9: `never_short` in crates/demands/proofs/Room.antt.
    let mut bytes = vec![0; room(doc)];
    // An element takes two notes at most and has four bytes, so that a short document asks for a short log.
    let mut log = vec![0; NOTES.min(doc.len() / 2)];
    let Written { length, selected, name_tests } = cut_with(list, doc, &mut bytes, &mut log).answer()?;
    bytes.truncate(length as usize);
    Ok(Cut { bytes, selected, name_tests })
}

/// The same by the plain engine, which goes down the tree and tries the paths at each element from the top. It is proved to give the
/// numbers and bytes of `cut`, and takes longer.
///
/// ```
/// let (mut ours, mut plain) = ([7; 40], [7; 40]);
/// let numbers = choughbell::plain(b"//v\n", b"<g><p><v/></p></g>", &mut plain);
/// assert_eq!((numbers.number, numbers.second, numbers.third), (0, 21, 1));
/// assert_eq!(choughbell::cut(b"//v\n", b"<g><p><v/></p></g>", &mut ours).number, 0);
/// assert_eq!(plain, ours);
/// ```
pub fn plain(list: &[u8], doc: &[u8], out: &mut [u8]) -> Numbers {
    // SAFETY: each pointer and length are those of a slice that is borrowed for the call, `out` alone for writing.
    unsafe { choughbell_plain(list.as_ptr(), list.len(), doc.as_ptr(), doc.len(), out.as_mut_ptr(), out.len()) }
}

/// A cut by the plain engine with its bytes.
#[derive(Clone, PartialEq, Eq, Debug)]
pub struct Plain {
    /// What is written.
    pub bytes: Vec<u8>,
    /// How many elements the list selects, those inside a kept entry too.
    pub selected: u64,
}

/// As `cut_of`, by the plain engine.
pub fn plain_of(list: &[u8], doc: &[u8]) -> Result<Plain, Refusal> {
    // As much room as `cut_of` has; the number is that of `cut`.
    let mut bytes = vec![0; room(doc)];
    let numbers = plain(list, doc, &mut bytes);
    if let Some(refusal) = Refusal::of(numbers.number, numbers.second) {
        return Err(refusal);
    }
    bytes.truncate(numbers.second as usize);
    Ok(Plain { bytes, selected: numbers.third })
}

/// Whether a document is sound, within the sizes: what `cut` answers by a list that is sound itself, in a room that suffices. It is never
/// 1 to 3 or 9.
pub fn check(doc: &[u8]) -> Result<(), Refusal> {
    // SAFETY: each pointer and length are those of a slice that is borrowed for the call, for reading alone.
    let numbers = unsafe { choughbell_judge(doc.as_ptr(), doc.len()) };
    Refusal::of(numbers.number, numbers.second).map_or(Ok(()), Err)
}

/// Cuts each document of a batch by one list and writes the result to the front of `out`, or refuses the batch as a whole and leaves all of
/// `out` as it was. A batch is the byte 1, then for each document its length, four bytes with the highest first, and its bytes; `bundle`
/// makes one. The result has the same layout, with the cut of each document, or length 0 where the document is refused by 4 to 8 or 10;
/// `check` says by which. A buffer of twice the bytes of the batch always suffices, and then each document is gone through once.
///
/// ```
/// let batch = choughbell::bundle([&b"<g><v/></g>"[..], b"<g>"]);
/// let mut out = [b'+'; 24];
/// let numbers = choughbell::batch(b"//v\n", &batch, &mut out);
/// assert_eq!((numbers.number, numbers.second, numbers.third), (0, 23, 1));
/// assert_eq!(&out, b"\x01\0\0\0\x0E<g><v></v></g>\0\0\0\0+");
/// ```
pub fn batch(list: &[u8], batch: &[u8], out: &mut [u8]) -> Numbers {
    // SAFETY: each pointer and length are those of a slice that is borrowed for the call, `out` alone for writing.
    unsafe { choughbell_batch(list.as_ptr(), list.len(), batch.as_ptr(), batch.len(), out.as_mut_ptr(), out.len()) }
}

/// The result of a batch with its bytes.
#[derive(Clone, PartialEq, Eq, Debug)]
pub struct Batch {
    /// A batch itself: an entry for each document, in their order. `entries` takes it apart.
    pub bytes: Vec<u8>,
    /// How many elements the list selects in all documents.
    pub selected: u64,
}

/// The result of a batch by a list, in a buffer that suffices: `Refusal::Short` is never the answer.
pub fn batch_of(list: &[u8], bytes: &[u8]) -> Result<Batch, Refusal> {
    // No result has more bytes: `result_under` in crates/batch/proofs/Bounds.antt. A batch over the limit is refused
    // by 11, which comes before 9.
    let mut room = vec![0; if bytes.len() > BATCH_LIMIT { 0 } else { 2 * bytes.len() }];
    let Numbers { number, second, third } = batch(list, bytes, &mut room);
    match Refusal::of(number, second) {
        Some(refusal) => Err(refusal),
        None => {
            room.truncate(second as usize);
            Ok(Batch { bytes: room, selected: third })
        }
    }
}

/// Which of two lists is refused.
#[derive(Clone, Copy, PartialEq, Eq, Debug)]
pub enum Which {
    Narrow,
    Wide,
}

impl Which {
    /// The third number of a refusal: 1 or 2.
    pub fn number(self) -> u64 {
        match self {
            Which::Narrow => 1,
            Which::Wide => 2,
        }
    }
}

/// The numbers of the check of two lists: under 0 the second is 1 if every path of the narrow list is covered by a path of the wide list,
/// marked if it is, and else 0. Under 1 to 3 the third is 1 or 2 for the list, the narrow one first.
pub fn covers(narrow: &[u8], wide: &[u8]) -> Numbers {
    // SAFETY: each pointer and length are those of a slice that is borrowed for the call, for reading alone.
    unsafe { choughbell_covers(narrow.as_ptr(), narrow.len(), wide.as_ptr(), wide.len()) }
}

/// Whether every path of a narrow list is covered by a path of a wide list, marked if it is; or which list is refused, the narrow one
/// first, by 1 to 3. Where it is so, cutting the wide list's cut of a document by the narrow list gives what cutting the document gives:
/// `demand_3_checked` in crates/demands/proofs/Demands.antt.
///
/// ```
/// assert_eq!(choughbell::covers_of(b"/g/p/v\n", b"//v\n"), Ok(true));
/// assert_eq!(choughbell::covers_of(b"//v\n", b"/g/p/v\n"), Ok(false));
/// ```
pub fn covers_of(narrow: &[u8], wide: &[u8]) -> Result<bool, (Which, Refusal)> {
    let Numbers { number, second, third } = covers(narrow, wide);
    let which = if third == 1 { Which::Narrow } else { Which::Wide };
    Refusal::of(number, second).map_or(Ok(second == 1), |refusal| Err((which, refusal)))
}

#[cfg(test)]
mod tests {
    use super::*;

    #[test]
    fn covering_takes_the_narrow_list_first() {
        let long = vec![b'/'; LIST_LIMIT + 1];
        assert_eq!(covers_of(&long, &long), Err((Which::Narrow, Refusal::ListTooLong)));
        assert_eq!(covers_of(b"", &long), Err((Which::Wide, Refusal::ListTooLong)));
        assert_eq!(covers_of(b"/v\nv\n", &long), Err((Which::Narrow, Refusal::ListMalformed { line: 2 })));
        assert_eq!(covers_of(b"", &b"/v\n".repeat(33)), Err((Which::Wide, Refusal::ListTooLarge { line: 33 })));
        assert_eq!((Which::Narrow.number(), Which::Wide.number()), (1, 2));
        assert_eq!(covers_of(b"", b""), Ok(true));
    }

    #[test]
    fn covering_goes_by_steps_tests_and_marks() {
        for (narrow, wide, is) in [
            ("/g/p/v\n", "/g//v\n", true),
            ("/g/p/v\n", "//p/v\n", true),
            ("/g/p/v\n", "/g/v\n", false),
            ("/a/*//b\n", "/a//*/b\n", false),
            ("/a//*/b\n", "/a/*//b\n", false),
            ("/v[@k=\"x\"]\n", "//v\n", true),
            ("/v[@k=\"x\"]\n", "//v[@k=\"y\"]\n", false),
            ("/g/self::g\n", "/g/self::g #\n", true),
            ("/g/self::g #\n", "/g/self::g\n", false),
            ("/g\n", "/g/self::g\n", false),
        ] {
            assert_eq!(covers_of(narrow.as_bytes(), wide.as_bytes()), Ok(is), "{narrow}{wide}");
        }
    }

    #[test]
    fn short_buffer_is_refused_and_left_alone() {
        let mut out = *b"twenty bytes of room";
        let numbers = cut(b"//v\n", b"<g><p><v/></p></g>", &mut out);
        assert_eq!(numbers, FourNumbers { number: 9, second: 21, third: 0, fourth: 0 });
        assert_eq!(numbers.answer(), Err(Refusal::Short { needed: 21 }));
        assert_eq!(&out, b"twenty bytes of room");
    }

    #[test]
    fn log_of_any_length_changes_nothing() {
        let list = b"//v\n//w #\n";
        let doc = b"<g><p><v k='1'>a</v></p><w><v/>b</w><v/></g>";
        let mut whole = [b'+'; 80];
        let numbers = cut(list, doc, &mut whole);
        assert_eq!((numbers.number, numbers.third), (0, 4));
        for length in 0..12 {
            let (mut out, mut log) = ([b'+'; 80], vec![u64::MAX; length]);
            assert_eq!(cut_with(list, doc, &mut out, &mut log), numbers, "{length}");
            assert_eq!(out, whole, "{length}");
        }
    }

    #[test]
    fn room_of_the_cut_is_enough_and_what_follows_stays() {
        let mut out = *b"_____________________++";
        let numbers = cut(b"//v\n", b"<g><p><v/></p></g>", &mut out);
        assert_eq!(numbers, FourNumbers { number: 0, second: 21, third: 1, fourth: 3 });
        assert_eq!(numbers.answer(), Ok(Written { length: 21, selected: 1, name_tests: 3 }));
        assert_eq!(&out, b"<g><p><v></v></p></g>++");
    }

    #[test]
    fn cut_of_brings_its_room() {
        // 4 bytes are cut to 7: all the room that there is.
        assert_eq!(cut_of(b"", b"<g/>"), Ok(Cut { bytes: b"<g></g>".to_vec(), selected: 0, name_tests: 0 }));
        assert_eq!(cut_of(b"/g\n", b"<g/>"), Ok(Cut { bytes: b"<g></g>".to_vec(), selected: 1, name_tests: 1 }));
        assert_eq!(cut_of(b"", b""), Err(Refusal::NotWellFormed { offset: 0 }));
        assert_eq!(cut_of(b"v\n", b"<g/>"), Err(Refusal::ListMalformed { line: 1 }));
        assert_eq!(cut_of(b"", &vec![b' '; DOCUMENT_LIMIT + 1]), Err(Refusal::DocumentTooLong));
    }

    #[test]
    fn nothing_is_reserved_for_what_is_too_long() {
        let (long, batch) = (vec![b' '; DOCUMENT_LIMIT + 1], vec![1; BATCH_LIMIT + 1]);
        // A log of a megabyte, and what mending adds, are all.
        let small = |work: &dyn Fn()| assert!(largest::during(work) <= 8 * NOTES);
        small(&|| assert_eq!(cut_of(b"", &long), Err(Refusal::DocumentTooLong)));
        small(&|| assert_eq!(plain_of(b"", &long), Err(Refusal::DocumentTooLong)));
        small(&|| assert_eq!(mend_of(&long), Err(Refusal::DocumentTooLong)));
        small(&|| assert_eq!(batch_of(b"", &batch), Err(Refusal::BadBatch { offset: 0 })));
        assert!(largest::during(|| drop(cut_of(b"", &long[1..]))) > DOCUMENT_LIMIT);
    }

    #[test]
    fn name_tests_go_by_elements_and_steps() {
        let tests = |list: &[u8], doc: &[u8]| cut_of(list, doc).unwrap().name_tests;
        let doc = b"<g><p><v/></p><q><v><w/></v></q></g>";
        // By `//v/w` each of the six elements is tried by the first step, and w alone, under a v, by the second.
        assert_eq!(tests(b"//v/w\n", doc), 7);
        // Inside a kept entry too; a repeated line counts again.
        assert_eq!(tests(b"//q #\n//v/w\n//v/w\n", doc), 20);
        // By `/g/*` the root, then p and q.
        assert_eq!(tests(b"/g/*\n", doc), 3);
        // A first step self is tried nowhere.
        assert_eq!(tests(b"/self::g\n", doc), 0);
    }

    #[test]
    fn plain_is_as_cut_but_for_the_name_tests() {
        let doc = b"<g><p><v k='1'>a</v></p><w><v/>b</w><v/></g>";
        for list in [&b"//v\n//w #\n"[..], b"", b"//w/v\n", b"/g/p/v[@k=\"1\"] #\n", b"v\n"] {
            for room in [0, 43, 80] {
                let (mut ours, mut plainly) = (vec![b'+'; room], vec![b'+'; room]);
                let FourNumbers { number, second, third, .. } = cut(list, doc, &mut ours);
                assert_eq!(plain(list, doc, &mut plainly), Numbers { number, second, third });
                assert_eq!(plainly, ours);
            }
        }
        assert_eq!(plain_of(b"/g\n", b"<g/>"), Ok(Plain { bytes: b"<g></g>".to_vec(), selected: 1 }));
        assert_eq!(plain_of(b"v\n", b"<g/>"), Err(Refusal::ListMalformed { line: 1 }));
        assert_eq!(plain_of(b"", b"<g><v></g>"), Err(Refusal::NotWellFormed { offset: 6 }));
    }

    #[test]
    fn entries_are_what_single_calls_give() {
        let deep = "<g>".repeat(65);
        let documents = [
            "<g><v/></g>",
            "",
            "<g>",
            "<!DOCTYPE g><g/>",
            "<g/>",
            deep.as_str(),
            "<v><v k='1'/>a</v>",
            "<?xml version='1.0' encoding='x'?><g/>",
        ];
        for list in [&b"//v\n"[..], b"//v #\n/g\n", b""] {
            let result = batch_of(list, &bundle(documents.map(str::as_bytes))).unwrap();
            let single = documents.map(|doc| cut_of(list, doc.as_bytes()));
            let expected = single.iter().map(|cut| cut.as_ref().map_or(&b""[..], |cut| &cut.bytes));
            assert_eq!(entries(&result.bytes), expected.collect::<Vec<_>>());
            assert_eq!(result.selected, single.iter().flatten().map(|cut| cut.selected).sum::<u64>());
        }
    }

    #[test]
    fn batches_are_refused_as_a_whole_and_the_buffer_is_left_alone() {
        let batch_into = |list: &[u8], bytes: &[u8], room: usize| {
            let mut out = vec![b'+'; room];
            let numbers = batch(list, bytes, &mut out);
            assert!(out.iter().all(|&b| b == b'+'));
            assert_eq!(numbers.third, 0);
            (numbers.number, numbers.second)
        };
        assert_eq!(batch_into(b"v\n", b"", 9), (2, 1));
        assert_eq!(batch_into(b"", b"", 9), (11, 0));
        assert_eq!(batch_into(b"", b"\x02", 9), (11, 0));
        assert_eq!(batch_into(b"", b"\x01\0\0\0", 9), (11, 1));
        assert_eq!(batch_into(b"", b"\x01\0\0\0\x01<\0\0\0\x02<", 9), (11, 6));
        assert_eq!(batch_into(b"", &vec![1; BATCH_LIMIT + 1], 9), (11, 0));
        assert_eq!(batch_into(b"", &bundle([&b"<g/>"[..]]), 11), (9, 12));
        assert_eq!(batch_into(b"", b"\x01", 0), (9, 1));
    }

    #[test]
    fn limits_of_a_batch() {
        let cuts = |batch: &[u8]| entries(&batch_of(b"", batch).unwrap().bytes).iter().map(|cut| cut.to_vec()).collect::<Vec<_>>();
        let expected = [b"".to_vec(), b"<g></g>".to_vec()];
        // A document over its limit is refused, and the batch goes on.
        assert_eq!(cuts(&bundle([&vec![b' '; DOCUMENT_LIMIT + 1][..], b"<g/>"])), expected);
        // A batch of exactly the limit: the version, two lengths, a long document and one of four bytes.
        let mut full = bundle([&vec![b' '; BATCH_LIMIT - 13][..], b"<g/>"]);
        assert_eq!(full.len(), BATCH_LIMIT);
        assert_eq!(cuts(&full), expected);
        full.push(0);
        assert_eq!(batch_of(b"", &full), Err(Refusal::BadBatch { offset: 0 }));
    }

    #[test]
    fn room_short_of_twice_the_batch_is_measured() {
        let bytes = bundle([&b"<g/>"[..], b"<g><v/></g>", b"x"]);
        let whole = batch_of(b"//v\n", &bytes).unwrap();
        for room in 0..2 * bytes.len() + 2 {
            let mut out = vec![b'+'; room];
            let numbers = batch(b"//v\n", &bytes, &mut out);
            if room < whole.bytes.len() {
                assert_eq!((numbers.number, numbers.second), (9, whole.bytes.len() as u64));
                assert!(out.iter().all(|&b| b == b'+'));
            } else {
                assert_eq!((numbers.number, numbers.second, numbers.third), (0, whole.bytes.len() as u64, 1));
                assert!(out.starts_with(&whole.bytes) && out[whole.bytes.len()..].iter().all(|&b| b == b'+'));
            }
        }
    }

    #[test]
    fn check_looks_at_the_document_alone() {
        assert_eq!(check(b"<g/>"), Ok(()));
        assert_eq!(check(b"<g><v></g>"), Err(Refusal::NotWellFormed { offset: 6 }));
        assert_eq!(check(b""), Err(Refusal::NotWellFormed { offset: 0 }));
        assert_eq!(check(&vec![b' '; DOCUMENT_LIMIT + 1]), Err(Refusal::DocumentTooLong));
        assert_eq!(check(b"<g>\xFF</g>"), Err(Refusal::NotCharacter { offset: 3 }));
        assert_eq!(check(b"<!DOCTYPE g><g/>"), Err(Refusal::DocumentType { offset: 0 }));
        assert_eq!(check("<g>".repeat(65).as_bytes()), Err(Refusal::OverSize { offset: 192 }));
        assert_eq!(check(b"<?xml version='1.0' encoding='UTF-16'?>\xFF"), Err(Refusal::OtherEncoding { offset: 0 }));
        assert_eq!(check(b"\xEF\xBB\xBF<?xml version='1.0' encoding='x'?><g/>"), Err(Refusal::OtherEncoding { offset: 3 }));
        assert_eq!(check(b"<?xml version='1.0' encoding='Utf-8'?><g/>"), Ok(()));
    }
}
