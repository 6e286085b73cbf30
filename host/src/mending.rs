//! Mending, for callers in Rust: what is whole of a document that stops half way, with the end tags that are missing.
use crate::{FourNumbers, Refusal, DOCUMENT_LIMIT};

extern "C" {
    // As in crates/exported_c/src/mending.rt: a slice is its pointer and then its length.
    fn choughbell_mend(doc: *const u8, doc_len: usize, out: *mut u8, out_len: usize) -> FourNumbers;
}

/// A mended document has at most so many bytes more than the document: 64 end tags, each of a name of 255 bytes.
pub const MENDED_MORE: usize = 16_512;

/// Writes a document, mended, to the front of `out`, or refuses and leaves all of `out` as it was. Under 0 the second number is the length
/// written, the third the bytes kept, the fourth the end tags added. A buffer with `MENDED_MORE` bytes more than the document has always
/// suffices.
///
/// ```
/// let mut out = [b'.'; 16];
/// let numbers = choughbell::mend(b"<g><n>Aar", &mut out);
/// assert_eq!((numbers.number, numbers.second, numbers.third, numbers.fourth), (0, 14, 6, 2));
/// assert_eq!(&out, b"<g><n></n></g>..");
/// ```
pub fn mend(doc: &[u8], out: &mut [u8]) -> FourNumbers {
    // SAFETY: each pointer and length are those of a slice that is borrowed for the call, `out` alone for writing.
    unsafe { choughbell_mend(doc.as_ptr(), doc.len(), out.as_mut_ptr(), out.len()) }
}

/// A mended document.
#[derive(Clone, PartialEq, Eq, Debug)]
pub struct Mended {
    /// The bytes that are kept and the end tags that are added.
    pub bytes: Vec<u8>,
    /// How many bytes at the front of the document are kept.
    pub kept: u64,
    /// How many end tags are added.
    pub added: u64,
}

/// A document, mended, in a buffer that suffices: `Refusal::Short` is never the answer.
///
/// ```
/// let mended = choughbell::mend_of(b"<g><n>Aar").unwrap();
/// assert_eq!((mended.bytes.as_slice(), mended.kept, mended.added), (&b"<g><n></n></g>"[..], 6, 2));
/// assert_eq!(choughbell::mend_of(b"<g"), Err(choughbell::Refusal::NoRoot { offset: 0 }));
/// ```
pub fn mend_of(doc: &[u8]) -> Result<Mended, Refusal> {
    // With so much room no document is answered by 9: `never_short` in crates/mended/proofs/Sizes.antt.
    // One over the limit is refused by 4, which comes before 9, and needs none.
    let mut bytes = vec![0; if doc.len() > DOCUMENT_LIMIT { 0 } else { doc.len() + MENDED_MORE }];
    let numbers = mend(doc, &mut bytes);
    if let Some(refusal) = Refusal::of(numbers.number, numbers.second) {
        return Err(refusal);
    }
    bytes.truncate(numbers.second as usize);
    Ok(Mended { bytes, kept: numbers.third, added: numbers.fourth })
}

#[cfg(test)]
mod tests {
    use super::*;
    use crate::check;

    fn mended(doc: &[u8]) -> (Vec<u8>, u64, u64) {
        let mended = mend_of(doc).unwrap();
        (mended.bytes, mended.kept, mended.added)
    }

    #[test]
    fn sound_documents_come_back() {
        for doc in [&b"<g/>"[..], b"\xEF\xBB\xBF<g>a</g> \n", b"<?xml version='1.0'?><g><n k='1'/></g><!-- a -->"] {
            assert_eq!(mended(doc), (doc.to_vec(), doc.len() as u64, 0));
        }
    }

    #[test]
    fn what_is_whole_is_kept_and_closed() {
        assert_eq!(mended(b"<g><n>Aar<"), (b"<g><n>Aar</n></g>".to_vec(), 9, 2));
        assert_eq!(mended(b"<g>Aa\xFFr</g>"), (b"<g></g>".to_vec(), 3, 1));
        assert_eq!(mended(b"<g/> <h/>"), (b"<g/> ".to_vec(), 5, 0));
    }

    #[test]
    fn every_prefix_is_accepted_once_it_is_mended() {
        let doc = "<?xml version='1.0'?><g>é<!-- a --><n k='1'>&lt;<![CDATA[b]]></n><?p?></g>\n".as_bytes();
        let root = doc.iter().position(|&b| b == b'g').unwrap() + 2;
        for end in 0..=doc.len() {
            let Ok(Mended { bytes, kept, added }) = mend_of(&doc[..end]) else {
                assert!(end < root, "{end}");
                continue;
            };
            assert!(end >= root && check(&bytes).is_ok(), "{end}");
            assert_eq!(bytes[..kept as usize], doc[..kept as usize]);
            assert_eq!(mended(&bytes), (bytes.clone(), bytes.len() as u64, 0), "{end} {added}");
        }
    }

    #[test]
    fn refusals_come_in_their_order() {
        assert_eq!(mend_of(&vec![b' '; DOCUMENT_LIMIT + 1]), Err(Refusal::DocumentTooLong));
        assert_eq!(mend_of(b"<?xml version='1.0' encoding='x'?>\xFF"), Err(Refusal::OtherEncoding { offset: 0 }));
        assert_eq!(mend_of(b"<?p?>\xFF<g/>"), Err(Refusal::NoRoot { offset: 5 }));
        let mut out = *b"thirteen of 1";
        assert_eq!(mend(b"<g><n>Aar", &mut out), FourNumbers { number: 9, second: 14, third: 0, fourth: 0 });
        assert_eq!(&out, b"thirteen of 1");
    }

    #[test]
    fn the_longest_names_have_room() {
        let tag = format!("<{}>", "a".repeat(255));
        let doc = tag.repeat(64);
        let Mended { bytes, kept, added } = mend_of(doc.as_bytes()).unwrap();
        assert_eq!((bytes.len(), kept, added), (doc.len() + MENDED_MORE, doc.len() as u64, 64));
    }
}
