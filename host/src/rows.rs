//! Rows for a spreadsheet, for callers in Rust: a table of the elements that a list selects, with the text directly in each.
use crate::{room, Numbers, Refusal};

extern "C" {
    // As in crates/spreadsheet_c/src/lib.rt: a slice is its pointer and then its length.
    fn choughbell_rows(list: *const u8, list_len: usize, doc: *const u8, doc_len: usize, out: *mut u8, out_len: usize) -> Numbers;
}

/// Writes the table of a document by a list to the front of `out`, or refuses and leaves all of `out` as it was: the header `path,text`,
/// then a record for each element that is selected, in the order of start tags, as RFC 4180 has them. Under 0 the second number is the
/// length written, the third how many elements are selected; it is refused as a cut is, under 9 with the length of the whole table. A
/// table may be far longer than its document.
///
/// ```
/// let mut out = [b'.'; 39];
/// let numbers = choughbell::rows(b"//n\n", b"<g><n>Aar &amp; Rh\xC3\xB4ne,</n><n/></g>", &mut out);
/// assert_eq!((numbers.number, numbers.second, numbers.third), (0, 38, 2));
/// assert_eq!(&out[..], b"path,text\r\ng/n,\"Aar & Rh\xC3\xB4ne,\"\r\ng/n,\r\n.");
/// ```
pub fn rows(list: &[u8], doc: &[u8], out: &mut [u8]) -> Numbers {
    // SAFETY: each pointer and length are those of a slice that is borrowed for the call, `out` alone for writing.
    unsafe { choughbell_rows(list.as_ptr(), list.len(), doc.as_ptr(), doc.len(), out.as_mut_ptr(), out.len()) }
}

/// A table with its bytes.
#[derive(Clone, PartialEq, Eq, Debug)]
pub struct Rows {
    /// The header and the records, each ended by CR LF.
    pub bytes: Vec<u8>,
    /// How many elements the list selects: as many records follow the header.
    pub selected: u64,
}

/// The table of a document by a list, in a buffer that suffices. `Refusal::Short` is the answer only where there is no memory for one.
///
/// ```
/// let rows = choughbell::rows_of(b"//n\n", b"<g><n>Aar</n></g>").unwrap();
/// assert_eq!((rows.bytes.as_slice(), rows.selected), (&b"path,text\r\ng/n,Aar\r\n"[..], 1));
/// ```
pub fn rows_of(list: &[u8], doc: &[u8]) -> Result<Rows, Refusal> {
    // Most tables are shorter than their document. Of one that is longer the length is known after the first call.
    let mut bytes = vec![0; room(doc)];
    loop {
        let Numbers { number, second, third } = rows(list, doc, &mut bytes);
        match Refusal::of(number, second) {
            None => {
                bytes.truncate(second as usize);
                return Ok(Rows { bytes, selected: third });
            }
            Some(Refusal::Short { needed }) => bytes = zeros(needed).ok_or(Refusal::Short { needed })?,
            Some(refusal) => return Err(refusal),
        }
    }
}

/// So many zeros, where there is memory for them.
fn zeros(length: u64) -> Option<Vec<u8>> {
    let length = usize::try_from(length).ok()?;
    let mut bytes = Vec::new();
    bytes.try_reserve_exact(length).ok()?;
    bytes.resize(length, 0);
    Some(bytes)
}

#[cfg(test)]
mod tests {
    use super::*;
    use crate::{cut_of, largest, DOCUMENT_LIMIT};

    fn table(list: &str, doc: &str) -> String {
        String::from_utf8(rows_of(list.as_bytes(), doc.as_bytes()).unwrap().bytes).unwrap()
    }

    #[test]
    fn records_have_the_path_and_the_text() {
        let doc = "<g>a<p><v k='1'>b</v>c<!-- no --><v>d</v></p>e</g>";
        assert_eq!(table("", doc), "path,text\r\n");
        assert_eq!(table("//v\n", doc), "path,text\r\ng/p/v,b\r\ng/p/v,d\r\n");
        assert_eq!(table("//*\n", doc), "path,text\r\ng,ae\r\ng/p,c\r\ng/p/v,b\r\ng/p/v,d\r\n");
        // The mark changes nothing.
        assert_eq!(table("//p #\n//v\n", doc), table("//p\n//v\n", doc));
    }

    #[test]
    fn fields_are_quoted_where_they_must_be() {
        let text = |content: &str| table("/g\n", &format!("<g>{content}</g>"))[13..].to_string();
        assert_eq!(text("a b;c'"), "a b;c'\r\n");
        assert_eq!(text("a,b"), "\"a,b\"\r\n");
        assert_eq!(text("&quot;"), "\"\"\"\"\r\n");
        assert_eq!(text("a\r\nb\rc\nd&#13;e"), "\"a\nb\nc\nd\re\"\r\n");
        assert_eq!(text("<![CDATA[<&>]]>&lt;&#xE9;"), "<&><é\r\n");
    }

    #[test]
    fn refusals_are_those_of_a_cut() {
        let other = "<?xml version='1.0' encoding='x'?><g/>";
        for (list, doc) in [("v\n", "<g/>"), ("//v\n", "<g>"), ("", ""), ("", "<!DOCTYPE g><g/>"), ("", other)] {
            let (list, doc) = (list.as_bytes(), doc.as_bytes());
            assert_eq!(rows_of(list, doc).unwrap_err(), cut_of(list, doc).unwrap_err());
        }
        assert_eq!(rows_of(b"", &vec![b' '; DOCUMENT_LIMIT + 1]), Err(Refusal::DocumentTooLong));
    }

    #[test]
    fn a_short_buffer_is_left_alone() {
        let mut out = *b"nineteen bytes here";
        let numbers = rows(b"//n\n", b"<g><n>Aar</n></g>", &mut out);
        assert_eq!(numbers, Numbers { number: 9, second: 20, third: 0 });
        assert_eq!(&out, b"nineteen bytes here");
        let mut out = *b"....................+";
        assert_eq!(rows(b"//n\n", b"<g><n>Aar</n></g>", &mut out), Numbers { number: 0, second: 20, third: 1 });
        assert_eq!(&out, b"path,text\r\ng/n,Aar\r\n+");
    }

    #[test]
    fn a_table_longer_than_its_document_has_room() {
        let name = "n".repeat(255);
        let doc = [format!("<{name}>"), "<a/>".repeat(1000), format!("</{name}>")].concat();
        let rows = rows_of(b"//a\n", doc.as_bytes()).unwrap();
        assert_eq!((rows.bytes.len(), rows.selected), (11 + 1000 * 260, 1000));
        assert!(rows.bytes.len() > 2 * doc.len());
    }

    #[test]
    fn a_table_for_which_there_is_no_memory_is_short() {
        assert_eq!(zeros(u64::MAX), None);
        assert_eq!(zeros(1 << 62), None);
        // Nothing is reserved for a document that is too long.
        let long = vec![b' '; DOCUMENT_LIMIT + 1];
        assert!(largest::during(|| drop(rows_of(b"//v\n", &long))) < 1024);
    }
}
