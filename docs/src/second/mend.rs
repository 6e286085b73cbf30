//! Transfers that stop half way, document 02, Q-11: the mending tool "keeps the three front bytes EF BB BF where they stand, and
//! every whole item before the first fault of kinds 5 to 8, and then writes the end tags that are missing, innermost first".

use crate::chars::text;
use crate::declaration::names_other_encoding;
use crate::faults::{fault, Place};
use crate::items::{items, Item, Kind};
use crate::limits::DOCUMENT_BYTES;
use crate::{refusal, Numbers};

/// "Under 0 it reports the length written, the bytes kept and the end tags added; otherwise the last two are 0." "Refusals: 4;
/// then 10; then 12 ...; then 9."
pub fn mend(doc: &[u8], out: &mut [u8]) -> Numbers {
    if doc.len() > DOCUMENT_BYTES {
        return refusal(4, 0);
    }
    if let Some(offset) = names_other_encoding(doc) {
        return refusal(10, offset);
    }
    let Kept { end, open, has_root, fault } = kept(readable(doc));
    if !has_root {
        return refusal(12, fault);
    }
    let mut bytes = doc[..end].to_vec();
    // "innermost first"
    for name in open.iter().rev() {
        bytes.extend_from_slice(format!("</{name}>").as_bytes());
    }
    if bytes.len() > out.len() {
        return refusal(9, bytes.len());
    }
    out[..bytes.len()].copy_from_slice(&bytes);
    Numbers { number: 0, second: bytes.len() as u64, third: end as u64, fourth: open.len() as u64 }
}

/// "For kind 5 the document is first cut at the bad sequence and judged again."
fn readable(doc: &[u8]) -> &str {
    let end = text(doc).err().unwrap_or(doc.len());
    std::str::from_utf8(&doc[..end]).unwrap_or("")
}

/// What is kept of a document.
struct Kept<'a> {
    /// Where it ends. What is kept is all that stands before.
    end: usize,
    /// The names of the elements that are open there.
    open: Vec<&'a str>,
    has_root: bool,
    /// Where the fault is: at an item, or at the end of the document.
    fault: usize,
}

fn kept(text: &str) -> Kept<'_> {
    let mut open = Vec::new();
    let mut has_root = false;
    // Where the last text began, while it is the last item.
    let mut last_text = None;
    for Item { bytes, kind } in items(text) {
        let place = Place { level: open.len(), innermost: open.last().copied(), has_root };
        if fault(&kind, &place).is_some() {
            return Kept { end: bytes.start, open, has_root, fault: bytes.start };
        }
        last_text = if matches!(kind, Kind::Text(_)) { Some(bytes.start) } else { None };
        match kind {
            Kind::StartOrEmpty(tag) => {
                has_root = true;
                if !tag.is_empty {
                    open.push(tag.name);
                }
            }
            Kind::EndTag(_) => drop(open.pop()),
            _ => {}
        }
    }
    // "A text item that touches the end with an element open is dropped as perhaps half a name."
    let end = if open.is_empty() { None } else { last_text };
    Kept { end: end.unwrap_or(text.len()), open, has_root, fault: text.len() }
}
