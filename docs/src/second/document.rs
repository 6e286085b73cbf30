//! A document judged alone: its length (4), the encoding that it declares (10, document 02's Q-1), its characters (5),
//! then its items (6 to 8), in this order wherever in the document each of them stands.

use crate::chars::text;
use crate::declaration::names_other_encoding;
use crate::items::items;
use crate::limits::DOCUMENT_BYTES;
use crate::tree::{tree, Element};
use crate::{refusal, Numbers};

/// The root of a sound document's tree, or the refusal.
pub fn root(doc: &[u8]) -> Result<Element<'_>, Numbers> {
    if doc.len() > DOCUMENT_BYTES {
        return Err(refusal(4, 0));
    }
    if let Some(offset) = names_other_encoding(doc) {
        return Err(refusal(10, offset));
    }
    let text = text(doc).map_err(|offset| refusal(5, offset))?;
    tree(items(text), text.len()).map_err(|fault| refusal(fault.number, fault.offset))
}
