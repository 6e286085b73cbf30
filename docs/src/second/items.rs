//! The run of items that a document is, "told by their first bytes". An item whose production is broken has no end, so
//! reading stops behind it, and behind a document type: "the first item at fault decides".

use std::ops::Range;

use crate::declaration;
use crate::markup::{cdata_section, char_data, comment, instruction};
use crate::reader::Reader;
use crate::reference::reference;
use crate::tag::{end_tag, start_or_empty_tag, Tag};

pub enum Kind<'a> {
    Declaration,
    Instruction,
    Comment,
    Section,
    Doctype,
    EndTag(&'a str),
    StartOrEmpty(Tag<'a>),
    Reference,
    Text(&'a str),
    /// The item breaks the production that its first bytes promise.
    Broken,
}

pub struct Item<'a> {
    /// The item's bytes, counted from the document's first byte.
    pub bytes: Range<usize>,
    pub kind: Kind<'a>,
}

/// All items of the document, up to the first that is a document type or broken.
pub fn items(text: &str) -> Vec<Item<'_>> {
    let mut reader = Reader::new(text);
    let mut found = Vec::new();
    // "Three bytes EF BB BF at the front are skipped." They are U+FEFF.
    reader.take("\u{FEFF}");
    while !reader.is_at_end() {
        let start = reader.at();
        let is_first = found.is_empty();
        let kind = item(&mut reader, is_first).unwrap_or(Kind::Broken);
        let is_last = matches!(kind, Kind::Doctype | Kind::Broken);
        found.push(Item { bytes: start..reader.at(), kind });
        if is_last {
            break;
        }
    }
    found
}

/// One item, told by its first bytes in document 01's order; `None` if it breaks its production.
fn item<'a>(reader: &mut Reader<'a>, is_first: bool) -> Option<Kind<'a>> {
    if is_first && declaration::begins(reader) {
        declaration::declaration(reader)?;
        Some(Kind::Declaration)
    } else if reader.sees("<?") {
        instruction(reader)?;
        Some(Kind::Instruction)
    } else if reader.sees("<!--") {
        comment(reader)?;
        Some(Kind::Comment)
    } else if reader.sees("<![CDATA[") {
        cdata_section(reader)?;
        Some(Kind::Section)
    } else if reader.sees("<!DOCTYPE") {
        Some(Kind::Doctype)
    } else if reader.sees("</") {
        Some(Kind::EndTag(end_tag(reader)?))
    } else if reader.sees("<") {
        Some(Kind::StartOrEmpty(start_or_empty_tag(reader)?))
    } else if reader.sees("&") {
        reference(reader)?;
        Some(Kind::Reference)
    } else {
        Some(Kind::Text(char_data(reader)?))
    }
}
