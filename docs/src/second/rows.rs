//! Rows for a spreadsheet, document 02, Q-8: "RFC 4180 records: the header `path,text`, then one record for each selected
//! element in the order of start tags". The document is judged as for a cut, and then its items are gone through once more, so
//! that each element gets its text.

use crate::items::{items, Item, Kind};
use crate::reader::Reader;
use crate::reference::reference;
use crate::select::selection;
use crate::tag::Attribute;
use crate::three::{refused, Three};
use crate::tree::Selection;
use crate::{document, list, Numbers};

const HEADER: &str = "path,text\r\n";

/// "Under 0 the numbers are the length written and the elements selected. Refusals: as for a cut, with 9 giving the length of the
/// whole table." A table may be far longer than its document, so it is never held whole.
pub fn rows(list: &[u8], doc: &[u8], out: &mut [u8]) -> Three {
    let table = match table(list, doc) {
        Ok(table) => table,
        Err(refusal) => return refusal.into(),
    };
    let length = HEADER.len() + table.records().map(|record| record.len()).sum::<usize>();
    if length > out.len() {
        return refused(9, length);
    }
    let mut at = 0;
    for record in std::iter::once(HEADER.to_string()).chain(table.records()) {
        out[at..at + record.len()].copy_from_slice(record.as_bytes());
        at += record.len();
    }
    Three { number: 0, second: length as u64, third: table.selected.len() as u64 }
}

struct Element<'a> {
    /// Which element it stands in, if it is not the root.
    parent: Option<usize>,
    name: &'a str,
    attributes: Vec<Attribute<'a>>,
    /// "the text directly in the element"
    text: String,
}

struct Table<'a> {
    /// All elements, in the order of start tags.
    elements: Vec<Element<'a>>,
    /// Which of them are selected, in the same order.
    selected: Vec<usize>,
}

impl Table<'_> {
    fn records(&self) -> impl Iterator<Item = String> + '_ {
        self.selected.iter().map(|&at| record(&names(&self.elements, at).join("/"), &self.elements[at].text))
    }
}

/// "The mark # changes nothing here."
fn table<'a>(list: &[u8], doc: &'a [u8]) -> Result<Table<'a>, Numbers> {
    let paths = list::paths(list)?;
    document::root(doc)?;
    let elements = elements(std::str::from_utf8(doc).unwrap_or(""));
    let is_selected = |&at: &usize| selection(&names(&elements, at), &elements[at].attributes, &paths) != Selection::No;
    let selected = (0..elements.len()).filter(is_selected).collect();
    Ok(Table { elements, selected })
}

/// "the names from the root"
fn names<'a>(elements: &[Element<'a>], at: usize) -> Vec<&'a str> {
    let mut found = elements[at].parent.map_or(Vec::new(), |parent| names(elements, parent));
    found.push(elements[at].name);
    found
}

/// The elements of a sound document, each with its text: that of which it is the innermost open element (reading R-28).
fn elements(doc: &str) -> Vec<Element<'_>> {
    let mut found: Vec<Element> = Vec::new();
    let mut open: Vec<usize> = Vec::new();
    for Item { bytes, kind } in items(doc) {
        if let Some(&innermost) = open.last() {
            found[innermost].text += &said(&kind, &doc[bytes]);
        }
        match kind {
            Kind::StartOrEmpty(tag) => {
                found.push(Element { parent: open.last().copied(), name: tag.name, attributes: tag.attributes, text: String::new() });
                if !tag.is_empty {
                    open.push(found.len() - 1);
                }
            }
            Kind::EndTag(_) => drop(open.pop()),
            _ => {}
        }
    }
    found
}

/// What an item says in the text of its element: "CDATA content included, literal CR LF and CR made LF, references replaced".
fn said(kind: &Kind, item: &str) -> String {
    match kind {
        Kind::Text(text) => with_line_ends(text),
        Kind::Section => with_line_ends(&item["<![CDATA[".len()..item.len() - "]]>".len()]),
        Kind::Reference => reference(&mut Reader::new(item)).map_or(String::new(), String::from),
        _ => String::new(),
    }
}

/// CR and LF make one line end where they stand side by side in the document, so in one item (reading R-26).
fn with_line_ends(text: &str) -> String {
    text.replace("\r\n", "\n").replace('\r', "\n")
}

/// "Every record, the header too, ends in CR LF."
fn record(path: &str, text: &str) -> String {
    format!("{},{}\r\n", field(path), field(text))
}

/// "A field is quoted exactly when it holds a comma, a quote, CR or LF, and quotes inside are doubled."
fn field(text: &str) -> String {
    if text.contains(|c| matches!(c, ',' | '"' | '\r' | '\n')) {
        format!("\"{}\"", text.replace('"', "\"\""))
    } else {
        text.to_string()
    }
}
