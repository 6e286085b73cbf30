//! What is written: the three bullets of document 01, as one function on the tree. Whatever is in no bullet is dropped.
//! The bytes are gathered without a limit; whether there is room for them is asked in `cut`.

use crate::tree::{Element, Selection};

/// The cut's bytes.
pub fn cut(root: &Element, doc: &[u8]) -> Vec<u8> {
    let mut out = Vec::new();
    write(root, true, doc, &mut out);
    out
}

fn write(element: &Element, is_root: bool, doc: &[u8], out: &mut Vec<u8>) {
    match element.selection {
        // "all bytes from the `<` of the start tag through the `>` of its end tag, as they came"
        Selection::Marked => out.extend_from_slice(&doc[element.start.start..element.end.end]),
        // "the tag's bytes from `<` up to but without the final `>` or `/>`, then `>`"
        Selection::Plain => {
            let final_length = if element.is_empty { "/>".len() } else { ">".len() };
            out.extend_from_slice(&doc[element.start.start..element.start.end - final_length]);
            out.extend_from_slice(b">");
            write_children_and_end(element, doc, out);
        }
        // "Else the root, or with a selected element somewhere under it: `<`, name, `>`"
        Selection::No if is_root || has_selected_under(element) => {
            out.extend_from_slice(b"<");
            out.extend_from_slice(element.name.as_bytes());
            out.extend_from_slice(b">");
            write_children_and_end(element, doc, out);
        }
        Selection::No => {}
    }
}

/// "the kept children; `</`, name, `>`"
fn write_children_and_end(element: &Element, doc: &[u8], out: &mut Vec<u8>) {
    for child in &element.children {
        write(child, false, doc, out);
    }
    out.extend_from_slice(b"</");
    out.extend_from_slice(element.name.as_bytes());
    out.extend_from_slice(b">");
}

fn has_selected_under(element: &Element) -> bool {
    element.children.iter().any(|child| child.selection != Selection::No || has_selected_under(child))
}
