//! The faults of one item, in document 01's order: "`<!DOCTYPE` (6, anywhere); its own production (7); sizes (8);
//! position, matching and repeated attributes (7)". What stands open around the item is told by `Place`.

use crate::chars::is_white;
use crate::items::Kind;
use crate::limits::{DEPTH, NAME_BYTES, TAG_ATTRIBUTES};
use crate::tag::Tag;

/// Where an item stands.
pub struct Place<'a> {
    /// How many elements are open.
    pub level: usize,
    /// The name of the innermost open element, if one is open.
    pub innermost: Option<&'a str>,
    /// Has the root's element begun, and perhaps ended?
    pub has_root: bool,
}

impl Place<'_> {
    fn is_outside(&self) -> bool {
        self.level == 0
    }
}

/// The number of the item's fault, if it has one.
pub fn fault(kind: &Kind, place: &Place) -> Option<u64> {
    if matches!(kind, Kind::Doctype) {
        Some(6)
    } else if matches!(kind, Kind::Broken) {
        Some(7)
    } else if is_too_large(kind, place) {
        Some(8)
    } else if is_out_of_place(kind, place) || has_repeated_attribute(kind) {
        Some(7)
    } else {
        None
    }
}

/// "Element names (in start, empty and end tags), attribute names ... 255 bytes. Depth 64 (the root is 1). Attributes
/// 32 a tag."
fn is_too_large(kind: &Kind, place: &Place) -> bool {
    match kind {
        Kind::StartOrEmpty(tag) => is_tag_too_large(tag) || place.level + 1 > DEPTH,
        Kind::EndTag(name) => name.len() > NAME_BYTES,
        _ => false,
    }
}

fn is_tag_too_large(tag: &Tag) -> bool {
    tag.name.len() > NAME_BYTES
        || tag.attributes.len() > TAG_ATTRIBUTES
        || tag.attributes.iter().any(|attribute| attribute.name.len() > NAME_BYTES)
}

/// "One root. Outside it only comments, instructions and white-space text. End tags match."
fn is_out_of_place(kind: &Kind, place: &Place) -> bool {
    match kind {
        Kind::StartOrEmpty(_) => place.is_outside() && place.has_root,
        Kind::EndTag(name) => place.innermost != Some(*name),
        Kind::Section | Kind::Reference => place.is_outside(),
        Kind::Text(text) => place.is_outside() && !text.chars().all(is_white),
        _ => false,
    }
}

/// "No attribute name twice in a tag." At most 32 names are left here, so every pair is compared.
fn has_repeated_attribute(kind: &Kind) -> bool {
    match kind {
        Kind::StartOrEmpty(tag) => {
            let names: Vec<&str> = tag.attributes.iter().map(|attribute| attribute.name).collect();
            (0..names.len()).any(|later| names[..later].contains(&names[later]))
        }
        _ => false,
    }
}
