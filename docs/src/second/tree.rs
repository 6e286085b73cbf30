//! The tree of a sound document: its elements, each with its name, its attributes, the bytes of its tags and its children.
//! Text, comments, instructions and the rest leave nothing in the tree, since "everything else is dropped".

use std::ops::Range;

use crate::faults::{fault, Place};
use crate::items::{Item, Kind};
use crate::tag::{Attribute, Tag};

/// How the paths select an element.
#[derive(Clone, Copy, PartialEq, Eq)]
pub enum Selection {
    No,
    Plain,
    /// By a path marked with `#`.
    Marked,
}

pub struct Element<'a> {
    pub name: &'a str,
    pub attributes: Vec<Attribute<'a>>,
    /// The bytes of the start tag or of the empty tag.
    pub start: Range<usize>,
    /// The bytes of the end tag; "an empty tag is its own end".
    pub end: Range<usize>,
    pub is_empty: bool,
    pub children: Vec<Element<'a>>,
    /// `No` until `select::mark` has looked at the element.
    pub selection: Selection,
}

/// A fault: its number and the offset that goes with it.
pub struct Fault {
    pub number: u64,
    pub offset: usize,
}

/// The root of the tree, or the first fault by item. `length` is the document's.
pub fn tree<'a>(items: Vec<Item<'a>>, length: usize) -> Result<Element<'a>, Fault> {
    let mut open: Vec<Element<'a>> = Vec::new();
    let mut root: Option<Element<'a>> = None;
    for item in items {
        let place =
            Place { level: open.len(), innermost: open.last().map(|element| element.name), has_root: root.is_some() || !open.is_empty() };
        if let Some(number) = fault(&item.kind, &place) {
            return Err(Fault { number, offset: item.bytes.start });
        }
        if let Some(ended) = ended_by(item, &mut open) {
            match open.last_mut() {
                Some(parent) => parent.children.push(ended),
                None => root = Some(ended),
            }
        }
    }
    // "If the items run out with an element open, or without a root, the answer is 7 at the document's length."
    // While an element is open there is no root yet, since the root is put down at its end.
    root.ok_or(Fault { number: 7, offset: length })
}

/// Opens the element of a start tag, or gives the element that an end tag or an empty tag ends.
fn ended_by<'a>(item: Item<'a>, open: &mut Vec<Element<'a>>) -> Option<Element<'a>> {
    match item.kind {
        Kind::StartOrEmpty(tag) => {
            let element = begun(tag, item.bytes);
            if element.is_empty {
                return Some(element);
            }
            open.push(element);
            None
        }
        Kind::EndTag(_) => {
            let mut element = open.pop()?;
            element.end = item.bytes;
            Some(element)
        }
        _ => None,
    }
}

/// An element as its first tag gives it. The end of one that is not empty is set when its end tag comes.
fn begun<'a>(tag: Tag<'a>, bytes: Range<usize>) -> Element<'a> {
    let Tag { name, attributes, is_empty } = tag;
    Element { name, attributes, start: bytes.clone(), end: bytes, is_empty, children: Vec::new(), selection: Selection::No }
}
