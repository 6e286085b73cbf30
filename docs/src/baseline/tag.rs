// Start tags, empty tags and end tags.

use crate::chars::{name, white};
use crate::marks::first_of;
use crate::markup::{equals, reference};

pub const NAME_BYTES: usize = 255;
pub const ATTRIBUTES: usize = 32;

/// Where a name and a value, without its quotes, stand.
#[derive(Clone, Copy)]
pub struct Attribute {
    pub name: (u32, u32),
    pub value: (u32, u32),
}

/// The attributes of a tag, as many as one may have; and how many there are.
pub struct Attributes {
    held: [Attribute; ATTRIBUTES],
    count: usize,
}

impl Attributes {
    pub fn none() -> Self {
        Attributes { held: [Attribute { name: (0, 0), value: (0, 0) }; ATTRIBUTES], count: 0 }
    }

    pub fn held(&self) -> &[Attribute] {
        &self.held[..self.count.min(ATTRIBUTES)]
    }

    fn push(&mut self, attribute: Attribute) {
        if let Some(place) = self.held.get_mut(self.count) {
            *place = attribute;
        }
        self.count += 1;
    }
}

/// The bytes of a place.
#[inline(always)]
pub fn at(doc: &[u8], (from, to): (u32, u32)) -> &[u8] {
    &doc[from as usize..to as usize]
}

pub struct Tag {
    pub name_end: usize,
    /// Where `>` or `/>` stands.
    pub head_end: usize,
    pub end: usize,
}

impl Tag {
    pub fn is_empty(&self) -> bool {
        self.end - self.head_end == 2
    }

    /// "Element names .. attribute names .. 255 bytes", "Attributes 32 a tag"
    pub fn is_large(&self, from: usize, attributes: &Attributes) -> bool {
        let long = |a: &Attribute| (a.name.1 - a.name.0) as usize > NAME_BYTES;
        self.name_end - from - 1 > NAME_BYTES || attributes.count > ATTRIBUTES || attributes.held().iter().any(long)
    }
}

/// [40] STag or [44] EmptyElemTag
pub fn tag(text: &str, from: usize, attributes: &mut Attributes) -> Option<Tag> {
    let doc = text.as_bytes();
    let name_end = name(text, from + 1)?;
    attributes.count = 0;
    let mut end = name_end;
    loop {
        let next = white(doc, end);
        match *doc.get(next)? {
            b'>' => return Some(Tag { name_end, head_end: next, end: next + 1 }),
            b'/' if doc.get(next + 1) == Some(&b'>') => return Some(Tag { name_end, head_end: next, end: next + 2 }),
            _ if next == end => return None,
            _ => {
                let attribute = attribute(text, next)?;
                end = attribute.value.1 as usize + 1;
                attributes.push(attribute);
            }
        }
    }
}

/// [41] Attribute
#[inline]
fn attribute(text: &str, from: usize) -> Option<Attribute> {
    let doc = text.as_bytes();
    let name_end = name(text, from)?;
    let quoted = if doc[name_end..].starts_with(b"=") { name_end + 1 } else { name_end };
    let quoted = match doc.get(quoted)? {
        b'"' | b'\'' if quoted > name_end => quoted,
        _ => equals(doc, name_end)?,
    };
    let quote = *doc.get(quoted).filter(|&&b| b == b'"' || b == b'\'')?;
    let mut end = quoted + 1;
    loop {
        end = first_of(doc, end, [quote, b'<', b'&']);
        match *doc.get(end)? {
            b'<' => return None,
            b'&' => end = reference(doc, end)?.1,
            _ => break,
        }
    }
    Some(Attribute { name: (from as u32, name_end as u32), value: (quoted as u32 + 1, end as u32) })
}

/// Whether a name stands twice.
#[inline]
pub fn repeated(doc: &[u8], attributes: &Attributes) -> bool {
    let held = attributes.held();
    (1..held.len()).any(|later| held[..later].iter().any(|earlier| at(doc, earlier.name) == at(doc, held[later].name)))
}

/// [42] ETag: where its name ends, and the place behind it.
pub fn end_tag(text: &str, from: usize) -> Option<(usize, usize)> {
    let name_end = name(text, from + 2)?;
    let end = white(text.as_bytes(), name_end);
    (text.as_bytes().get(end) == Some(&b'>')).then_some((name_end, end + 1))
}
