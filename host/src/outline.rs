//! The items of a document, and which elements are open at an offset. It is asked only of bytes in which the library found every item
//! sound, so items are told by their first bytes and passed by their last.

pub struct Outline<'a> {
    /// The open elements, the root first: the offset of each start tag and its name.
    pub open: Vec<(usize, &'a [u8])>,
    /// Whether the root has begun.
    pub rooted: bool,
}

/// What an item that begins with `<` is, as far as elements go.
#[derive(Clone, Copy, PartialEq, Eq, Debug)]
pub enum Kind {
    Start,
    Empty,
    End,
    Other,
}

/// The items of some bytes that begin with `<`, each with where it begins and ends. What stands between them is text and references.
pub fn items(bytes: &[u8]) -> impl Iterator<Item = (Kind, usize, usize)> + '_ {
    let mut at = 0;
    std::iter::from_fn(move || {
        let from = at + bytes[at..].iter().position(|&b| b == b'<')?;
        let (kind, length) = item(&bytes[from..]);
        at = from + length;
        Some((kind, from, at))
    })
}

/// The outline of a document before an offset.
pub fn outline(document: &[u8], offset: usize) -> Outline<'_> {
    let mut outline = Outline { open: Vec::new(), rooted: false };
    for (kind, from, _) in items(&document[..offset]) {
        match kind {
            Kind::Start => outline.open.push((from, name(&document[from + 1..offset]))),
            Kind::End => drop(outline.open.pop()),
            Kind::Empty | Kind::Other => {}
        }
        outline.rooted |= matches!(kind, Kind::Start | Kind::Empty);
    }
    outline
}

/// The kind and the length of the item at the front.
fn item(rest: &[u8]) -> (Kind, usize) {
    if rest.starts_with(b"<!--") {
        (Kind::Other, through(rest, 4, b"-->"))
    } else if rest.starts_with(b"<![CDATA[") {
        (Kind::Other, through(rest, 9, b"]]>"))
    } else if rest.starts_with(b"<?") {
        (Kind::Other, through(rest, 2, b"?>"))
    } else if rest.starts_with(b"</") {
        (Kind::End, through(rest, 2, b">"))
    } else {
        let length = tag(rest);
        (if rest[..length].ends_with(b"/>") { Kind::Empty } else { Kind::Start }, length)
    }
}

/// The length of a start tag or an empty tag: through the first `>` outside a value.
fn tag(rest: &[u8]) -> usize {
    let mut quote = None;
    let end = rest.iter().position(|&b| match quote {
        Some(q) => {
            quote = if b == q { None } else { quote };
            false
        }
        None => {
            quote = if b == b'"' || b == b'\'' { Some(b) } else { None };
            b == b'>'
        }
    });
    end.map_or(rest.len(), |end| end + 1)
}

/// The length of an item that ends in a text, which is looked for from `from` on.
fn through(rest: &[u8], from: usize, text: &[u8]) -> usize {
    let found = rest[from..].windows(text.len()).position(|w| w == text);
    found.map_or(rest.len(), |n| from + n + text.len())
}

/// The bytes up to white space or what ends a tag.
pub fn name(rest: &[u8]) -> &[u8] {
    let end = rest.iter().position(|b| b" \t\r\n/><".contains(b)).unwrap_or(rest.len());
    &rest[..end]
}

#[cfg(test)]
mod tests {
    use super::*;

    fn open(document: &[u8]) -> Vec<(usize, &[u8])> {
        outline(document, document.len()).open
    }

    #[test]
    fn elements_open_and_close() {
        assert_eq!(open(b"<g><v k='1'>text"), [(0, &b"g"[..]), (3, b"v")]);
        assert_eq!(open(b"<g><v></v ><w/><x\n/>"), [(0, &b"g"[..])]);
        assert_eq!(open(b"<g><!-- <a> --><?p <b> ?><![CDATA[<c>]]>"), [(0, &b"g"[..])]);
        assert_eq!(open(b"<g k='/>' l=\"'>\">"), [(0, &b"g"[..])]);
    }

    #[test]
    fn the_root_is_told_from_none() {
        let none = b"\xEF\xBB\xBF<?xml version='1.0'?><!-- <g> -->\n";
        assert!(!outline(none, none.len()).rooted);
        let one = outline(b"<g/>\n", 5);
        assert!(one.rooted && one.open.is_empty());
    }
}
