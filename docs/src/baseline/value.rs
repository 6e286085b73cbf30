// An attribute's value, made normal, held against that of a test: line ends, tabs and references are read as document 02 says.

use crate::list::Test;
use crate::markup::reference;
use crate::tag::{at, Attribute};

/// Whether a tag with these attributes passes a test.
pub fn passes(doc: &[u8], attributes: &[Attribute], test: &Test) -> bool {
    let found = attributes.iter().find(|attribute| at(doc, attribute.name) == test.name.as_bytes());
    found.map_or(false, |attribute| is(at(doc, attribute.value), test.value))
}

/// Whether a sound value says a text. A test has no tab and no line end, so a reference to one is never equal.
fn is(value: &[u8], text: &str) -> bool {
    let mut left = text.as_bytes();
    let mut i = 0;
    while i < value.len() {
        let mut bytes = [0; 4];
        let (said, length): (&[u8], usize) = match value[i] {
            b'&' => match reference(value, i) {
                Some((c, end)) => (c.encode_utf8(&mut bytes).as_bytes(), end - i),
                None => return false,
            },
            b'\r' if value[i + 1..].starts_with(b"\n") => (b" ", 2),
            b'\r' | b'\n' | b'\t' => (b" ", 1),
            _ => (&value[i..i + 1], 1),
        };
        match left.strip_prefix(said) {
            None => return false,
            Some(rest) => left = rest,
        }
        i += length;
    }
    left.is_empty()
}
