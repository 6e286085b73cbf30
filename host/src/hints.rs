//! A short hint on a refused document, read off the bytes at the place that the library names, and where in the item the fault itself
//! seems to be. It only advises; the number and the offset are the library's.
use crate::advice;
use crate::names;
use crate::outline::{self, Outline};
use crate::places;
use crate::shown;
use crate::tag::{self, Tag};
use choughbell::Refusal;

const OUTSIDE: &str = "outside the root stand only comments, instructions and white space";
const TAG: &str = "a tag is <, a name, attributes as name=\"value\", none twice, and > or />; a value has no <";
const COMMENT: &str = "a comment ends in --> and has no -- inside";

/// A hint, and the offset of the fault where it is known.
#[derive(PartialEq, Eq, Debug)]
pub struct Hint {
    pub text: String,
    pub at: Option<usize>,
}

/// What to say of a document that is refused at an offset.
pub fn hint(refusal: Refusal, document: &[u8], offset: usize) -> Hint {
    let text = match refusal {
        Refusal::NotCharacter { .. } => not_character(document, offset),
        Refusal::DocumentType { .. } => "documents with a type are not taken".to_string(),
        Refusal::OtherEncoding { .. } => other_encoding(document, offset),
        Refusal::NoRoot { .. } => "no start tag before it is whole, so nothing can be kept".to_string(),
        Refusal::OverSize { .. } => return within(offset, over_size(document, offset)),
        _ => {
            let text = not_well_formed(document, offset);
            return within(offset, fault(document, offset).unwrap_or((0, text)));
        }
    };
    Hint { text, at: None }
}

/// A fault in the item at an offset.
fn within(offset: usize, (at, text): tag::Fault) -> Hint {
    Hint { text, at: Some(offset + at) }
}

/// The place of a fault inside an item that is not well-formed, where it is found.
fn fault(document: &[u8], offset: usize) -> Option<tag::Fault> {
    let outline = outline::outline(document, offset);
    let rest = &document[offset..];
    let inside = !outline.open.is_empty();
    match rest.first()? {
        b'<' if rest.starts_with(b"<!--") => {
            let at = 4 + rest[4..].windows(2).position(|pair| pair == b"--")?;
            Some((at, COMMENT.to_string()))
        }
        b'<' if rest.starts_with(b"<!") || rest.starts_with(b"<?") || rest.starts_with(b"</") => None,
        b'<' if outline.rooted && !inside => None,
        b'<' if named(&rest[1..]) => {
            let tag = tag::read(rest);
            let twice = tag.twice(rest);
            let (at, text) = tag.fault.or(twice)?;
            Some((at, unseen(&rest[at..], &text)))
        }
        b'<' => None,
        b'&' if inside => tag::reference(rest).err().map(|hint| (0, hint.to_string())),
        _ if inside => rest.windows(3).position(|three| three == b"]]>").map(|at| (at, "text has no ]]>".to_string())),
        _ => {
            let at = rest.iter().position(|b| !b" \t\r\n".contains(b))?;
            Some((at, unseen(&rest[at..], OUTSIDE)))
        }
    }
}

/// Which bytes are at fault, or which code point.
fn not_character(document: &[u8], offset: usize) -> String {
    let rest = &document[offset..];
    let utf16 = document.starts_with(b"\xFF\xFE") || document.starts_with(b"\xFE\xFF");
    match shown::front(rest) {
        _ if utf16 => "this seems to be UTF-16; a document is in UTF-8".to_string(),
        Ok(c) => format!("U+{:04X} is no character of XML", c as u32),
        Err(bad) if offset + bad == document.len() && bad < length(rest[0]) => {
            format!("the end cuts {} off", advice::bytes(&rest[..bad]))
        }
        Err(bad) => format!("{} is not UTF-8", advice::bytes(&rest[..bad])),
    }
}

/// How many bytes a sequence with this first byte has.
fn length(first: u8) -> usize {
    match first {
        0xC2..=0xDF => 2,
        0xE0..=0xEF => 3,
        0xF0..=0xF4 => 4,
        _ => 1,
    }
}

/// Which of the sizes it is: too deep, a name too long, or too many attributes.
fn over_size(document: &[u8], offset: usize) -> tag::Fault {
    let rest = &document[offset..];
    if let Some(tag) = rest.strip_prefix(b"</") {
        return long(outline::name(tag).len(), 2);
    }
    if outline::outline(document, offset).open.len() >= 64 {
        return (0, "it is 65 deep; elements stand at most 64 deep".to_string());
    }
    let Tag { name, attributes, .. } = tag::read(rest);
    if let Some(name) = std::iter::once(&name).chain(&attributes).find(|name| name.len() > 255) {
        return long(name.len(), name.start);
    }
    let at = attributes.get(32).map_or(0, |name| name.start);
    (at, format!("it has {} attributes; a tag has at most 32", attributes.len()))
}

/// A name of some bytes at a place in a tag.
fn long(bytes: usize, at: usize) -> tag::Fault {
    (at, format!("a name of {bytes} bytes; names have at most 255"))
}

/// What the declaration says, and how to mend it. Behind the mark of UTF-8 the bytes are hardly what it says: to convert them as it says
/// would spoil them.
fn other_encoding(document: &[u8], offset: usize) -> String {
    let name = places::quoted(encoding(&document[offset..]));
    if offset == 0 {
        format!("the declaration says \"{name}\"; xmllint --encode UTF-8 converts the file and its declaration")
    } else {
        format!("the declaration says \"{name}\", but a byte order mark of UTF-8 stands before it: write UTF-8 there")
    }
}

/// The encoding that a declaration names. The library found its shape right, so the word is there, and the name in quotes behind it.
fn encoding(declaration: &[u8]) -> &[u8] {
    let word = b"encoding";
    let at = declaration.windows(word.len()).position(|w| w == word).unwrap_or(declaration.len());
    declaration[at..].splitn(3, |b| b"\"'".contains(b)).nth(1).unwrap_or(b"")
}

/// By the first bytes of the item, what it should be or why it may not stand there.
fn not_well_formed(document: &[u8], offset: usize) -> String {
    let outline = outline::outline(document, offset);
    let inside = !outline.open.is_empty();
    let rest = &document[offset..];
    let text = match rest.first() {
        None => return at_the_end(document, &outline),
        Some(b'<') if rest.starts_with(b"</") => return end_tag(document, rest, &outline),
        Some(b'<') if rest.starts_with(b"<!--") => COMMENT,
        Some(b'<') if rest.starts_with(b"<![CDATA[") => {
            if inside {
                "a section ends in ]]>"
            } else {
                OUTSIDE
            }
        }
        Some(b'<') if rest.starts_with(b"<!") => "<! begins a comment, <!--, or a section, <![CDATA[",
        Some(b'<') if rest.starts_with(b"<?") => instruction(document, offset),
        Some(b'<') if outline.rooted && !inside => "the root is closed, and there is only one",
        Some(b'<') if !named(&rest[1..]) => return no_tag(&rest[1..]),
        Some(b'<') => TAG,
        Some(b'&') if inside => tag::REFERENCE,
        Some(_) if inside => "text has no ]]>",
        Some(_) => OUTSIDE,
    };
    text.to_string()
}

/// A rule, and before it what can't be seen at the front of some bytes, which seems to keep it.
fn unseen(bytes: &[u8], rule: &str) -> String {
    shown::unseen_front(bytes).map_or(rule.to_string(), |name| format!("{name} stands there; {rule}"))
}

/// What to say of a `<` with no name behind it, where something stands that names have, but not at their front.
fn no_tag(rest: &[u8]) -> String {
    const SIGN: &str = "a < that begins no tag is written &lt;";
    match shown::front(rest) {
        Ok(c) if names::within(c) => format!("a name can't begin with {c}; {SIGN}"),
        _ => SIGN.to_string(),
    }
}

/// Whether a name can begin there.
fn named(rest: &[u8]) -> bool {
    shown::front(rest).map_or(false, names::begins)
}

/// The items have run out.
fn at_the_end(document: &[u8], outline: &Outline) -> String {
    match outline.open.last() {
        Some(&element) => format!("{} is open", element_of(document, element)),
        None => "there is no root".to_string(),
    }
}

fn end_tag(document: &[u8], rest: &[u8], outline: &Outline) -> String {
    let name = outline::name(&rest[2..]);
    let after = rest[2 + name.len()..].iter().find(|b| !b" \t\r\n".contains(b));
    match outline.open.last() {
        None => "no element is open".to_string(),
        Some(&element) if !name.is_empty() && after == Some(&b'>') && name != element.1 => {
            format!("{} is open", element_of(document, element))
        }
        Some(_) => "an end tag is </, the name and >".to_string(),
    }
}

/// An open element, with the line of its start tag.
fn element_of(document: &[u8], (at, name): (usize, &[u8])) -> String {
    format!("<{}> of line {}", places::quoted(name), places::line_and_column(document, at).0)
}

fn instruction(document: &[u8], offset: usize) -> &'static str {
    let rest = &document[offset..];
    let front = offset == 0 || (offset == 3 && document.starts_with(b"\xEF\xBB\xBF"));
    if !rest.starts_with(b"<?xml") || !rest.get(5).map_or(false, |b| b" \t\r\n".contains(b)) {
        "an instruction is <?, a name other than xml, a blank and its text, and ?>"
    } else if front {
        "a declaration is <?xml version=\"1.0\"?>, after the version perhaps encoding=\"UTF-8\" and standalone=\"yes\""
    } else {
        "the declaration stands at the very front"
    }
}

#[cfg(test)]
#[path = "hints_tests.rs"]
mod tests;
