// Items other than tags: what stands at the front, instructions, comments, sections, references and text. Each reader takes the place where
// the item begins, and gives the place behind it, or nothing where the item breaks its production.

use crate::chars::{is_char, is_white, name, white};
use crate::marks::{first, first_of};

const MARK: &[u8] = b"\xEF\xBB\xBF";

/// What is at the document's front: the bytes EF BB BF, and a declaration.
pub enum Front {
    /// The rest begins here; with or without a declaration.
    Sound { end: usize },
    /// A declaration begins that breaks its production.
    Broken { at: usize },
    /// A declaration of the right shape names another encoding than UTF-8.
    OtherEncoding { at: usize },
}

/// It is looked at before the characters are: a declaration is ASCII.
pub fn front(doc: &[u8]) -> Front {
    let at = if doc.starts_with(MARK) { MARK.len() } else { 0 };
    if !doc[at..].starts_with(b"<?xml") || !doc.get(at + 5).map_or(false, |&b| is_white(b)) {
        return Front::Sound { end: at };
    }
    match declaration(doc, at + 5) {
        None => Front::Broken { at },
        Some((_, Some(encoding))) if !encoding.eq_ignore_ascii_case(b"UTF-8") => Front::OtherEncoding { at },
        Some((end, _)) => Front::Sound { end },
    }
}

/// [23] XMLDecl, behind `<?xml`: its end and the encoding that it names.
fn declaration(doc: &[u8], at: usize) -> Option<(usize, Option<&[u8]>)> {
    let (version, mut end) = said(doc, at, b"version")?;
    let digits = version.strip_prefix(b"1.")?;
    if digits.is_empty() || !digits.iter().all(u8::is_ascii_digit) {
        return None;
    }
    let mut encoding = None;
    if let Some((name, behind)) = said(doc, end, b"encoding") {
        let (head, tail) = name.split_first()?;
        if !head.is_ascii_alphabetic() || !tail.iter().all(|&b| b.is_ascii_alphanumeric() || b"._-".contains(&b)) {
            return None;
        }
        (encoding, end) = (Some(name), behind);
    }
    if let Some((answer, behind)) = said(doc, end, b"standalone") {
        if answer != b"yes" && answer != b"no" {
            return None;
        }
        end = behind;
    }
    let end = white(doc, end);
    doc[end..].starts_with(b"?>").then_some((end + 2, encoding))
}

/// White space, a word, [25] Eq, and what it says in quotes: what it says, and the place behind.
fn said<'a>(doc: &'a [u8], at: usize, word: &[u8]) -> Option<(&'a [u8], usize)> {
    let from = white(doc, at);
    if from == at || !doc[from..].starts_with(word) {
        return None;
    }
    let at = equals(doc, from + word.len())?;
    let quote = *doc.get(at).filter(|b| b"'\"".contains(b))?;
    let length = doc[at + 1..].iter().position(|&b| b == quote)?;
    Some((&doc[at + 1..at + 1 + length], at + length + 2))
}

/// [25] Eq
pub fn equals(doc: &[u8], at: usize) -> Option<usize> {
    let at = white(doc, at);
    (doc.get(at) == Some(&b'=')).then(|| white(doc, at + 1))
}

/// [16] PI
pub fn instruction(text: &str, at: usize) -> Option<usize> {
    let doc = text.as_bytes();
    let target = name(text, at + 2)?;
    if doc[at + 2..target].eq_ignore_ascii_case(b"xml") {
        return None;
    }
    if doc[target..].starts_with(b"?>") {
        return Some(target + 2);
    }
    doc.get(target).filter(|&&b| is_white(b))?;
    behind(doc, target, b"?>")
}

/// [15] Comment
pub fn comment(doc: &[u8], at: usize) -> Option<usize> {
    let dashes = behind(doc, at + 4, b"--")?;
    (doc.get(dashes) == Some(&b'>')).then_some(dashes + 1)
}

/// [18] CDSect
pub fn section(doc: &[u8], at: usize) -> Option<usize> {
    behind(doc, at + 9, b"]]>")
}

/// The place behind the next such text.
fn behind(doc: &[u8], mut at: usize, end: &[u8]) -> Option<usize> {
    loop {
        at = first(doc, at, end[0]);
        if doc[at..].starts_with(end) {
            return Some(at + end.len());
        }
        if at == doc.len() {
            return None;
        }
        at += 1;
    }
}

/// [14] CharData: up to the next `<`, `&` or the end, with no `]]>` in it.
#[inline]
pub fn text(doc: &[u8], mut at: usize) -> Option<usize> {
    loop {
        at = first_of(doc, at, *b"<&]");
        if doc.get(at) != Some(&b']') {
            return Some(at);
        }
        if doc[at..].starts_with(b"]]>") {
            return None;
        }
        at += 1;
    }
}

const NAMED: [(&[u8], char); 5] = [(b"amp;", '&'), (b"lt;", '<'), (b"gt;", '>'), (b"apos;", '\''), (b"quot;", '"')];

/// [67] Reference: the character that it says, and the place behind it.
pub fn reference(doc: &[u8], at: usize) -> Option<(char, usize)> {
    let rest = &doc[at + 1..];
    if let Some(digits) = rest.strip_prefix(b"#x") {
        return numbered(digits, 16).map(|(c, length)| (c, at + 3 + length));
    }
    if let Some(digits) = rest.strip_prefix(b"#") {
        return numbered(digits, 10).map(|(c, length)| (c, at + 2 + length));
    }
    let (name, c) = NAMED.iter().find(|(name, _)| rest.starts_with(name))?;
    Some((*c, at + 1 + name.len()))
}

/// Digits and `;`: the character of that number, and their length. A number that is too large stays so.
fn numbered(rest: &[u8], radix: u32) -> Option<(char, usize)> {
    let length = rest.iter().position(|&b| b == b';').filter(|&length| length > 0)?;
    let mut point = 0;
    for &b in &rest[..length] {
        point = (point * radix + char::from(b).to_digit(radix)?).min(0x11_0000);
    }
    char::from_u32(point).filter(|&c| is_char(c)).map(|c| (c, length + 1))
}
