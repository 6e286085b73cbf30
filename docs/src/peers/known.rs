// Where a processor judges by something else than document 01 asks, and by which rule a document is therefore left out. The first three
// rules were known before; the others were written after differences had been seen. A rule looks at the document and at our answer, never
// at the processor's. It can still hide another difference in a document that it leaves out, so those are asked about and counted too.

use second::Numbers;

/// The rule by which a document is left out for a processor, if one does. The refusal is the second program's, none where it is sound.
pub fn rule(peer: &str, doc: &[u8], refusal: Option<Numbers>) -> Option<&'static str> {
    let (number, offset) = refusal.map_or((0, 0), |numbers| (numbers.number, numbers.second));
    if number == 6 {
        Some("has a document type: we refuse it, they read it")
    } else if number == 8 {
        Some("over a size of ours, which they don't have")
    } else if has_other_encoding(doc) {
        Some("in another encoding, or says so: we refuse it, they do as it says")
    } else if peer == "rxp" && says(doc, b"version", |v| v != b"1.0") {
        Some("says another version than 1.0: rxp then judges by XML 1.1")
    } else if peer == "xmllint" && number == 7 && doc.windows(6).filter(|w| w == b"xmlns:").count() > 1 {
        Some("is at fault and declares prefixes: xmllint takes that for no attribute, and lets it stand twice")
    } else if peer == "xmllint" && doc.ends_with(&[0]) {
        Some("ends in a zero byte, which xmllint takes for the end")
    } else if peer == "xmllint" && number == 7 && offset <= 3 && declaration(doc).is_some() {
        Some("its declaration is at fault: xmllint lets more through there")
    } else {
        None
    }
}

/// The declaration at the document's front, if it begins with one, without its end.
fn declaration(doc: &[u8]) -> Option<&[u8]> {
    let doc = doc.strip_prefix(b"\xEF\xBB\xBF").unwrap_or(doc);
    let rest = doc.strip_prefix(b"<?xml")?;
    let end = rest.windows(2).position(|w| w == b"?>").unwrap_or(rest.len());
    rest.first().filter(|b| b.is_ascii_whitespace())?;
    Some(&rest[..end])
}

/// Whether the declaration gives this name a value of this kind.
fn says(doc: &[u8], name: &[u8], kind: fn(&[u8]) -> bool) -> bool {
    let value = |declaration: &[u8]| {
        let at = declaration.windows(name.len()).position(|w| w == name)?;
        let mut quoted = declaration[at..].splitn(3, |b| matches!(b, b'"' | b'\''));
        quoted.nth(1).map(kind)
    };
    declaration(doc).and_then(value).unwrap_or(false)
}

/// A declared encoding that is not UTF-8, or the two bytes with which UTF-16 begins.
fn has_other_encoding(doc: &[u8]) -> bool {
    let marked = doc.starts_with(b"\xFE\xFF") || doc.starts_with(b"\xFF\xFE");
    marked || says(doc, b"encoding", |v| !v.eq_ignore_ascii_case(b"UTF-8"))
}
