//! Bytes as a message shows them, on one line. Control characters, marks that turn the direction of writing, blanks other than the space
//! and what else can't be seen, backslashes, and bytes that are not UTF-8 are escaped. Bytes may be of any kind here: a document, a list,
//! a file's name.
use crate::widths;
use std::str;

/// The character at the front, or how many bytes there begin none.
pub fn front(bytes: &[u8]) -> Result<char, usize> {
    let head = &bytes[..bytes.len().min(4)];
    let valid = match str::from_utf8(head) {
        Ok(text) => text,
        Err(e) if e.valid_up_to() == 0 => return Err(e.error_len().unwrap_or(head.len())),
        Err(e) => str::from_utf8(&head[..e.valid_up_to()]).unwrap_or(""),
    };
    valid.chars().next().ok_or(0)
}

/// One character, or one byte that is none, as it is shown.
pub struct Shown {
    /// How many bytes it has.
    pub bytes: usize,
    pub text: String,
    /// How many columns it takes.
    pub width: usize,
}

/// The characters of some bytes, one by one.
pub fn each(mut bytes: &[u8]) -> impl Iterator<Item = Shown> + '_ {
    std::iter::from_fn(move || {
        let first = bytes.first()?;
        let shown = match front(bytes) {
            Ok(c) => one(c),
            Err(_) => plain(1, format!("\\x{first:02X}")),
        };
        bytes = &bytes[shown.bytes..];
        Some(shown)
    })
}

fn one(c: char) -> Shown {
    match c {
        '\n' => plain(1, "\\n".to_string()),
        '\r' => plain(1, "\\r".to_string()),
        '\t' => plain(1, "\\t".to_string()),
        '\\' => plain(1, "\\\\".to_string()),
        '\u{34F}' => coded(c),
        '\u{FEFF}' | '\u{FFFE}' | '\u{FFFF}' => coded(c),
        _ if unseen(c).is_some() => coded(c),
        _ if c.is_control() => coded(c),
        _ => Shown { bytes: c.len_utf8(), text: c.to_string(), width: widths::width(c) },
    }
}

/// What a character is called that can't be seen, or looks like a space and is none: blanks, marks of direction, fillers, selectors.
pub fn unseen(c: char) -> Option<&'static str> {
    Some(match c {
        '\u{A0}' => "no-break space",
        '\u{202F}' => "narrow no-break space",
        '\u{1680}' | '\u{2000}'..='\u{200A}' | '\u{205F}' | '\u{3000}' => "another space",
        '\u{AD}' => "soft hyphen",
        '\u{200B}'..='\u{200D}' | '\u{2060}' | '\u{180E}' => "without width",
        '\u{61C}' | '\u{200E}' | '\u{200F}' | '\u{202A}'..='\u{202E}' | '\u{2066}'..='\u{206F}' => "mark of direction",
        '\u{2028}' | '\u{2029}' => "end of a line or paragraph",
        '\u{34F}' | '\u{115F}' | '\u{1160}' | '\u{17B4}' | '\u{17B5}' | '\u{3164}' | '\u{FFA0}' => "filler",
        '\u{2061}'..='\u{2065}' => "unseen sign",
        '\u{180B}'..='\u{180D}' | '\u{FE00}'..='\u{FE0F}' | '\u{E0100}'..='\u{E01EF}' => "selector",
        '\u{FFF9}'..='\u{FFFB}' | '\u{E0000}'..='\u{E007F}' => "unseen mark",
        _ => return None,
    })
}

/// Such a character at the front, in words.
pub fn unseen_front(bytes: &[u8]) -> Option<String> {
    let c = front(bytes).ok()?;
    unseen(c).map(|name| format!("U+{:04X} ({name})", c as u32))
}

/// A character by its number.
fn coded(c: char) -> Shown {
    plain(c.len_utf8(), format!("\\u{{{:X}}}", c as u32))
}

fn plain(bytes: usize, text: String) -> Shown {
    Shown { bytes, width: text.chars().count(), text }
}

/// All of some bytes.
pub fn all(bytes: &[u8]) -> String {
    each(bytes).map(|c| c.text).collect()
}

/// The first characters of some bytes, of at most so many columns together, and `...` where there are more.
pub fn some(bytes: &[u8], most: usize) -> String {
    let (mut text, mut columns) = (String::new(), 0);
    for c in each(bytes) {
        // A mark over a letter counts too, so that the text stays short.
        columns += c.width.max(1);
        if columns > most {
            return text + "...";
        }
        text += &c.text;
    }
    text
}

#[cfg(test)]
mod tests {
    use super::*;

    #[test]
    fn text_stays_and_the_rest_is_escaped() {
        assert_eq!(all("Crêt-Doré".as_bytes()), "Crêt-Doré");
        assert_eq!(all(b"a\tb\r\n\x01\x7F"), "a\\tb\\r\\n\\u{1}\\u{7F}");
        assert_eq!(all(b"\xC3(\xFF\xE2\x82"), "\\xC3(\\xFF\\xE2\\x82");
        assert_eq!(all("\u{202E}\u{FEFF}\u{85}".as_bytes()), "\\u{202E}\\u{FEFF}\\u{85}");
        assert_eq!(all("a\u{A0}b\u{202F}\u{2000}\u{200A}\u{3000}".as_bytes()), "a\\u{A0}b\\u{202F}\\u{2000}\\u{200A}\\u{3000}");
        assert_eq!(all("\u{61C}\u{AD}\u{34F}\u{FE0F}".as_bytes()), "\\u{61C}\\u{AD}\\u{34F}\\u{FE0F}");
        // What is typed as an escape is told from one.
        assert_eq!(all(b"\\u{A0}\\n"), "\\\\u{A0}\\\\n");
        assert_eq!(all(b""), "");
    }

    #[test]
    fn what_is_not_seen_is_named() {
        assert_eq!(unseen_front("\u{A0}#".as_bytes()).as_deref(), Some("U+00A0 (no-break space)"));
        assert_eq!(unseen_front("\u{3000}".as_bytes()).as_deref(), Some("U+3000 (another space)"));
        assert!([" a", "é\u{A0}", "", "\t"].iter().all(|text| unseen_front(text.as_bytes()).is_none()));
    }

    #[test]
    fn long_text_is_cut() {
        assert_eq!(some("ééééé".as_bytes(), 5), "ééééé");
        assert_eq!(some("éééééé".as_bytes(), 5), "ééééé...");
        assert_eq!(some(b"ab\0\0", 8), "ab\\u{0}...");
    }

    #[test]
    fn bad_sequences_are_measured() {
        assert_eq!(front("é".as_bytes()), Ok('é'));
        assert_eq!(front(b"a\xFF"), Ok('a'));
        assert_eq!(front(b"\xFFa"), Err(1));
        assert_eq!(front(b""), Err(0));
        assert_eq!(front(b"\xE2\x82a"), Err(2));
        assert_eq!(front(b"\xF0\x9F\x98"), Err(3));
    }
}
