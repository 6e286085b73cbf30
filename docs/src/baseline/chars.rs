// Characters: the check of a whole document, white space, and names.

use std::str;

/// How many bytes are looked at before it is asked whether one was bad.
const BLOCK: usize = 1024;

/// The document as text, all of it [2] Char; or the offset of the first sequence that is not.
pub fn text(doc: &[u8]) -> Result<&str, usize> {
    let (sound, end) = match str::from_utf8(doc) {
        Ok(text) => (text, None),
        Err(e) => (str::from_utf8(&doc[..e.valid_up_to()]).unwrap_or(""), Some(e.valid_up_to())),
    };
    let bytes = sound.as_bytes();
    let blocks = (0..bytes.len()).step_by(BLOCK);
    // The two bytes after a block are looked at with it, since U+FFFE and U+FFFF take three.
    let bad = blocks.map(|from| (from, &bytes[from..bytes.len().min(from + BLOCK + 2)])).find(|(_, block)| has_bad(block));
    match (bad.and_then(|(from, block)| first_bad(block).map(|at| from + at)), end) {
        (None, None) => Ok(sound),
        (Some(at), _) | (None, Some(at)) => Err(at),
    }
}

fn is_control(byte: u8) -> bool {
    byte < 0x20 && byte != b'\t' && byte != b'\n' && byte != b'\r'
}

/// EF BF BE and EF BF BF.
fn is_no_character(a: u8, b: u8, c: u8) -> bool {
    (a == 0xEF) & (b == 0xBF) & (c >= 0xBE)
}

/// Two loops without a way out, which the compiler makes vectors of.
fn has_bad(block: &[u8]) -> bool {
    let control = block.iter().fold(false, |bad, &b| bad | is_control(b));
    let later = block.iter().zip(block.iter().skip(1)).zip(block.iter().skip(2));
    control | later.fold(false, |bad, ((&a, &b), &c)| bad | is_no_character(a, b, c))
}

fn first_bad(block: &[u8]) -> Option<usize> {
    (0..block.len()).find(|&i| is_control(block[i]) || matches!(block[i..], [a, b, c, ..] if is_no_character(a, b, c)))
}

/// [2] Char
pub fn is_char(c: char) -> bool {
    matches!(c, '\t' | '\n' | '\r' | ' '..='\u{FFFD}' | '\u{10000}'..)
}

/// [3] S
pub fn is_white(byte: u8) -> bool {
    matches!(byte, b' ' | b'\t' | b'\r' | b'\n')
}

/// Where the white space at a place ends.
pub fn white(doc: &[u8], mut at: usize) -> usize {
    while doc.get(at).map_or(false, |&b| is_white(b)) {
        at += 1;
    }
    at
}

/// [4] NameStartChar, past ASCII
fn starts_name(c: char) -> bool {
    matches!(c, '\u{C0}'..='\u{D6}' | '\u{D8}'..='\u{F6}' | '\u{F8}'..='\u{2FF}' | '\u{370}'..='\u{37D}' | '\u{37F}'..='\u{1FFF}'
        | '\u{200C}'..='\u{200D}' | '\u{2070}'..='\u{218F}' | '\u{2C00}'..='\u{2FEF}' | '\u{3001}'..='\u{D7FF}'
        | '\u{F900}'..='\u{FDCF}' | '\u{FDF0}'..='\u{FFFD}' | '\u{10000}'..='\u{EFFFF}')
}

/// [4a] NameChar, past ASCII
fn is_in_name(c: char) -> bool {
    starts_name(c) || matches!(c, '\u{B7}' | '\u{300}'..='\u{36F}' | '\u{203F}'..='\u{2040}')
}

const STARTS: u8 = 1;
const INNER: u8 = 2;
const MORE: u8 = 4;

/// For each byte whether a name may start with it, whether it may stand in one, and whether more bytes are of its character.
const CLASSES: [u8; 256] = {
    let mut classes = [0; 256];
    let mut byte = 0;
    while byte < 256 {
        classes[byte] = match byte as u8 {
            b'A'..=b'Z' | b'a'..=b'z' | b':' | b'_' => STARTS | INNER,
            b'0'..=b'9' | b'-' | b'.' => INNER,
            0x80.. => MORE,
            _ => 0,
        };
        byte += 1;
    }
    classes
};

fn class(doc: &[u8], at: usize) -> u8 {
    doc.get(at).map_or(0, |&b| CLASSES[b as usize])
}

/// The length of the character past ASCII at a place, if it is of a kind.
fn wide(text: &str, at: usize, kind: fn(char) -> bool) -> Option<usize> {
    text[at..].chars().next().filter(|&c| kind(c)).map(char::len_utf8)
}

/// Where the [5] Name at a place ends, if there is one.
pub fn name(text: &str, at: usize) -> Option<usize> {
    let doc = text.as_bytes();
    let mut end = match class(doc, at) {
        MORE => at + wide(text, at, starts_name)?,
        class if class & STARTS != 0 => at + 1,
        _ => return None,
    };
    loop {
        match class(doc, end) {
            0 => return Some(end),
            MORE => match wide(text, end, is_in_name) {
                None => return Some(end),
                Some(length) => end += length,
            },
            _ => end += 1,
        }
    }
}
