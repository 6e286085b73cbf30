//! Characters: the bytes of a document as text, or where they stop being text; then the classes Char, white space,
//! name start and name as the ranges that document 01 lists under "Characters".

/// The bytes as text, or the offset "where the first bad sequence begins": one that is not UTF-8, or not a Char.
pub fn text(bytes: &[u8]) -> Result<&str, usize> {
    match std::str::from_utf8(bytes) {
        Ok(text) => match first_non_char(text) {
            None => Ok(text),
            Some(offset) => Err(offset),
        },
        Err(error) => {
            // A character that is no Char may stand before the bytes that are not UTF-8, and is then the first.
            let good = std::str::from_utf8(&bytes[..error.valid_up_to()]).unwrap_or("");
            Err(first_non_char(good).unwrap_or(error.valid_up_to()))
        }
    }
}

/// The ASCII at the front of some bytes, whatever follows it.
pub fn ascii_front(bytes: &[u8]) -> &str {
    let length = bytes.iter().take_while(|byte| byte.is_ascii()).count();
    std::str::from_utf8(&bytes[..length]).unwrap_or("")
}

fn first_non_char(text: &str) -> Option<usize> {
    text.char_indices().find(|&(_, c)| !is_char(c)).map(|(offset, _)| offset)
}

/// [2] Char
const CHAR: [(char, char); 6] = [
    ('\u{9}', '\u{9}'),
    ('\u{A}', '\u{A}'),
    ('\u{D}', '\u{D}'),
    ('\u{20}', '\u{D7FF}'),
    ('\u{E000}', '\u{FFFD}'),
    ('\u{10000}', '\u{10FFFF}'),
];

/// [4] NameStartChar
const NAME_START: [(char, char); 16] = [
    (':', ':'),
    ('A', 'Z'),
    ('_', '_'),
    ('a', 'z'),
    ('\u{C0}', '\u{D6}'),
    ('\u{D8}', '\u{F6}'),
    ('\u{F8}', '\u{2FF}'),
    ('\u{370}', '\u{37D}'),
    ('\u{37F}', '\u{1FFF}'),
    ('\u{200C}', '\u{200D}'),
    ('\u{2070}', '\u{218F}'),
    ('\u{2C00}', '\u{2FEF}'),
    ('\u{3001}', '\u{D7FF}'),
    ('\u{F900}', '\u{FDCF}'),
    ('\u{FDF0}', '\u{FFFD}'),
    ('\u{10000}', '\u{EFFFF}'),
];

/// [4a] NameChar, what it adds to NameStartChar
const NAME_ADDS: [(char, char); 6] =
    [('-', '-'), ('.', '.'), ('0', '9'), ('\u{B7}', '\u{B7}'), ('\u{300}', '\u{36F}'), ('\u{203F}', '\u{2040}')];

fn within(ranges: &[(char, char)], c: char) -> bool {
    ranges.iter().any(|&(first, last)| first <= c && c <= last)
}

pub fn is_char(c: char) -> bool {
    within(&CHAR, c)
}

pub fn is_name_start(c: char) -> bool {
    within(&NAME_START, c)
}

pub fn is_name_char(c: char) -> bool {
    is_name_start(c) || within(&NAME_ADDS, c)
}

/// One character of [3] S.
pub fn is_white(c: char) -> bool {
    c == '\u{20}' || c == '\u{9}' || c == '\u{D}' || c == '\u{A}'
}
