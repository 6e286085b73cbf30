// The same questions answered in ordinary Rust, from the standard library's UTF-8 and the Recommendation's ranges. It shares nothing with
// the Rattle source.

/// [2] Char
pub fn is_char(c: char) -> bool {
    matches!(c as u32, 0x9 | 0xA | 0xD | 0x20..=0xD7FF | 0xE000..=0xFFFD | 0x10000..=0x10FFFF)
}

/// [4] NameStartChar
pub fn is_name_start(c: char) -> bool {
    matches!(c, ':' | 'A'..='Z' | '_' | 'a'..='z' | '\u{C0}'..='\u{D6}' | '\u{D8}'..='\u{F6}' | '\u{F8}'..='\u{2FF}'
        | '\u{370}'..='\u{37D}' | '\u{37F}'..='\u{1FFF}' | '\u{200C}'..='\u{200D}' | '\u{2070}'..='\u{218F}'
        | '\u{2C00}'..='\u{2FEF}' | '\u{3001}'..='\u{D7FF}' | '\u{F900}'..='\u{FDCF}' | '\u{FDF0}'..='\u{FFFD}'
        | '\u{10000}'..='\u{EFFFF}')
}

/// [4a] NameChar
pub fn is_name(c: char) -> bool {
    is_name_start(c) || matches!(c, '-' | '.' | '0'..='9' | '\u{B7}' | '\u{300}'..='\u{36F}' | '\u{203F}'..='\u{2040}')
}

/// The bytes at the front that are well-formed.
fn sound(s: &[u8]) -> &str {
    match std::str::from_utf8(s) {
        Ok(text) => text,
        Err(e) => std::str::from_utf8(&s[..e.valid_up_to()]).unwrap(),
    }
}

/// The offset of the first sequence that is not well-formed or no Char, or the length.
pub fn check(s: &[u8]) -> usize {
    let text = sound(s);
    text.char_indices().find(|&(_, c)| !is_char(c)).map_or(text.len(), |(i, _)| i)
}

/// The character at a place.
pub fn point(s: &[u8], at: usize) -> Option<char> {
    let rest = s.get(at..)?;
    sound(&rest[..rest.len().min(4)]).chars().next()
}

/// Where the longest name at a place ends: the place itself where there is none.
pub fn name(s: &[u8], at: usize) -> usize {
    let text = sound(s.get(at..).unwrap_or(&[]));
    let mut chars = text.char_indices();
    match chars.next() {
        Some((_, c)) if is_name_start(c) => {}
        _ => return at,
    }
    at + chars.find(|&(_, c)| !is_name(c)).map_or(text.len(), |(i, _)| i)
}
