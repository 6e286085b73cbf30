//! Which characters a name has: productions [4] and [4a] of XML 1.0. They serve the advice on a list; the library judges by its own.

/// The ranges of [4] NameStartChar.
const START: [(char, char); 16] = [
    (':', ':'),
    ('A', 'Z'),
    ('_', '_'),
    ('a', 'z'),
    ('\u{C0}', '\u{D6}'),
    ('\u{D8}', '\u{F6}'),
    ('\u{F8}', '\u{2FF}'),
    ('\u{370}', '\u{37D}'),
    ('\u{37F}', '\u{1FFF}'),
    ('\u{200C}', '\u{200D}'),
    ('\u{2070}', '\u{218F}'),
    ('\u{2C00}', '\u{2FEF}'),
    ('\u{3001}', '\u{D7FF}'),
    ('\u{F900}', '\u{FDCF}'),
    ('\u{FDF0}', '\u{FFFD}'),
    ('\u{10000}', '\u{EFFFF}'),
];

/// What [4a] NameChar adds.
const MORE: [(char, char); 6] =
    [('-', '-'), ('.', '.'), ('0', '9'), ('\u{B7}', '\u{B7}'), ('\u{300}', '\u{36F}'), ('\u{203F}', '\u{2040}')];

fn among(c: char, ranges: &[(char, char)]) -> bool {
    ranges.iter().any(|&(first, last)| first <= c && c <= last)
}

/// Whether a name may begin with it.
pub fn begins(c: char) -> bool {
    among(c, &START)
}

/// Whether a name may have it.
pub fn within(c: char) -> bool {
    begins(c) || among(c, &MORE)
}

#[cfg(test)]
mod tests {
    use super::*;

    #[test]
    fn classes() {
        assert!(":_aZéж\u{10000}".chars().all(begins));
        assert!("-.09\u{B7}\u{301}".chars().all(|c| within(c) && !begins(c)));
        assert!(" /#*@×\u{2FF0}\u{F0000}".chars().all(|c| !within(c)));
    }
}
