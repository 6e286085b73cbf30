//! A line and a caret under a place in it, as two lines. Of a long line only the part around the place is shown.
use crate::shown::{self, Shown};

/// How many characters are shown before the place, and from it on.
const BEFORE: usize = 50;
const AFTER: usize = 40;

/// The two lines, without the last line feed. `at` is a place in the line, in bytes, and may be its end.
pub fn caret(line: &[u8], at: usize) -> String {
    let characters: Vec<Shown> = shown::each(line).collect();
    let place = shown::each(&line[..at]).count();
    let first = place.saturating_sub(BEFORE);
    let last = characters.len().min(place + AFTER);
    let cut = if first > 0 { "..." } else { "" };
    let more = if last < characters.len() { "..." } else { "" };
    let text: String = characters[first..last].iter().map(|c| c.text.as_str()).collect();
    let width: usize = characters[first..place].iter().map(|c| c.width).sum();
    format!("    {cut}{text}{more}\n    {:1$}^", "", cut.len() + width)
}

#[cfg(test)]
mod tests {
    use super::*;

    #[test]
    fn the_caret_stands_under_the_place() {
        assert_eq!(caret(b"/a b", 2), "    /a b\n      ^");
        assert_eq!(caret(b"//v", 3), "    //v\n       ^");
        assert_eq!(caret(b"", 0), "    \n    ^");
    }

    #[test]
    fn escapes_and_accents_are_measured() {
        assert_eq!(caret(b"/a\t #\r", 5), "    /a\\t #\\r\n          ^");
        assert_eq!(caret("/pre\u{301} #!".as_bytes(), 8), "    /pre\u{301} #!\n          ^");
        assert_eq!(caret("/pr\u{E9} #!".as_bytes(), 7), "    /pr\u{E9} #!\n          ^");
        assert_eq!(caret("/日本 b".as_bytes(), 7), "    /日本 b\n         ^");
        assert_eq!(caret("/שָׁ b".as_bytes(), 7), "    /שָׁ b\n      ^");
    }

    #[test]
    fn a_long_line_is_shown_in_part() {
        let long = caret("x".repeat(200).as_bytes(), 100);
        assert_eq!(long, format!("    ...{}...\n    {}^", "x".repeat(90), " ".repeat(53)));
    }
}
