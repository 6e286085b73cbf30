//! Where an offset is for a person: the line, by line feeds, and the column, in characters, both from 1. And what stands there: as much of
//! the item as fits.
use crate::shown;

/// The most columns of a document or a line that a message quotes.
const QUOTED: usize = 40;

/// The line and the column of an offset. The three bytes EF BB BF at the front are no column, as editors don't show them.
pub fn line_and_column(document: &[u8], offset: usize) -> (usize, usize) {
    let before = &document[..offset];
    let line = before.iter().filter(|&&b| b == b'\n').count() + 1;
    let start = before.iter().rposition(|&b| b == b'\n').map_or(0, |lf| lf + 1);
    let row = before[start..].strip_prefix(b"\xEF\xBB\xBF").filter(|_| start == 0).unwrap_or(&before[start..]);
    (line, column(row, row.len()))
}

/// The column of a place in a line.
pub fn column(line: &[u8], at: usize) -> usize {
    // A byte 80 to BF goes on with a character.
    line[..at].iter().filter(|&&b| b & 0xC0 != 0x80).count() + 1
}

/// Where what stands at an offset seems to end: a tag or another item that begins with `<` behind the next `>`, a reference behind `;`,
/// text at the next item.
pub fn item_end(document: &[u8], offset: usize) -> usize {
    let rest = &document[offset..];
    let end = match rest.first() {
        Some(b'<') => rest.iter().position(|&b| b == b'>').map(|end| end + 1),
        Some(b'&') => rest.iter().position(|&b| b == b';').map(|end| end + 1),
        _ => rest.iter().position(|&b| b == b'<' || b == b'&'),
    };
    end.map_or(document.len(), |end| offset + end)
}

/// The front of what stands at an offset.
pub fn item(document: &[u8], offset: usize) -> String {
    shown::some(&document[offset..item_end(document, offset)], QUOTED)
}

/// The front of a line.
pub fn quoted(line: &[u8]) -> String {
    shown::some(line, QUOTED)
}

#[cfg(test)]
mod tests {
    use super::*;

    #[test]
    fn lines_and_columns_count_from_one() {
        assert_eq!(line_and_column(b"", 0), (1, 1));
        assert_eq!(line_and_column(b"<g>\n  <v>", 6), (2, 3));
        assert_eq!(line_and_column(b"<g>\n", 3), (1, 4));
        assert_eq!(line_and_column(b"<g>\n", 4), (2, 1));
        assert_eq!(line_and_column(b"a\r\nb", 3), (2, 1));
    }

    #[test]
    fn columns_are_characters() {
        assert_eq!(line_and_column("<é>\u{1F600}<".as_bytes(), 8), (1, 5));
        assert_eq!(line_and_column("\u{FEFF}<g>".as_bytes(), 3), (1, 1));
        assert_eq!(line_and_column("\n\u{FEFF}<".as_bytes(), 4), (2, 2));
    }

    #[test]
    fn an_item_ends_where_it_seems_to() {
        assert_eq!(item(b"<g></v>\n<a>", 3), "</v>");
        assert_eq!(item(b"a &nbsp; b", 2), "&nbsp;");
        assert_eq!(item(b"<g/>text\n<v/>", 4), "text\\n");
        assert_eq!(item(b"<g", 0), "<g");
        assert_eq!(item(&[b'x'; 50], 0), "x".repeat(40) + "...");
    }
}
