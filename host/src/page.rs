//! The page that shows a cut, as HTML: one file that needs no other, no network and no script. The four fates of a part are four elements
//! of HTML, b, u, i and s, so that they differ also without colours, as in print: bold, underlined, slanted with dots, grey; and each line
//! has their letters. What comes from a file is escaped here, and what can't be seen in it is shown by its number, as in messages.
use crate::parts::{Fate, Part};
use crate::report::grouped;
use crate::shown;
use std::ops::Range;

const STYLE: &str = include_str!("page.css");

/// A dropped part is folded where it has more lines or more bytes than these.
const LINES: usize = 8;
const BYTES: usize = 1_000;
/// A block of the text has at most so many lines, and so many bytes or one line more: a browser passes over the blocks that are not seen.
const BLOCK_LINES: usize = 100;
const BLOCK_BYTES: usize = 16_384;
/// Around a fault so many lines are shown.
const AROUND: usize = 15;

/// The beginning of a page, up to its text.
pub fn head(title: &str) -> String {
    let mut page = String::from("<!DOCTYPE html>\n<html lang=\"en\">\n<head>\n<meta charset=\"utf-8\">\n");
    page += "<meta http-equiv=\"Content-Security-Policy\" content=\"default-src 'none'; style-src 'unsafe-inline'\">\n";
    page += "<meta name=\"viewport\" content=\"width=device-width, initial-scale=1\">\n";
    let title = text(title.as_bytes());
    page + &format!("<title>{title}</title>\n<style>\n{STYLE}</style>\n</head>\n<body>\n<h1>{title}</h1>\n")
}

/// The end of a page.
pub fn foot(note: &str) -> String {
    format!("<footer>{note} choughbell {}</footer>\n</body>\n</html>\n", env!("CARGO_PKG_VERSION"))
}

/// Bytes as HTML.
pub fn text(bytes: &[u8]) -> String {
    let mut html = String::new();
    escape(&mut html, bytes);
    html
}

fn escape(html: &mut String, mut bytes: &[u8]) {
    while let Some(&first) = bytes.first() {
        let mut length = 1;
        match first {
            b'<' => *html += "&lt;",
            b'>' => *html += "&gt;",
            b'&' => *html += "&amp;",
            b'"' => *html += "&quot;",
            // A line end of two bytes is one.
            b'\r' if bytes.get(1) == Some(&b'\n') => {}
            b'\t' | b'\n' | b' '..=b'~' => html.push(first.into()),
            _ => {
                let shown = shown::each(bytes).next().expect("there is a byte");
                length = shown.bytes;
                // A backslash itself is passed above.
                let escaped = shown.text.starts_with('\\');
                *html += &if escaped { format!("<kbd>{}</kbd>", shown.text) } else { shown.text };
            }
        }
        bytes = &bytes[length..];
    }
}

/// How a part of the text looks.
#[derive(Clone, Copy, PartialEq, Eq)]
enum Look {
    Fate(Fate),
    Fault,
    Plain,
}

impl Look {
    /// The element of HTML, and the letter.
    fn words(self) -> (&'static str, &'static str) {
        match self {
            Look::Fate(Fate::Whole) => ("b", "W"),
            Look::Fate(Fate::Tag) => ("u", "T"),
            Look::Fate(Fate::Chain) => ("i", "C"),
            Look::Fate(Fate::Dropped) => ("s", "D"),
            Look::Fault => ("mark", "!"),
            Look::Plain => ("", ""),
        }
    }
}

/// Some of a row: how it looks, the lines of the list that are named before it, and where it stands in the document.
struct Piece {
    look: Look,
    lines: u32,
    range: Range<usize>,
}

/// The text of a document, as it is put together.
struct Text<'a> {
    document: &'a [u8],
    html: String,
    /// The number of the row, and whether it is still to be written.
    row: usize,
    fresh: bool,
    pieces: Vec<Piece>,
    /// How many rows and bytes the block has, if one is open.
    block: Option<(usize, usize)>,
}

/// The text of a document that is cut. `named` says whether the lines that select an element are named at its tag.
pub fn parts(document: &[u8], parts: &[Part], named: bool) -> String {
    let mut text = Text::new(document);
    let mut from = 0;
    for (i, part) in parts.iter().enumerate() {
        // Without the names of lines, neighbours that look alike are one.
        if !named && parts.get(i + 1).map_or(false, |next| next.fate == part.fate) {
            continue;
        }
        let range = from..part.to;
        from = part.to;
        match if part.fate == Fate::Dropped { folded(document, &range) } else { None } {
            Some(fold) => {
                text.add(Look::Fate(part.fate), 0, range.start..fold.start);
                text.fold(Look::Fate(part.fate), "dropped", fold.clone());
                text.add(Look::Fate(part.fate), 0, fold.end..range.end);
            }
            None => text.add(Look::Fate(part.fate), if named { part.lines } else { 0 }, range),
        }
    }
    text.done()
}

/// The text of a document that is refused, with what stands in `at` marked. What is far from it is folded.
pub fn refused(document: &[u8], at: Range<usize>) -> String {
    let mut text = Text::new(document);
    let before = document[..at.start].iter().rev().enumerate().filter(|(_, &b)| b == b'\n').nth(AROUND);
    let first = before.map_or(0, |(back, _)| at.start - back);
    let after = document[at.end..].iter().enumerate().filter(|(_, &b)| b == b'\n').nth(AROUND);
    let last = after.map_or(document.len(), |(on, _)| at.end + on + 1);
    if first > 0 {
        text.fold(Look::Plain, "not shown", 0..first);
    }
    text.add(Look::Plain, 0, first..at.start);
    text.add(Look::Fault, 0, at.clone());
    text.add(Look::Plain, 0, at.end..last);
    if last < document.len() {
        text.fold(Look::Plain, "not shown", last..document.len());
    }
    text.done()
}

/// What of a dropped part is folded: whole lines, or all of it where there are none.
fn folded(document: &[u8], range: &Range<usize>) -> Option<Range<usize>> {
    let bytes = &document[range.clone()];
    let feeds = bytes.iter().filter(|&&b| b == b'\n').count();
    let begins = range.start == 0 || document[range.start - 1] == b'\n';
    let first = if begins { 0 } else { bytes.iter().position(|&b| b == b'\n').map_or(0, |at| at + 1) };
    let last = bytes.iter().rposition(|&b| b == b'\n').map_or(bytes.len(), |at| at + 1);
    let (first, last) = if first < last { (first, last) } else { (0, bytes.len()) };
    let long = feeds > LINES || last - first > BYTES;
    Some(range.start + first..range.start + last).filter(|_| long)
}

impl<'a> Text<'a> {
    fn new(document: &'a [u8]) -> Text<'a> {
        Text { document, html: "<div class=\"text\">".to_string(), row: 1, fresh: true, pieces: Vec::new(), block: None }
    }

    fn done(mut self) -> String {
        self.end(false);
        self.close();
        self.html + "</div>\n"
    }

    /// Adds bytes of the document, row by row. A long row is ended in between, without a number for what follows.
    fn add(&mut self, look: Look, mut lines: u32, range: Range<usize>) {
        let mut from = range.start;
        while from < range.end {
            let most = &self.document[from..range.end.min(from + BLOCK_BYTES)];
            let feed = most.iter().position(|&b| b == b'\n');
            let mut to = from + feed.map_or(most.len(), |at| at + 1);
            // Not within a character, of which the later bytes are 80 to BF.
            while feed.is_none() && to < range.end && to > from + 1 && self.document[to] & 0xC0 == 0x80 {
                to -= 1;
            }
            self.pieces.push(Piece { look, lines, range: from..to });
            if feed.is_some() || to < range.end || self.pieces.len() > BLOCK_BYTES / 16 {
                self.end(feed.is_some());
            }
            (from, lines) = (to, 0);
        }
    }

    /// Adds bytes that are seen only when they are asked for.
    fn fold(&mut self, look: Look, what: &str, range: Range<usize>) {
        self.end(false);
        self.close();
        let bytes = &self.document[range.clone()];
        let feeds = bytes.iter().filter(|&&b| b == b'\n').count();
        let last = self.row + feeds - usize::from(bytes.ends_with(b"\n"));
        let rows = if last > self.row { format!("lines {} to {last}", self.row) } else { format!("line {last}") };
        let size = grouped(bytes.len() as u64);
        self.html += &format!("<details><summary>{rows}: {size} bytes {what}</summary>\n");
        self.add(look, 0, range);
        self.end(false);
        self.close();
        self.html += "</details>\n";
    }

    /// Writes the row so far. `feed` says whether its line feed is in it.
    fn end(&mut self, feed: bool) {
        let pieces = std::mem::take(&mut self.pieces);
        if pieces.is_empty() {
            return;
        }
        let (rows, bytes) = self.block.unwrap_or_else(|| {
            self.html += "<div>";
            (0, 0)
        });
        if self.fresh {
            self.number(&pieces);
        }
        pieces.iter().for_each(|piece| self.piece(piece));
        let (rows, bytes) = (rows + 1, bytes + pieces.iter().map(|piece| piece.range.len()).sum::<usize>());
        self.block = Some((rows, bytes));
        self.row += usize::from(feed);
        self.fresh = feed;
        if rows >= BLOCK_LINES || bytes >= BLOCK_BYTES {
            self.close();
        }
    }

    fn close(&mut self) {
        if self.block.take().is_some() {
            self.html += "</div>\n";
        }
    }

    /// The number of a row, and the letters of what is in it.
    fn number(&mut self, pieces: &[Piece]) {
        let seen = |piece: &&Piece| self.document[piece.range.clone()].iter().any(|b| !b" \t\r\n".contains(b));
        let mut letters: Vec<&str> = pieces.iter().filter(seen).map(|piece| piece.look.words().1).collect();
        letters.sort_unstable_by_key(|letter| "!WTCD".find(letter));
        letters.dedup();
        let row = self.row;
        self.html += &format!("<a id=\"L{row}\">{row} {:<3}</a>", letters.concat());
    }

    fn piece(&mut self, piece: &Piece) {
        let bytes = &self.document[piece.range.clone()];
        if piece.lines != 0 {
            let lines: Vec<String> = (0..32).filter(|bit| piece.lines >> bit & 1 == 1).map(|bit| (bit + 1).to_string()).collect();
            self.html += &format!("<sup>{}</sup>", lines.join(","));
        }
        let (element, _) = piece.look.words();
        // Blanks are not struck through.
        let dropped = piece.look == Look::Fate(Fate::Dropped);
        let blanks = bytes.iter().take_while(|b| dropped && b" \t\r\n".contains(b)).count();
        escape(&mut self.html, &bytes[..blanks]);
        let rest = &bytes[blanks..];
        if element.is_empty() || rest.is_empty() {
            return escape(&mut self.html, rest);
        }
        self.html += &format!("<{element}>");
        escape(&mut self.html, rest);
        self.html += &format!("</{element}>");
    }
}

#[cfg(test)]
#[path = "page_tests.rs"]
mod tests;
