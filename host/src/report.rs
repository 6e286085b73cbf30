//! A refusal for a person, as one line and for a list two more, and for a script, as JSON.
use crate::advice::{self, Advice};
use crate::caret;
use crate::hints::{self, Hint};
use crate::input::Source;
use crate::json::Object;
use crate::places;
use crate::trouble::Trouble;
use choughbell::Refusal;

/// What a run has read: a name for messages, the bytes, and how long the whole is where that is known.
#[derive(Default)]
pub struct Read {
    pub name: String,
    pub bytes: Vec<u8>,
    pub size: Option<u64>,
}

impl Read {
    /// What a source holds, up to one byte more than `limit`.
    pub fn of(source: &Source, limit: usize) -> Result<Read, Trouble> {
        Ok(Read { name: source.name(), bytes: source.read(limit)?, size: source.size() })
    }

    /// Bytes that are all there.
    pub fn whole(name: String, bytes: Vec<u8>) -> Read {
        Read { name, size: Some(bytes.len() as u64), bytes }
    }
}

/// What is said of a refusal.
pub struct Report {
    refusal: Refusal,
    file: String,
    place: Place,
}

enum Place {
    /// The file as a whole, and how long it is where it is too long and that is known.
    Whole(Option<String>),
    /// A line of a list: its number, its bytes and the advice on it.
    Line(u64, Vec<u8>, Advice),
    /// A place in a document.
    Item(Item),
}

struct Item {
    offset: u64,
    line: usize,
    column: usize,
    /// What stands there, or nothing at the end of the document.
    there: String,
    hint: String,
    /// The line and the column of the fault itself, where that is elsewhere in the item; and its offset.
    fault: Option<(usize, usize)>,
    at: usize,
}

/// The report on a refusal of a list or a document.
pub fn report(refusal: Refusal, list: &Read, document: &Read) -> Report {
    if let Some(line) = refusal.line() {
        return Report { refusal, file: list.name.clone(), place: in_list(refusal, line, &list.bytes) };
    }
    if let Some(offset) = refusal.offset() {
        return Report { refusal, file: document.name.clone(), place: in_document(refusal, offset, &document.bytes) };
    }
    let file = if matches!(refusal, Refusal::ListTooLong | Refusal::NotPacked) { list } else { document };
    let long = matches!(refusal, Refusal::ListTooLong | Refusal::DocumentTooLong);
    let hint = file.size.filter(|_| long).map(|size| format!("it has {}", grouped(size)));
    Report { refusal, file: file.name.clone(), place: Place::Whole(hint) }
}

/// A number with a comma before each three digits from the right.
pub fn grouped(number: u64) -> String {
    let digits = number.to_string();
    let comma = |at: usize| if at > 0 && (digits.len() - at) % 3 == 0 { "," } else { "" };
    digits.chars().enumerate().map(|(at, digit)| format!("{}{digit}", comma(at))).collect()
}

fn in_list(refusal: Refusal, number: u64, list: &[u8]) -> Place {
    let mut lines = list.split(|&b| b == b'\n').skip(number as usize - 1);
    let line = lines.next().unwrap_or(b"");
    // Another piece follows where a line feed does.
    let ended = lines.next().is_some();
    let advice = match refusal {
        Refusal::ListTooLarge { .. } => advice::too_large(line, number as usize),
        _ => advice::malformed(line, ended),
    };
    Place::Line(number, line.to_vec(), advice)
}

fn in_document(refusal: Refusal, offset: u64, document: &[u8]) -> Place {
    let at = (offset as usize).min(document.len());
    let (line, column) = places::line_and_column(document, at);
    let Hint { text, at: found } = hints::hint(refusal, document, at);
    let fault = found.filter(|&found| found != at).map(|found| places::line_and_column(document, found));
    Place::Item(Item { offset, line, column, there: places::item(document, at), hint: text, fault, at: found.unwrap_or(at) })
}

impl Report {
    /// The message, without its last line feed.
    pub fn message(&self) -> String {
        let (file, number, meaning) = (&self.file, self.refusal.number(), self.refusal.meaning());
        match &self.place {
            Place::Whole(None) => format!("{file}: {number}: {meaning}"),
            Place::Whole(Some(hint)) => format!("{file}: {number}: {meaning}: {hint}"),
            Place::Line(line, bytes, Advice { at, hint }) => {
                let (there, caret) = (places::quoted(bytes), caret::caret(bytes, *at));
                format!("{file}:{line}: {number}: {meaning}: \"{there}\": {hint}\n{caret}")
            }
            Place::Item(Item { offset, line, column, there, hint, fault, .. }) => {
                let there = if there.is_empty() { "at the end".to_string() } else { format!("\"{there}\"") };
                let fault = fault.map_or(String::new(), |(line, column)| format!(", at {line}:{column}"));
                format!("{file}:{line}:{column}: {number}: {meaning}: {there}: {hint}{fault} (offset {offset})")
            }
        }
    }

    /// The offset of the fault in a document.
    pub fn fault(&self) -> Option<usize> {
        match &self.place {
            Place::Item(item) => Some(item.at),
            _ => None,
        }
    }

    /// The numbers and the place, as one line of JSON.
    pub fn json(&self, name_tests: Option<u64>) -> String {
        self.placed(numbers(self.refusal.number(), self.refusal.second(), 0, name_tests, self.refusal.meaning()))
    }

    /// The place after other members.
    pub fn placed(&self, mut object: Object) -> String {
        object.string("file", &self.file);
        match &self.place {
            Place::Whole(None) => {}
            Place::Whole(Some(hint)) => object.string("hint", hint),
            Place::Line(line, bytes, Advice { at, hint }) => {
                object.number("line", *line);
                object.number("column", places::column(bytes, *at) as u64);
                object.string("there", &places::quoted(bytes));
                object.string("hint", hint);
            }
            Place::Item(Item { offset, line, column, there, hint, fault, .. }) => {
                object.number("offset", *offset);
                object.number("line", *line as u64);
                object.number("column", *column as u64);
                object.string("there", there);
                object.string("hint", hint);
                if let Some((line, column)) = fault {
                    object.number("fault_line", *line as u64);
                    object.number("fault_column", *column as u64);
                }
            }
        }
        object.line()
    }
}

/// The members that every answer has; name tests only where they are counted, which the plain engine does not.
pub fn numbers(number: u64, second: u64, third: u64, name_tests: Option<u64>, meaning: &str) -> Object {
    let mut object = Object::new();
    object.number("number", number);
    object.number("second", second);
    object.number("third", third);
    if let Some(name_tests) = name_tests {
        object.number("name_tests", name_tests);
    }
    object.string("meaning", meaning);
    object
}

/// Those of an answer without name tests.
pub fn three(number: u64, second: u64, third: u64, meaning: &str) -> Object {
    let mut object = Object::new();
    object.number("number", number);
    object.number("second", second);
    object.number("third", third);
    object.string("meaning", meaning);
    object
}

#[cfg(test)]
mod tests {
    use super::*;

    fn read(name: &str, bytes: &[u8]) -> Read {
        Read::whole(name.to_string(), bytes.to_vec())
    }

    /// The report on the first fault of a list and a document.
    fn said(list: &[u8], document: &[u8]) -> Report {
        let refusal = choughbell::cut_of(list, document).unwrap_err();
        report(refusal, &read("a.lst", list), &read("m.xml", document))
    }

    #[test]
    fn a_line_has_a_caret() {
        let report = said(b"/a\n/b\n/a b\n", b"<g/>");
        let hint = "a step is /, //, /self:: or /descendant-or-self::, then * or a name";
        assert_eq!(report.message(), format!("a.lst:3: 2: malformed line: \"/a b\": {hint}\n    /a b\n      ^"));
        assert!(report.json(Some(0)).contains(r#""file":"a.lst","line":3,"column":3,"there":"/a b""#));
        assert!(said("/é b\n".as_bytes(), b"").json(Some(0)).contains(r#""line":1,"column":3,"#));
    }

    #[test]
    fn an_item_has_its_place() {
        let report = said(b"", "<g>\n é<v></g>".as_bytes());
        assert_eq!(report.message(), "m.xml:2:6: 7: not well-formed: \"</g>\": <v> of line 2 is open (offset 10)");
        let place = r#""offset":10,"line":2,"column":6,"there":"</g>","hint":"<v> of line 2 is open""#;
        let numbers = r#""number":7,"second":10,"third":0,"name_tests":0"#;
        let json = format!(r#"{{{numbers},"meaning":"not well-formed","file":"m.xml",{place}}}"#) + "\n";
        assert_eq!(report.json(Some(0)), json);
        assert_eq!(report.json(None), json.replace("\"name_tests\":0,", ""));
    }

    #[test]
    fn an_encoding_is_quoted() {
        let report = said(b"", b"\xEF\xBB\xBF<?xml version='1.0' encoding='x'?>\xFF");
        let hint = "the declaration says \"x\", but a byte order mark of UTF-8 stands before it: write UTF-8 there";
        let there = "<?xml version='1.0' encoding='x'?>";
        assert_eq!(report.message(), format!("m.xml:1:1: 10: another encoding: \"{there}\": {hint} (offset 3)"));
    }

    #[test]
    fn a_whole_file_has_none() {
        assert_eq!(said(&[b'/'; 8193], b"").message(), "a.lst: 1: list over 8,192 bytes: it has 8,193");
        assert_eq!([0, 999, 1000, 16_777_217].map(grouped), ["0", "999", "1,000", "16,777,217"]);
    }
}
