//! A run of `show`: a page that shows what becomes of each part of a document under a list, or where one of them is refused. The page is
//! written in both cases; the exit status is the number of the answer.
use crate::each;
use crate::explain;
use crate::input::Source;
use crate::output::Sink;
use crate::page;
use crate::parts::{self, Fate};
use crate::paths::Paths;
use crate::picked::{self, Element};
use crate::places;
use crate::progress;
use crate::report::{self, grouped, Read, Report};
use crate::say;
use crate::trouble::Trouble;
use choughbell::{Cut, Refusal, DOCUMENT_LIMIT};

/// What is asked for.
#[derive(PartialEq, Eq, Debug)]
pub struct Showing {
    pub paths: Paths,
    pub document: Source,
    pub output: Sink,
    pub quiet: bool,
}

/// Where more elements are selected, the lines that select each are not named at its tag: the page would be mostly numbers.
const NAMED: usize = 50_000;

pub fn run(showing: &Showing) -> Result<u8, Trouble> {
    let list = showing.paths.read()?;
    let document = Read::of(&showing.document, DOCUMENT_LIMIT)?;
    let list = match showing.paths.text(&list) {
        Ok(text) => text,
        Err(refusal) => return refused(showing, refusal, &Read { name: list.name, ..Read::default() }, &document),
    };
    match choughbell::cut_of(&list.bytes, &document.bytes) {
        Ok(cut) => {
            let (page, counts) = progress::during("making the page", || cut_page(&list, &document, &cut));
            showing.output.write(page.as_bytes())?;
            if !showing.quiet {
                each::idle(&list, &counts).iter().for_each(|line| say(line));
            }
            Ok(0)
        }
        Err(refusal) => refused(showing, refusal, &list, &document),
    }
}

fn refused(showing: &Showing, refusal: Refusal, list: &Read, document: &Read) -> Result<u8, Trouble> {
    let report = report::report(refusal, list, document);
    showing.output.write(refused_page(refusal, &report, list, document).as_bytes())?;
    if !showing.quiet {
        say(&report.message());
    }
    Ok(refusal.number() as u8)
}

/// A page on a cut, and how many elements each line selects.
fn cut_page(list: &Read, document: &Read, cut: &Cut) -> (String, Vec<u64>) {
    let lines: Vec<&[u8]> = list.bytes.split_inclusive(|&b| b == b'\n').map(|line| &line[..line.len() - 1]).collect();
    let marked = lines.iter().enumerate().filter(|(_, line)| line.ends_with(b" #")).fold(0, |bits, (i, _)| bits | 1 << i);
    let elements = picked::picked(&list.bytes, &document.bytes);
    let fates = parts::fates(&elements, marked);
    let made = parts::parts(&document.bytes, &elements, &fates);
    assert!(made.written == cut.bytes, "the parts that are kept are not the cut");
    let counts: Vec<u64> = (0..lines.len()).map(|line| elements.iter().filter(|e| e.lines >> line & 1 == 1).count() as u64).collect();
    let selected = elements.iter().filter(|element| element.lines != 0).count();
    let named = selected <= NAMED;
    let mut page = page::head(&format!("{} by {}", document.name, list.name));
    page += "<div class=\"head\">\n";
    page += &numbers(document, cut, &elements);
    page += &listed(&lines, Some(&counts), None);
    page += &legend(&fates);
    page += "</div>\n";
    page += &page::parts(&document.bytes, &made.parts, named);
    let small = if named { "A small number before a tag names the lines of the list that select it. " } else { "" };
    page += &page::foot(&format!("{small}The parts that are kept, put together, are the cut byte for byte."));
    (page, counts)
}

/// The numbers of the cut.
fn numbers(document: &Read, cut: &Cut, elements: &[Element]) -> String {
    let rows = [
        ("elements selected", cut.selected),
        ("elements in the document", elements.len() as u64),
        ("bytes of the cut", cut.bytes.len() as u64),
        ("bytes of the document", document.bytes.len() as u64),
        ("name tests", cut.name_tests),
    ];
    let rows = rows.map(|(what, number)| format!("<tr><td class=\"n\">{}</td><td>{what}</td></tr>\n", grouped(number)));
    format!("<div><h2>The cut</h2>\n<table>\n{}</table></div>\n", rows.concat())
}

/// How each fate looks, what it is, and how many elements have it.
fn legend(fates: &[Fate]) -> String {
    let rows = [
        (Fate::Whole, "W <b>kept whole</b>", "byte for byte as it came"),
        (Fate::Tag, "T <u>tag kept</u>", "selected: its tags, and what is kept in it"),
        (Fate::Chain, "C <i>chain</i>", "its name alone: the root, or on the way to a selected element"),
        (Fate::Dropped, "D <s>dropped</s>", "not written"),
    ];
    let row = |(fate, look, what): (Fate, &str, &str)| {
        let number = grouped(fates.iter().filter(|&&other| other == fate).count() as u64);
        format!("<tr><td><code>{look}</code></td><td class=\"n\">{number}</td><td>{what}</td></tr>\n")
    };
    format!("<div class=\"legend\"><h2>Elements</h2>\n<table>\n{}</table></div>\n", rows.map(row).concat())
}

/// The list, with how many elements each line selects where that is known. `fault` is a line that is refused.
fn listed(lines: &[&[u8]], counts: Option<&[u64]>, fault: Option<u64>) -> String {
    let mut rows = String::new();
    for (line, number) in lines.iter().zip(1..) {
        let count = counts.map(|counts| counts[number as usize - 1]);
        let class = if count == Some(0) { " class=\"none\"" } else { "" };
        let shown = page::text(line);
        let shown = if fault == Some(number) { format!("<mark>{shown}</mark>") } else { shown };
        let count = count.map_or(String::new(), |count| format!("<td class=\"n\">{}</td>", grouped(count)));
        rows += &format!("<tr{class}><td class=\"n\">{number}</td>{count}<td><code>{shown}</code></td></tr>\n");
    }
    let head = if counts.is_some() { "<tr><th class=\"n\">line</th><th class=\"n\">selects</th><th>path</th></tr>\n" } else { "" };
    format!("<div><h2>The list</h2>\n<table>\n{head}{rows}</table></div>\n")
}

/// A page on a refusal: the message, the list, and the document with the place marked.
fn refused_page(refusal: Refusal, report: &Report, list: &Read, document: &Read) -> String {
    let mut page = page::head(&format!("{} by {}", document.name, list.name));
    let number = refusal.number();
    page += &format!("<div class=\"refusal\"><strong>Refused by {number}: {}</strong>\n", page::text(refusal.meaning().as_bytes()));
    page += &format!("<pre>{}</pre>\n", page::text(report.message().as_bytes()));
    if let Some(text) = explain::text(number.to_string().as_bytes()) {
        page += &format!("<details><summary>What to do</summary>\n<pre>{}</pre></details>\n", page::text(text.as_bytes()));
    }
    page += "</div>\n";
    if !matches!(refusal, Refusal::ListTooLong | Refusal::NotPacked) {
        let bytes = list.bytes.strip_suffix(b"\n").unwrap_or(&list.bytes);
        // At most 33 lines are looked at.
        let lines: Vec<&[u8]> = bytes.split(|&b| b == b'\n').take(if list.bytes.is_empty() { 0 } else { 33 }).collect();
        page += &format!("<div class=\"head\">\n{}</div>\n", listed(&lines, None, refusal.line()));
    }
    if let (Some(offset), Some(fault)) = (refusal.offset(), report.fault()) {
        let end = places::item_end(&document.bytes, (offset as usize).min(document.bytes.len()));
        // A tag may seem to end before its fault, as at a > in a value.
        let end = if fault < end { end } else { places::item_end(&document.bytes, fault) };
        page += &page::refused(&document.bytes, fault..end);
    }
    page + &page::foot("Where the list or the document is refused, nothing is cut.")
}

#[cfg(test)]
mod tests {
    use super::*;

    fn read(name: &str, bytes: &[u8]) -> Read {
        Read::whole(name.to_string(), bytes.to_vec())
    }

    #[test]
    fn a_page_has_the_numbers() {
        let (list, document) = (b"//v\n//w #\n//x\n", b"<g><v/><v/><w><v/></w></g>");
        let cut = choughbell::cut_of(list, document).unwrap();
        let (page, counts) = cut_page(&read("<a>.lst", list), &read("m.xml", document), &cut);
        assert_eq!(counts, [3, 1, 0]);
        for text in [
            "<title>m.xml by &lt;a&gt;.lst</title>",
            "<td class=\"n\">4</td><td>elements selected</td>",
            "<td class=\"n\">32</td><td>bytes of the cut</td>",
            "<td class=\"n\">1</td><td class=\"n\">3</td><td><code>//v</code></td>",
            "<tr class=\"none\"><td class=\"n\">3</td><td class=\"n\">0</td><td><code>//x</code></td>",
            "<sup>1</sup><u>&lt;v/&gt;</u><sup>1</sup><u>&lt;v/&gt;</u><sup>2</sup><b>&lt;w&gt;</b><sup>1</sup><b>",
        ] {
            assert!(page.contains(text), "{text}\n{page}");
        }
    }

    #[test]
    fn a_refused_document_and_a_refused_list() {
        let page = |list: &[u8], document: &[u8]| {
            let refusal = choughbell::cut_of(list, document).unwrap_err();
            let (list, document) = (read("a.lst", list), read("m.xml", document));
            refused_page(refusal, &report::report(refusal, &list, &document), &list, &document)
        };
        let document = page(b"//v\n", b"<g>\n<v></g>");
        assert!(document.contains("<strong>Refused by 7: not well-formed</strong>"));
        assert!(document.contains("&lt;v&gt;<mark>&lt;/g&gt;</mark>"), "{document}");
        let list = page(b"//v\nv<\n", b"<g/>");
        assert!(list.contains("<td class=\"n\">2</td><td><code><mark>v&lt;</mark></code></td>") && !list.contains("class=\"text\""));
        assert!(!page(b"", &vec![b' '; DOCUMENT_LIMIT + 1]).contains("class=\"text\""));
        assert!(page(b"", b"").contains("class=\"text\""));
    }

    /// Documents of bits and pieces: each that is refused has a message and a page, and the fault is marked in what stands there.
    #[test]
    fn any_refused_document_has_a_page() {
        let bits: [&[u8]; 28] = [
            b"<g>",
            b"</g>",
            b"<g",
            b"<1",
            b"<",
            b">",
            b"/>",
            b" a=\"1\"",
            b"b='",
            b"'",
            b"\"",
            b"&",
            b"&lt;",
            b"&#",
            b"&#x110000;",
            b"]]>",
            b"<!--",
            b"--",
            b"-->",
            b"<![CDATA[",
            b"<?p",
            b"?>",
            b"\n",
            b" ",
            "\u{A0}".as_bytes(),
            "日é".as_bytes(),
            b"\xFF",
            b"<!DOCTYPE",
        ];
        let (mut seed, mut refused) = (7u64, 0);
        for _ in 0..20_000 {
            let mut document = b"<g>".to_vec();
            for _ in 0..6 {
                seed = seed.wrapping_mul(6_364_136_223_846_793_005).wrapping_add(1_442_695_040_888_963_407);
                document.extend(bits[(seed >> 33) as usize % bits.len()]);
            }
            if let Err(refusal) = choughbell::check(&document) {
                let (list, read) = (read("a.lst", b""), read("m.xml", &document));
                let report = report::report(refusal, &list, &read);
                let fault = report.fault().expect("a place in the document");
                assert!(refusal.offset().unwrap() as usize <= fault && fault <= document.len());
                let page = refused_page(refusal, &report, &list, &read);
                assert!(page.contains("class=\"text\"") && !report.message().is_empty());
                refused += 1;
            }
        }
        assert!(refused > 10_000, "{refused}");
    }
}
