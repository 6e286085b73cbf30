//! Which lines of a list select each element of a document, by the library's cuts alone: one line at a time, its mark taken off.
//!
//! A cut tells that a line selects an element, by writing the element's own tag, but not which one of several with the same tag. So the
//! calls go to another document, with the same elements in the same order and their tags, in which each tag ends in white space that
//! stands for a number; everything between the tags is left out. The same lines select the same elements in it: a path asks for the names
//! from the root to the element and for one attribute of its own, and white space at the end of a tag is in neither. A selected element
//! comes with its tag as it stands, the number too; one on the way to it with its name alone. A long document is taken in pieces, each
//! with the names of the elements above the first of its own.
use crate::outline::{self, Kind};

/// An element: where its start tag and its end tag stand, which is empty behind an empty tag, and which element it is in.
#[derive(Clone, Copy, PartialEq, Eq, Debug)]
pub struct Element {
    tag: (u32, u32),
    end: (u32, u32),
    /// The number of the parent; of the root its own.
    pub parent: u32,
    /// A bit for each line of the list, of which there are at most 32.
    pub lines: u32,
}

/// A piece has at most so many elements, and no more tags after so many bytes.
const ELEMENTS: usize = 1 << 16;
const BYTES: usize = 4 << 20;

/// The digits of a number, from 0 to 3.
const DIGITS: [u8; 4] = *b" \t\n\r";

/// The elements of a sound document in the order of their start tags, each with the lines of a sound list that select it.
pub fn picked(list: &[u8], document: &[u8]) -> Vec<Element> {
    let mut elements = elements(document);
    let lines: Vec<Vec<u8>> = list.split_inclusive(|&b| b == b'\n').map(unmarked).collect();
    let mut first = 0;
    while first < elements.len() {
        let (piece, next) = piece(document, &elements, first);
        for (bit, line) in lines.iter().enumerate() {
            let cut = choughbell::cut_of(line, &piece).expect("a line of a sound list, and tags that match").bytes;
            for number in numbers(&cut) {
                elements[first + number].lines |= 1 << bit;
            }
        }
        first = next;
    }
    elements
}

/// A line without its mark.
fn unmarked(line: &[u8]) -> Vec<u8> {
    line.strip_suffix(b" #\n").map_or(line.to_vec(), |path| [path, b"\n"].concat())
}

fn elements(document: &[u8]) -> Vec<Element> {
    let (mut elements, mut open): (Vec<Element>, Vec<u32>) = (Vec::new(), Vec::new());
    for (kind, from, to) in outline::items(document) {
        let (place, number) = ((from as u32, to as u32), elements.len() as u32);
        match kind {
            Kind::Start | Kind::Empty => {
                let parent = open.last().copied().unwrap_or(number);
                elements.push(Element { tag: place, end: (place.1, place.1), parent, lines: 0 });
                if kind == Kind::Start {
                    open.push(number);
                }
            }
            Kind::End => {
                if let Some(number) = open.pop() {
                    elements[number as usize].end = place;
                }
            }
            Kind::Other => {}
        }
    }
    elements
}

impl Element {
    /// The start tag, or the empty tag.
    pub fn tag<'a>(&self, document: &'a [u8]) -> &'a [u8] {
        &document[self.tag.0 as usize..self.tag.1 as usize]
    }

    pub fn name<'a>(&self, document: &'a [u8]) -> &'a [u8] {
        outline::name(&self.tag(document)[1..])
    }

    /// The tag up to but without the final `>` or `/>`.
    pub fn front<'a>(&self, document: &'a [u8]) -> &'a [u8] {
        let tag = self.tag(document);
        &tag[..tag.len() - if tag.ends_with(b"/>") { 2 } else { 1 }]
    }
}

/// A document of the elements from `first` on, and the number of the next that is not in it. Where it has one element it is no longer than
/// the document that it is made of, since number 0 then takes no white space or takes the place of a `/`.
fn piece(document: &[u8], elements: &[Element], first: usize) -> (Vec<u8>, usize) {
    let (mut text, mut open) = (Vec::new(), above(elements, first));
    open.iter().for_each(|&number| bare(&mut text, elements[number].name(document)));
    let mut at = first;
    loop {
        let front = elements[at].front(document);
        let front = &front[..front.iter().rposition(|b| !DIGITS.contains(b)).map_or(0, |last| last + 1)];
        text.extend(front);
        digits(&mut text, at - first, front.len() > 1 + elements[at].name(document).len());
        let next = at + 1;
        let ends = next == elements.len() || next - first == ELEMENTS || text.len() > BYTES;
        let child = !ends && elements[next].parent as usize == at;
        text.extend(if child { &b">"[..] } else { b"/>" });
        if child {
            open.push(at);
        }
        while open.last().map_or(false, |&last| ends || elements[next].parent as usize != last) {
            close(&mut text, elements[open.pop().unwrap_or(0)].name(document));
        }
        if ends {
            return (text, next);
        }
        at = next;
    }
}

/// The elements that one is in, the root first.
fn above(elements: &[Element], number: usize) -> Vec<usize> {
    let (mut above, mut at) = (Vec::new(), number);
    while elements[at].parent as usize != at {
        at = elements[at].parent as usize;
        above.push(at);
    }
    above.reverse();
    above
}

fn bare(text: &mut Vec<u8>, name: &[u8]) {
    text.push(b'<');
    text.extend(name);
    text.push(b'>');
}

fn close(text: &mut Vec<u8>, name: &[u8]) {
    text.extend(b"</");
    text.extend(name);
    text.push(b'>');
}

/// The digits of a number, the last first. Behind attributes 0 has none: their white space already tells the tag from a bare one.
fn digits(text: &mut Vec<u8>, mut number: usize, attributes: bool) {
    if number == 0 && !attributes {
        text.push(DIGITS[0]);
    }
    while number > 0 {
        text.push(DIGITS[number % 4]);
        number /= 4;
    }
}

/// The numbers in a cut, of all tags that are not bare.
fn numbers(cut: &[u8]) -> impl Iterator<Item = usize> + '_ {
    let starts = outline::items(cut).filter(|&(kind, ..)| kind == Kind::Start);
    starts.map(|(_, from, to)| &cut[from..to - 1]).filter(|tag| tag.iter().any(|b| DIGITS.contains(b))).map(|tag| {
        let blanks = tag.iter().rev().map_while(|b| DIGITS.iter().position(|digit| digit == b));
        blanks.fold(0, |number, digit| 4 * number + digit)
    })
}

#[cfg(test)]
mod tests {
    use super::*;

    /// The lines of each element, from 1, in the order of the elements.
    fn lines(list: &str, document: &[u8]) -> Vec<Vec<usize>> {
        let elements = picked(list.as_bytes(), document);
        elements.iter().map(|element| (1..=32).filter(|line| element.lines >> (line - 1) & 1 == 1).collect()).collect()
    }

    #[test]
    fn each_element_has_its_lines() {
        let document = b"<g> <p k='1' ><v/></p><p><x/>text</p><!-- <v/> --><v a='>'\tk=\"1\"></v ></g>";
        let expected: [&[usize]; 6] = [&[], &[2], &[1, 3], &[2], &[], &[1, 4]];
        assert_eq!(lines("//v #\n/g/p\n//p/v\n//v[@k=\"1\"]\n//w\n", document), expected);
        assert_eq!(lines("", b"<g/>"), [&[]; 1]);
        assert_eq!(lines("/g #\n", b"\xEF\xBB\xBF<?xml version='1.0'?><g a='1'/>"), [[1]]);
    }

    /// A list and a document of many elements and depths, with what the library counts.
    #[test]
    fn pieces_say_what_the_whole_says() {
        let mut document = b"<r><a k='1'>".to_vec();
        for i in 0..ELEMENTS / 3 {
            document.extend(format!("<b n='{}'><c/><d><c k='x' /></d></b>", i % 7).as_bytes());
        }
        document.extend(b"</a><c></c></r>");
        let list = "//b/c\n//c[@k=\"x\"]\n/r/a\n//b[@n=\"3\"] #\n//r\n";
        let elements = picked(list.as_bytes(), &document);
        assert!(elements.len() > ELEMENTS);
        for (bit, line) in list.split_inclusive('\n').enumerate() {
            let selected = elements.iter().filter(|element| element.lines >> bit & 1 == 1).count();
            assert_eq!(selected as u64, choughbell::cut_of(line.as_bytes(), &document).unwrap().selected, "{line}");
        }
    }

    #[test]
    fn a_piece_of_one_element_is_no_longer() {
        for document in ["<g/>", "<g></g>", "<g k='1'/>", "<g k='1'></g>", "<a><g k='1'/></a>"] {
            let elements = elements(document.as_bytes());
            let last = elements.len() - 1;
            let (text, next) = piece(document.as_bytes(), &elements, last);
            assert!(text.len() <= document.len() + 1 && next == last + 1, "{document}");
            assert!(text.len() <= document.len() || !document.contains('k'), "{document}");
            assert!(choughbell::check(&text).is_ok());
        }
    }
}
