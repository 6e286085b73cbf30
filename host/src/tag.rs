//! A start tag or an empty tag with a fault: where in it the fault is, and what would be right there. It only advises; that the tag is at
//! fault, and by which number, the library says. A reference in text or in a value is read here too.
use crate::names;
use crate::places;
use crate::shown;
use std::ops::Range;

pub const REFERENCE: &str = "a reference is &lt; &gt; &amp; &apos; &quot; or a character's number, as &#233;";

/// A fault, by its offset in the tag, and a hint.
pub type Fault = (usize, String);

/// What is read of a tag: its name and those of its attributes, and the first fault.
#[derive(Default)]
pub struct Tag {
    pub name: Range<usize>,
    pub attributes: Vec<Range<usize>>,
    pub fault: Option<Fault>,
}

/// Reads the tag at the front, up to its first fault. It begins with `<` and a name.
pub fn read(rest: &[u8]) -> Tag {
    let mut tag = Tag { name: 1..name_end(rest, 1), ..Tag::default() };
    tag.fault = tag.read(rest).err();
    tag
}

impl Tag {
    fn read(&mut self, rest: &[u8]) -> Result<(), Fault> {
        let mut at = self.name.end;
        loop {
            let next = blanks(rest, at);
            match rest.get(next) {
                Some(b'>') => return Ok(()),
                Some(b'/') if rest.get(next + 1) == Some(&b'>') => return Ok(()),
                Some(b'/') => return fault(next, "behind / stands >"),
                Some(b'<') => return fault(next, "the tag is not ended before this <"),
                None => return fault(next, "the tag is not ended"),
                Some(_) if name_end(rest, next) == next => return fault(next, &no_name(rest, next)),
                Some(_) if next == at => return fault(next, "a blank stands before each attribute"),
                Some(_) => at = self.attribute(rest, next)?,
            }
        }
    }

    /// An attribute whose name begins there; gives where its value is ended.
    fn attribute(&mut self, rest: &[u8], from: usize) -> Result<usize, Fault> {
        let name = from..name_end(rest, from);
        let equals = blanks(rest, name.end);
        self.attributes.push(name);
        if rest.get(equals) != Some(&b'=') {
            return fault(equals, "behind the name of an attribute stand = and its value, in quotes");
        }
        let open = blanks(rest, equals + 1);
        match rest.get(open) {
            Some(quote @ (b'"' | b'\'')) => value(rest, open, *quote),
            _ => fault(open, "a value stands in quotes"),
        }
    }

    /// The first attribute whose name another before it has.
    pub fn twice(&self, rest: &[u8]) -> Option<Fault> {
        let name = |at: usize| &rest[self.attributes[at].clone()];
        let second = (0..self.attributes.len()).find(|&at| (0..at).any(|other| name(other) == name(at)))?;
        Some((self.attributes[second].start, format!("the attribute {} stands twice", places::quoted(name(second)))))
    }
}

fn fault<T>(at: usize, hint: &str) -> Result<T, Fault> {
    Err((at, hint.to_string()))
}

/// Where the value ends that begins at a quote: behind the next of its kind.
fn value(rest: &[u8], open: usize, quote: u8) -> Result<usize, Fault> {
    let mut at = open + 1;
    loop {
        at += match rest.get(at) {
            None => return fault(open, "the value that begins here is not ended"),
            Some(b'<') => return fault(at, "a < in a value is written &lt;"),
            Some(b'&') => reference(&rest[at..]).map_err(|hint| (at, hint.to_string()))?,
            Some(&b) if b == quote => return Ok(at + 1),
            Some(_) => 1,
        };
    }
}

/// What to say where a blank, `>`, `/` or a name should stand.
fn no_name(rest: &[u8], at: usize) -> String {
    match shown::front(&rest[at..]) {
        Ok(c) if shown::unseen(c).is_none() => format!("{c} can't stand there: behind a blank an attribute begins by its name"),
        _ => "an attribute begins with a blank and its name".to_string(),
    }
}

fn blanks(rest: &[u8], at: usize) -> usize {
    at + rest[at..].iter().take_while(|b| b" \t\r\n".contains(b)).count()
}

/// Where the name ends that begins there, if one does.
fn name_end(rest: &[u8], from: usize) -> usize {
    let mut at = from;
    while let Ok(c) = shown::front(&rest[at..]) {
        if !(names::begins(c) || at > from && names::within(c)) {
            break;
        }
        at += c.len_utf8();
    }
    at
}

/// The length of the reference at the front, or what to say where there is none that is sound.
pub fn reference(rest: &[u8]) -> Result<usize, &'static str> {
    let end = rest.iter().take(4_096).position(|&b| b == b';').unwrap_or(0);
    let named = rest.get(1) == Some(&b'#') || name_end(rest, 1) > 1;
    let code = match &rest[..end] {
        [_, b'#', b'x', digits @ ..] => number(digits, 16),
        [_, b'#', digits @ ..] => number(digits, 10),
        [_, name @ ..] if [&b"lt"[..], b"gt", b"amp", b"apos", b"quot"].contains(&name) => return Ok(end + 1),
        _ if !named => return Err("a & that begins no reference is written &amp;"),
        _ => return Err(REFERENCE),
    };
    code.filter(|&code| character(code)).map(|_| end + 1).ok_or("the number in a reference is that of a character of XML, as in &#233;")
}

/// A number of any length, which is no character's where it is large.
fn number(digits: &[u8], base: u32) -> Option<u32> {
    let digit = |&b: &u8| char::from(b).to_digit(base);
    let all: Option<Vec<u32>> = digits.iter().map(digit).collect();
    all.filter(|all| !all.is_empty()).map(|all| all.iter().fold(0, |code: u32, digit| code.saturating_mul(base).saturating_add(*digit)))
}

/// Production [2].
fn character(code: u32) -> bool {
    matches!(code, 9 | 10 | 13 | 0x20..=0xD7FF | 0xE000..=0xFFFD | 0x10000..=0x10FFFF)
}

#[cfg(test)]
mod tests {
    use super::*;

    fn said(tag: &str) -> Option<(usize, String)> {
        let tag = tag.as_bytes();
        let read = read(tag);
        let twice = read.twice(tag);
        read.fault.or(twice)
    }

    fn says(tag: &str, at: usize, hint: &str) {
        assert_eq!(said(tag), Some((at, hint.to_string())), "{tag}");
        assert!(choughbell::check(tag.as_bytes()).is_err());
    }

    #[test]
    fn faults_of_tags() {
        says("<g a=\"1\"b=\"2\"/>", 8, "a blank stands before each attribute");
        says("<g a=1/>", 5, "a value stands in quotes");
        says("<g a/>", 4, "behind the name of an attribute stand = and its value, in quotes");
        says("<g a='x & y'/>", 8, "a & that begins no reference is written &amp;");
        says("<g a='&nbsp;'/>", 6, REFERENCE);
        says("<g a='&#0;'/>", 6, "the number in a reference is that of a character of XML, as in &#233;");
        says("<g a='x<y'/>", 7, "a < in a value is written &lt;");
        says("<g a='1>", 5, "the value that begins here is not ended");
        says("<g\n a='1' a=\"2\"/>", 10, "the attribute a stands twice");
        says("<g a='1'", 8, "the tag is not ended");
        says("<g <v/>", 3, "the tag is not ended before this <");
        says("<g / >", 3, "behind / stands >");
        says("<g$/>", 2, "$ can't stand there: behind a blank an attribute begins by its name");
        says("<g\u{A0}a='1'/>", 2, "an attribute begins with a blank and its name");
    }

    #[test]
    fn sound_tags_have_none() {
        for tag in ["<g/>", "<g />", "<é a = 'x>\"' b='&lt;&#233;&#xE9;&#0000000000065;'\n/>", "<g a=''></g>"] {
            assert_eq!(said(tag), None, "{tag}");
            assert_eq!(choughbell::check(tag.as_bytes()), Ok(()), "{tag}");
        }
    }
}
