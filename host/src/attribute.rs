//! The test of an attribute behind a path's last step, `[@name="value"]`: where in it the fault is, and what would be right there. As in
//! `advice`, it only advises.
use crate::advice::{advice, bytes, name_end, Advice};
use crate::shown;
use std::ops::Range;

const TEST: &str = "a test is [@name=\"value\"]";
const LAST: &str = "a test stands behind the last step alone";
const ONE: &str = "a path has one test alone";
const BLANKS: &str = "no blanks stand before a test or in it, other than in its value";
const QUOTES: &str = "a value stands in double quotes";
const AFTER: &str = "behind a test the line ends, or one space and # mark it";

/// Where in a line a sound test has its name and its value, the quotes left out.
#[derive(PartialEq, Eq, Debug)]
pub struct Test {
    name: Range<usize>,
    value: Range<usize>,
}

impl Test {
    /// Where it ends: `"]` stands behind the value.
    pub fn end(&self) -> usize {
        self.value.end + 2
    }
}

/// A hint that ends in what a test is.
fn shape(at: usize, why: &str) -> Advice {
    Advice { at, hint: format!("{why}; {TEST}") }
}

fn is_blank(byte: Option<&u8>) -> bool {
    matches!(byte, Some(b' ' | b'\t'))
}

/// The test that begins at a bracket, or its fault.
pub fn test(line: &[u8], at: usize) -> Result<Test, Advice> {
    opening(line, at)?;
    let name = at + 2..name_end(line, at + 2, &format!("behind [@ stands a name; {TEST}"))?;
    equals(line, name.end)?;
    let value = name.end + 2..value_end(line, name.end + 2)?;
    closing(line, value.end)?;
    Ok(Test { name, value })
}

/// The two characters `[@`, with something behind them that may be a name.
fn opening(line: &[u8], at: usize) -> Result<(), Advice> {
    let (first, second) = (line.get(at + 1), line.get(at + 2));
    match first {
        Some(b'@') if second == Some(&b'*') => Err(shape(at + 2, "a test names its attribute, by no *")),
        Some(b'@') if is_blank(second) => Err(shape(at + 2, BLANKS)),
        Some(b'@') if second.is_none() => Err(shape(at + 2, "behind [@ stands a name")),
        Some(b'@') => Ok(()),
        _ if is_blank(first) => Err(shape(at + 1, BLANKS)),
        _ => Err(shape(at + 1, "a test asks for an attribute and begins with [@")),
    }
}

/// The two characters `="`.
fn equals(line: &[u8], at: usize) -> Result<(), Advice> {
    match (line.get(at), line.get(at + 1)) {
        (Some(b'='), Some(b'"')) => Ok(()),
        (Some(b'='), byte) if is_blank(byte) => Err(shape(at + 1, BLANKS)),
        (Some(b'='), _) => Err(shape(at + 1, QUOTES)),
        (byte, _) if is_blank(byte) => Err(shape(at, BLANKS)),
        (Some(b']'), _) => Err(shape(at, "a test asks for a value")),
        _ => Err(shape(at, "behind the name stands =")),
    }
}

/// Where a value ends: at its quote.
fn value_end(line: &[u8], value: usize) -> Result<usize, Advice> {
    let mut end = value;
    loop {
        end += match shown::front(&line[end..]) {
            Ok('"') => return Ok(end),
            Ok(c @ ('<' | '&')) => return Err(Advice { at: end, hint: format!("a value in a list has no {c}, and no reference for it") }),
            Ok(c @ ('\0'..='\u{1F}' | '\u{FFFE}' | '\u{FFFF}')) => {
                return Err(Advice { at: end, hint: format!("U+{:04X} can't stand in a value", c as u32) })
            }
            Ok(c) => c.len_utf8(),
            Err(0) => return Err(shape(end, "a value ends in a double quote")),
            Err(bad) => return Err(Advice { at: end, hint: format!("not UTF-8: {}", bytes(&line[end..end + bad])) }),
        };
    }
}

/// The two characters `"]`, of which the first is there.
fn closing(line: &[u8], quote: usize) -> Result<(), Advice> {
    let at = quote + 1;
    let rest = &line[at..];
    let word = &rest[rest.iter().take_while(|&b| is_blank(Some(b))).count()..];
    match rest.first() {
        Some(b']') => Ok(()),
        _ if word.starts_with(b"and ") || word.starts_with(b"or ") => Err(shape(at, ONE)),
        byte if is_blank(byte) => Err(shape(at, BLANKS)),
        None => Err(shape(at, "a test ends in ]")),
        _ => Err(shape(at, "behind the value stands ], and no quote in it")),
    }
}

/// What to say of what follows a test that begins at `from` and ends at `at`, and is neither nothing nor the mark.
pub fn after(line: &[u8], from: usize, at: usize) -> Advice {
    match line.get(at) {
        Some(b'/') => advice(from, LAST),
        Some(b'[') => advice(at, ONE),
        _ => advice(at, AFTER),
    }
}

/// What to say of a bracket at a place where it begins no test: behind blanks, or where a name should stand.
pub fn misplaced(line: &[u8], at: usize) -> Advice {
    if is_blank(line.get(at)) {
        shape(at, BLANKS)
    } else {
        advice(at, "before a test stands * or a name")
    }
}

/// What is too large in a sound test.
pub fn too_large(test: &Test) -> Option<Advice> {
    if test.name.len() > 255 {
        Some(advice(test.name.start, "a name over 255 bytes"))
    } else if test.value.len() > 255 {
        Some(advice(test.value.start, "a value over 255 bytes"))
    } else {
        None
    }
}

#[cfg(test)]
#[path = "attribute_tests.rs"]
mod tests;
