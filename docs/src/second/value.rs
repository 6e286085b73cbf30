//! What an attribute's value means, document 02, Q-4: "the value, with line ends first made LF, then each literal tab and LF
//! made a space and each reference replaced by its character". A character keeps where it comes from to the end, so that one
//! from a reference stays what it is (reading R-16).

use crate::reader::Reader;
use crate::reference::reference;

/// A character of a value, by where it comes from.
#[derive(Clone, Copy, PartialEq, Eq)]
enum Part {
    Literal(char),
    Referred(char),
}

use Part::{Literal, Referred};

/// The value that a test is compared with. `raw` is what stands between the quotes of a sound tag.
pub fn normal(raw: &str) -> String {
    blanks_made_space(&line_ends_made_lf(&parts(raw))).into_iter().map(character).collect()
}

fn character(part: Part) -> char {
    match part {
        Literal(c) | Referred(c) => c,
    }
}

fn parts(raw: &str) -> Vec<Part> {
    let mut reader = Reader::new(raw);
    let mut found = Vec::new();
    while let Some(part) = part(&mut reader) {
        found.push(part);
    }
    found
}

/// The next one, if there is one. In a sound tag every `&` begins a reference.
fn part(reader: &mut Reader) -> Option<Part> {
    match reader.optional(reference) {
        Some(c) => Some(Referred(c)),
        None => reader.one().map(Literal),
    }
}

/// "line ends first made LF": CR LF and each other CR, where they are literal.
fn line_ends_made_lf(parts: &[Part]) -> Vec<Part> {
    let mut made = Vec::new();
    for (at, part) in parts.iter().enumerate() {
        match part {
            Literal('\r') if parts.get(at + 1) == Some(&Literal('\n')) => {}
            Literal('\r') => made.push(Literal('\n')),
            other => made.push(*other),
        }
    }
    made
}

/// "then each literal tab and LF made a space"
fn blanks_made_space(parts: &[Part]) -> Vec<Part> {
    let space = |part: &Part| if matches!(part, Literal('\t' | '\n')) { Literal(' ') } else { *part };
    parts.iter().map(space).collect()
}
