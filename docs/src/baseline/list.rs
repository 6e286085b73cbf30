// The path list, as documents 01 and 02 have it: lines of steps, perhaps with a test on the last, perhaps with a mark.

use crate::chars::{is_char, name};
use crate::{refuse, Refusal};
use std::str;

const LINES: usize = 32;
const STEPS: usize = 16;
const TEXT_BYTES: usize = 255;

#[derive(Clone, Copy, PartialEq, Eq)]
pub enum Kind {
    Child,
    Descendant,
    SelfStep,
    DescendantOrSelf,
}

/// A step: its kind, and its name (nothing for `*`).
pub struct Step<'a> {
    pub kind: Kind,
    pub name: Option<&'a str>,
}

/// The attribute and the value that the last step asks for.
#[derive(Clone, Copy, PartialEq, Eq)]
pub struct Test<'a> {
    pub name: &'a str,
    pub value: &'a str,
}

pub struct Path<'a> {
    pub steps: Vec<Step<'a>>,
    pub test: Option<Test<'a>>,
    pub marked: bool,
}

/// The paths of a list within its size; or 2 or 3 with the first line at fault.
pub(crate) fn paths(list: &[u8]) -> Result<Vec<Path<'_>>, Refusal> {
    let mut paths = Vec::new();
    let mut rest = list;
    while !rest.is_empty() {
        let line = paths.len() + 1;
        if line > LINES {
            return refuse(3, line);
        }
        let length = rest.iter().position(|&b| b == b'\n');
        let read = length.and_then(|length| str::from_utf8(&rest[..length]).ok()).and_then(path);
        match read {
            None => return refuse(2, line),
            Some(path) if is_large(&path) => return refuse(3, line),
            Some(path) => paths.push(path),
        }
        rest = &rest[length.map_or(rest.len(), |length| length + 1)..];
    }
    Ok(paths)
}

fn is_large(path: &Path) -> bool {
    let names = path.steps.iter().filter_map(|step| step.name);
    let tested = path.test.iter().flat_map(|test| [test.name, test.value]);
    path.steps.len() > STEPS || names.chain(tested).any(|text| text.len() > TEXT_BYTES)
}

/// A line without its end; or nothing where it is malformed.
fn path(line: &str) -> Option<Path<'_>> {
    let mut steps = Vec::new();
    let mut rest = line;
    while rest.starts_with('/') {
        let (step, behind) = step(rest)?;
        steps.push(step);
        rest = behind;
    }
    let mut test = None;
    if let Some(inside) = rest.strip_prefix("[@") {
        let (read, behind) = attribute_test(inside)?;
        test = Some(read);
        rest = behind;
    }
    let marked = rest == " #";
    (!steps.is_empty() && (marked || rest.is_empty())).then_some(Path { steps, test, marked })
}

const FRONTS: [(&str, Kind); 4] =
    [("//", Kind::Descendant), ("/self::", Kind::SelfStep), ("/descendant-or-self::", Kind::DescendantOrSelf), ("/", Kind::Child)];

/// The step in front, and what is behind it.
fn step(rest: &str) -> Option<(Step<'_>, &str)> {
    let (kind, rest) = FRONTS.iter().find_map(|&(front, kind)| Some((kind, rest.strip_prefix(front)?)))?;
    if let Some(behind) = rest.strip_prefix('*') {
        return Some((Step { kind, name: None }, behind));
    }
    let (name, behind) = rest.split_at(name(rest, 0)?);
    (!name.contains("::")).then_some((Step { kind, name: Some(name) }, behind))
}

/// A test behind its `[@`, and what is behind it.
fn attribute_test(inside: &str) -> Option<(Test<'_>, &str)> {
    let (name, rest) = inside.split_at(name(inside, 0)?);
    let (value, behind) = rest.strip_prefix("=\"")?.split_once('"')?;
    let allowed = |c: char| is_char(c) && c >= ' ' && c != '<' && c != '&';
    value.chars().all(allowed).then_some((Test { name, value }, behind.strip_prefix(']')?))
}
