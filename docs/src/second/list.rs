//! The path list: lines of steps, each line perhaps marked. "Lines are judged in order: the first line with a fault
//! decides." Within a line, malformed (2) comes before too large (3). Two of the four kinds of step are document 02's, Q-6,
//! and so is the test of an attribute behind the last step, Q-4.

use crate::chars::is_char;
use crate::limits::{LINE_STEPS, LIST_BYTES, LIST_LINES, NAME_BYTES, VALUE_BYTES};
use crate::reader::Reader;
use crate::{refusal, Numbers};

#[derive(PartialEq, Eq)]
pub enum Axis {
    Child,
    Descendant,
    Itself,
    DescendantOrSelf,
}

#[derive(PartialEq, Eq)]
pub enum Test<'a> {
    Any,
    Name(&'a str),
}

#[derive(PartialEq, Eq)]
pub struct Step<'a> {
    pub axis: Axis,
    pub test: Test<'a>,
}

/// `[@name="value"]`
#[derive(PartialEq, Eq)]
pub struct AttributeTest<'a> {
    pub name: &'a str,
    pub value: &'a str,
}

pub struct Path<'a> {
    pub steps: Vec<Step<'a>>,
    /// The last step's.
    pub attribute: Option<AttributeTest<'a>>,
    pub is_marked: bool,
}

/// The paths of a sound list, one for each line, or the refusal.
pub fn paths(list: &[u8]) -> Result<Vec<Path<'_>>, Numbers> {
    if list.len() > LIST_BYTES {
        return Err(refusal(1, 0));
    }
    let mut found = Vec::new();
    for (before, line) in list.split_inclusive(|&byte| byte == b'\n').enumerate() {
        let number = before + 1;
        // "a 33rd line is answer 3 however it reads"
        if number > LIST_LINES {
            return Err(refusal(3, number));
        }
        let path = path(line).ok_or_else(|| refusal(2, number))?;
        if is_too_large(&path) {
            return Err(refusal(3, number));
        }
        found.push(path);
    }
    Ok(found)
}

/// "A line is one or more steps, then optionally one space and `#`", "each ended by LF, the last also". Q-4: "The last step
/// of a line, and only the last, may carry one such test, before the space and #."
fn path(line: &[u8]) -> Option<Path<'_>> {
    let text = std::str::from_utf8(line).ok()?;
    let mut reader = Reader::new(text.strip_suffix('\n')?);
    let mut steps = vec![step(&mut reader)?];
    while reader.sees("/") {
        steps.push(step(&mut reader)?);
    }
    let attribute = if reader.sees("[") { Some(attribute_test(&mut reader)?) } else { None };
    let is_marked = reader.take(" #");
    if !reader.is_at_end() {
        return None;
    }
    Some(Path { steps, attribute, is_marked })
}

/// "A step is `/` (child) or `//` (descendant), then `*` or a Name", or it has another axis "before a test".
fn step<'a>(reader: &mut Reader<'a>) -> Option<Step<'a>> {
    let axis = axis(reader)?;
    let test = if reader.take("*") { Test::Any } else { Test::Name(tested(reader)?) };
    Some(Step { axis, test })
}

/// "Add `/self::` and `/descendant-or-self::`". Both begin with one slash (reading R-18), so `//` is looked for first.
fn axis(reader: &mut Reader) -> Option<Axis> {
    if reader.take("//") {
        Some(Axis::Descendant)
    } else if reader.take("/self::") {
        Some(Axis::Itself)
    } else if reader.take("/descendant-or-self::") {
        Some(Axis::DescendantOrSelf)
    } else {
        reader.want("/")?;
        Some(Axis::Child)
    }
}

/// The name of a test. Q-6: "any other name test with two colons side by side is 2", other than the two axes, that is,
/// which are taken before; so it is malformed however long it is (reading R-21).
fn tested<'a>(reader: &mut Reader<'a>) -> Option<&'a str> {
    reader.name().filter(|name| !name.contains("::"))
}

/// Without blanks and in these quotes alone (reading R-10). Its name may have two colons side by side: it is no name test of
/// a step (reading R-14).
fn attribute_test<'a>(reader: &mut Reader<'a>) -> Option<AttributeTest<'a>> {
    reader.want("[@")?;
    let name = reader.name()?;
    reader.want("=\"")?;
    let value = reader.run(is_of_value);
    reader.want("\"]")?;
    Some(AttributeTest { name, value })
}

/// Q-4: "UTF-8 of Char, and has no `"`, `<`, `&` or character below U+0020".
fn is_of_value(c: char) -> bool {
    is_char(c) && c >= '\u{20}' && c != '"' && c != '<' && c != '&'
}

fn is_too_large(path: &Path) -> bool {
    path.steps.len() > LINE_STEPS || path.steps.iter().any(is_name_too_large) || path.attribute.as_ref().map_or(false, is_test_too_large)
}

/// "a name or value over 255 bytes is 3".
fn is_test_too_large(test: &AttributeTest) -> bool {
    test.name.len() > NAME_BYTES || test.value.len() > VALUE_BYTES
}

fn is_name_too_large(step: &Step) -> bool {
    match step.test {
        Test::Any => false,
        Test::Name(name) => name.len() > NAME_BYTES,
    }
}
