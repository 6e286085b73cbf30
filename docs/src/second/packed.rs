//! The packed list, document 02, Q-7: "version byte 1, then for each line a two-byte big-endian length of what follows, a mark
//! byte 0 or 1, the number of steps, for each step its kind ..., a name length where 0 means `*`, and the name; last the
//! attribute name's length, 0 for no test, and if not 0 the name, the value's length and the value". The reader takes what it
//! is given apart into a text, whatever that text is, and then asks whether this text is sound and has that packed form.

use crate::list::{paths, AttributeTest, Axis, Path, Step, Test};
use crate::three::{refused, written, Three};
use crate::Numbers;

const VERSION: u8 = 1;

/// The four kinds in order: "0 child, 1 descendant, 2 self, 3 descendant-or-self", as a text has them.
const KINDS: [&[u8]; 4] = [b"/", b"//", b"/self::", b"/descendant-or-self::"];

/// "text keeps 1 to 3"; "The third number is always 0."
pub fn pack(text: &[u8], out: &mut [u8]) -> Three {
    match packed(text) {
        Ok(bytes) => written(&bytes, 0, out),
        Err(refusal) => refusal.into(),
    }
}

/// "13, with second number 0, exactly when its input is the packed form of no sound text list; after these 9"
pub fn unpack(packed: &[u8], out: &mut [u8]) -> Three {
    match text_of(packed) {
        Some(text) => written(&text, 0, out),
        None => refused(13, 0),
    }
}

/// The packed form of a sound text, or the refusal.
fn packed(text: &[u8]) -> Result<Vec<u8>, Numbers> {
    let mut form = vec![VERSION];
    for path in paths(text)? {
        let line = line(&path);
        form.extend_from_slice(&(line.len() as u16).to_be_bytes());
        form.extend_from_slice(&line);
    }
    Ok(form)
}

/// A line from its mark byte on.
fn line(path: &Path) -> Vec<u8> {
    let mut bytes = vec![u8::from(path.is_marked), path.steps.len() as u8];
    for step in &path.steps {
        bytes.push(kind(step));
        push_with_length(tested(step), &mut bytes);
    }
    match &path.attribute {
        None => bytes.push(0),
        Some(AttributeTest { name, value }) => {
            push_with_length(name, &mut bytes);
            push_with_length(value, &mut bytes);
        }
    }
    bytes
}

/// In a sound list no name and no value is over 255 bytes.
fn push_with_length(text: &str, bytes: &mut Vec<u8>) {
    bytes.push(text.len() as u8);
    bytes.extend_from_slice(text.as_bytes());
}

fn kind(step: &Step) -> u8 {
    match step.axis {
        Axis::Child => 0,
        Axis::Descendant => 1,
        Axis::Itself => 2,
        Axis::DescendantOrSelf => 3,
    }
}

/// The name, where nothing "means `*`".
fn tested<'a>(step: &Step<'a>) -> &'a str {
    match step.test {
        Test::Any => "",
        Test::Name(name) => name,
    }
}

/// The sound text that has this packed form, if there is one.
fn text_of(form: &[u8]) -> Option<Vec<u8>> {
    let text = taken_apart(form)?;
    match packed(&text) {
        Ok(again) if again == form => Some(text),
        _ => None,
    }
}

/// A text with what these bytes say in it, sound or not; nothing where the bytes end before all is there or hold a number that
/// means nothing.
fn taken_apart(form: &[u8]) -> Option<Vec<u8>> {
    let (_version, mut rest) = form.split_first()?;
    let mut text = Vec::new();
    while !rest.is_empty() {
        push_line(&mut rest, &mut text)?;
    }
    Some(text)
}

/// The length of the line is not looked at here, nor whether the mark is 0 or 1: the form made again has what is right.
fn push_line(rest: &mut &[u8], text: &mut Vec<u8>) -> Option<()> {
    take(rest, 2)?;
    let mark = byte(rest)?;
    for _ in 0..byte(rest)? {
        text.extend_from_slice(KINDS.get(usize::from(byte(rest)?))?);
        let name = take_with_length(rest)?;
        text.extend_from_slice(if name.is_empty() { b"*" } else { name });
    }
    let attribute = take_with_length(rest)?;
    if !attribute.is_empty() {
        let value = take_with_length(rest)?;
        text.extend_from_slice(&[b"[@", attribute, b"=\"", value, b"\"]"].concat());
    }
    text.extend_from_slice(if mark == 0 { b"\n" } else { b" #\n" });
    Some(())
}

fn take_with_length<'a>(rest: &mut &'a [u8]) -> Option<&'a [u8]> {
    let length = byte(rest)?;
    take(rest, usize::from(length))
}

fn byte(rest: &mut &[u8]) -> Option<u8> {
    take(rest, 1).map(|bytes| bytes[0])
}

/// The first bytes of what is left, which are then no longer left.
fn take<'a>(rest: &mut &'a [u8], length: usize) -> Option<&'a [u8]> {
    let front = rest.get(..length)?;
    *rest = &rest[length..];
    Some(front)
}
