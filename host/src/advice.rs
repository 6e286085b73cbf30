//! Where in a line of a list the fault is, and what would be right there. This reader only advises: that a line is refused, and by which
//! number, the library says. So where it finds nothing at fault it repeats the rule. The test of an attribute is in `attribute`.
use crate::attribute;
use crate::names;
use crate::shown;

/// The place of a fault in its line, in bytes, and a hint.
#[derive(PartialEq, Eq, Debug)]
pub struct Advice {
    pub at: usize,
    pub hint: String,
}

const STEP: &str = "a step is /, //, /self:: or /descendant-or-self::, then * or a name";
const TEST: &str = "behind an axis stands * or a name";
const ONLY: &str = "the axes are self:: and descendant-or-self::, behind one slash, and no others";
const MARK: &str = "one space and # mark a line, at its end";
const BEHIND: &str = "# ends the line, and a list has no comments";
const RETURNS: &str = "a line ends in a line feed; a carriage return stands in its place";
const UTF16: &str = "this seems to be UTF-16; a list is in UTF-8";
const ELEMENTS: &str = "a path selects elements, no attributes or functions; a test is [@name=\"value\"], behind the last step";

/// What may stand between one slash and a name test.
const AXES: [&[u8]; 2] = [b"self::", b"descendant-or-self::"];

pub fn advice(at: usize, hint: &str) -> Advice {
    Advice { at, hint: hint.to_string() }
}

/// Advice on a malformed line. `ended` tells whether a line feed follows it. What can't be seen at the place is named first.
pub fn malformed(line: &[u8], ended: bool) -> Advice {
    let Advice { at, hint } = fault(line, ended);
    match shown::unseen_front(&line[at..]) {
        Some(name) => Advice { at, hint: format!("{name} stands there; {hint}") },
        None => Advice { at, hint },
    }
}

fn fault(line: &[u8], ended: bool) -> Advice {
    if line.is_empty() {
        return advice(0, "an empty line");
    }
    if utf16(line) {
        return advice(0, UTF16);
    }
    let mut at = 0;
    while line.get(at) == Some(&b'/') {
        match step(line, at) {
            Ok(end) => at = end,
            Err(advice) => return advice,
        }
    }
    let steps = at;
    if at > 0 && line.get(at) == Some(&b'[') {
        match attribute::test(line, at) {
            Ok(test) => at = test.end(),
            Err(advice) => return advice,
        }
    }
    match &line[at..] {
        _ if at == 0 => advice(0, beginning(line)),
        b"" | b" #" if ended => advice(0, STEP),
        b"" | b" #" => advice(line.len(), "a line ends in a line feed"),
        b"\r" | b" #\r" if ended => advice(line.len() - 1, "a line ends in a line feed alone, without a carriage return"),
        [b'\r', ..] => advice(at, RETURNS),
        [b' ', b'#', b'\r', ..] => advice(at + 2, RETURNS),
        [b' ', b'#', ..] => advice(at + 2, BEHIND),
        _ if steps < at => attribute::after(line, steps, at),
        rest => after_steps(line, rest, at),
    }
}

/// Whether a line has a byte order mark of UTF-16, or its first byte or the second is zero, as a slash is written there.
fn utf16(line: &[u8]) -> bool {
    line.starts_with(b"\xFF\xFE") || line.starts_with(b"\xFE\xFF") || line.iter().take(2).any(|&b| b == 0)
}

/// What to say of a line that doesn't begin with a slash.
fn beginning(line: &[u8]) -> &'static str {
    match line[0] {
        0xEF if line.starts_with(b"\xEF\xBB\xBF") => "a list has no byte order mark",
        b'#' => "a list has no comments; one space and # mark a line, at its end",
        b' ' | b'\t' => "no blanks stand before a path",
        b'\r' => "an empty line",
        _ => "a line begins with / or //",
    }
}

/// What to say of what follows some steps and is neither another one, nor a test, nor the mark.
fn after_steps(line: &[u8], rest: &[u8], at: usize) -> Advice {
    let blanks = blanks(rest);
    // Of blanks, the first that is none.
    let unseen = (0..blanks).find(|&i| shown::unseen_front(&rest[i..]).is_some()).unwrap_or(0);
    match rest.get(blanks) {
        None | Some(b'#') | Some(b'\r') => advice(at + unseen, MARK),
        Some(b'[') => attribute::misplaced(line, at),
        Some(b'@' | b'(') => advice(at + blanks, ELEMENTS),
        _ => character(rest, at).unwrap_or_else(|| advice(at, STEP)),
    }
}

/// How many bytes at the front are blanks, or seem to be.
fn blanks(rest: &[u8]) -> usize {
    let mut end = 0;
    while let Ok(c) = shown::front(&rest[end..]) {
        if !matches!(c, ' ' | '\t') && shown::unseen(c).is_none() {
            break;
        }
        end += c.len_utf8();
    }
    end
}

/// Bytes at the front that are no character.
fn character(rest: &[u8], at: usize) -> Option<Advice> {
    let bad = shown::front(rest).err()?;
    Some(Advice { at, hint: format!("not UTF-8: {}", bytes(&rest[..bad])) })
}

/// Bytes in hexadecimal.
pub fn bytes(some: &[u8]) -> String {
    let each: Vec<String> = some.iter().map(|b| format!("{b:02X}")).collect();
    each.join(" ")
}

/// How long the axis is that stands there, or 0.
fn axis(rest: &[u8]) -> usize {
    AXES.iter().find(|axis| rest.starts_with(axis)).map_or(0, |axis| axis.len())
}

/// Where the step that begins at a slash has its name test: behind its slashes, and behind an axis if it has one slash.
fn test(line: &[u8], at: usize) -> usize {
    let slashes = line[at..].iter().take_while(|&&b| b == b'/').count();
    let behind = at + slashes;
    if slashes == 1 {
        behind + axis(&line[behind..])
    } else {
        behind
    }
}

/// Where the step that begins at a slash ends.
fn step(line: &[u8], at: usize) -> Result<usize, Advice> {
    let test = test(line, at);
    let slashes = line[at..test].iter().filter(|&&b| b == b'/').count();
    let missing = if at + slashes < test { TEST } else { STEP };
    match line.get(test) {
        _ if slashes > 2 => Err(advice(at + 2, "at most two slashes stand before a name")),
        _ if axis(&line[test..]) > 0 && slashes == 2 => Err(advice(at + 1, ONLY)),
        None => Err(advice(test, missing)),
        Some(b'*') => Ok(test + 1),
        Some(b'[') => Err(attribute::misplaced(line, test)),
        Some(b'@' | b'(') => Err(advice(test, ELEMENTS)),
        Some(_) => {
            let end = name_end(line, test, missing)?;
            colons(&line[test..end], test).map_or(Ok(end), Err)
        }
    }
}

/// Where a name ends. There is a byte at its place; if it begins no name, what is missing is said.
pub fn name_end(line: &[u8], name: usize, missing: &str) -> Result<usize, Advice> {
    if let Some(bad) = character(&line[name..], name) {
        return Err(bad);
    }
    let mut end = name;
    while let Ok(c) = shown::front(&line[end..]) {
        let fits = if end == name { names::begins(c) } else { names::within(c) };
        if !fits {
            break;
        }
        end += c.len_utf8();
    }
    match shown::front(&line[name..]) {
        Ok(c) if end == name && names::within(c) => Err(Advice { at: name, hint: format!("a name can't begin with {c}") }),
        _ if end == name => Err(advice(name, missing)),
        _ => Ok(end),
    }
}

/// What to say of a name with two colons side by side: what stands before them may be an axis of XPath that a list has otherwise or not.
fn colons(name: &[u8], at: usize) -> Option<Advice> {
    let before = name.windows(2).position(|pair| pair == b"::")?;
    let (at, why) = match &name[..before] {
        b"child" => (at, "child:: is written / here"),
        b"descendant" => (at, "descendant:: is written // here"),
        _ => (at + before, "a name in a list has no ::"),
    };
    Some(Advice { at, hint: format!("{why}; {ONLY}") })
}

/// Advice on a line that is sound but too large, or stands past the last that a list may have.
pub fn too_large(line: &[u8], number: usize) -> Advice {
    if number > 32 {
        return Advice { at: 0, hint: format!("line {number}: a list has at most 32 lines") };
    }
    let (mut at, mut steps) = (0, 0);
    while line.get(at) == Some(&b'/') {
        steps += 1;
        if steps > 16 {
            return advice(at, "over 16 steps");
        }
        let test = test(line, at);
        match step(line, at) {
            Ok(end) if end - test > 255 => return advice(test, "a name over 255 bytes"),
            Ok(end) => at = end,
            Err(_) => break,
        }
    }
    let tested = attribute::test(line, at).ok().and_then(|test| attribute::too_large(&test));
    tested.unwrap_or_else(|| advice(0, "a line has at most 16 steps, a name or a value at most 255 bytes"))
}

#[cfg(test)]
#[path = "advice_tests.rs"]
mod tests;
