// The answer on a path list in ordinary Rust, from the words of documents 01 and 02. It shares nothing with the Rattle source.
use super::chars;

/// What follows the front of a step: `//`, or `/` and then perhaps one of two texts. A test stands there.
fn test(rest: &str) -> Option<&str> {
    if let Some(test) = rest.strip_prefix("//") {
        return Some(test);
    }
    let behind = rest.strip_prefix('/')?;
    let longer = ["self::", "descendant-or-self::"].iter().find_map(|text| behind.strip_prefix(text));
    Some(longer.unwrap_or(behind))
}

/// "is UTF-8 of Char, and has no `"`, `<`, `&` or character below U+0020"
fn is_value(value: &str) -> bool {
    value.chars().all(|c| chars::is_char(c) && c >= ' ' && !['"', '<', '&'].contains(&c))
}

/// The test of an attribute at the end of a line without its mark: what stands before it, its name and its value; nothing of the two where
/// there is none. It is looked for from the end: no value has a quote, so the last `="` is its own, and no name has `[`.
fn tested(line: &str) -> Option<(&str, &str, &str)> {
    let inside = match line.strip_suffix("\"]") {
        None => return Some((line, "", "")),
        Some(inside) => inside,
    };
    let (front, value) = inside.rsplit_once("=\"")?;
    let (steps, name) = front.rsplit_once("[@")?;
    let is_name = !name.is_empty() && chars::name(name.as_bytes(), 0) == name.len();
    (is_name && is_value(value)).then_some((steps, name, value))
}

/// How many steps a line has and how long its longest name or value is; or nothing where it is malformed.
fn judged(line: &str) -> Option<(usize, usize)> {
    let (before, name, value) = tested(line.strip_suffix(" #").unwrap_or(line))?;
    let (count, longest) = steps(before)?;
    Some((count, longest.max(name.len()).max(value.len())))
}

/// How many steps there are and how long their longest name is; or nothing where they are malformed.
fn steps(steps: &str) -> Option<(usize, usize)> {
    let mut rest = steps;
    let (mut count, mut longest) = (0, 0);
    while !rest.is_empty() {
        rest = test(rest)?;
        let end = if rest.starts_with('*') { 1 } else { chars::name(rest.as_bytes(), 0) };
        if end == 0 || rest[..end].contains("::") {
            return None;
        }
        if !rest.starts_with('*') {
            longest = longest.max(end);
        }
        rest = &rest[end..];
        count += 1;
    }
    if count == 0 {
        return None;
    }
    Some((count, longest))
}

/// The number and the second number.
pub fn answer(list: &[u8]) -> (usize, usize) {
    if list.len() > 8192 {
        return (1, 0);
    }
    let mut rest = list;
    let mut line = 0;
    while !rest.is_empty() {
        line += 1;
        if line == 33 {
            return (3, 33);
        }
        let end = match rest.iter().position(|&b| b == b'\n') {
            Some(end) => end,
            None => return (2, line),
        };
        match std::str::from_utf8(&rest[..end]).ok().and_then(judged) {
            None => return (2, line),
            Some((count, longest)) if count > 16 || longest > 255 => return (3, line),
            Some(_) => rest = &rest[end + 1..],
        }
    }
    (0, 0)
}
