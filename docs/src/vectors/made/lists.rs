// Sound lists for a document. Half of the paths are laid on a chain of the document, so that they select something; the others are of its
// names at random and mostly miss. A third of them may have all four kinds of step, the others child and descendant steps alone. A laid
// path has at most two steps for each place of its chain, so it has not too many. A third of the paths has a test of an attribute, mostly
// of one that the element or the document has, with a value that passes or nearly would.

use super::documents::{Grown, VALUES};
use super::random::Random;

/// The four kinds of step, without their tests.
const AXES: &[&str] = &["/", "//", "/self::", "/descendant-or-self::"];

/// Mostly up to eight lines; sometimes none, sometimes any number that is sound.
pub fn list(random: &mut Random, grown: &Grown) -> Vec<u8> {
    let lines = match random.below(16) {
        0 => 0,
        1 => random.between(9, 32),
        2..=7 => random.between(1, 8),
        _ => random.between(1, 3),
    };
    let mut list = String::new();
    for _ in 0..lines {
        list += &line(random, grown);
    }
    list.into_bytes()
}

/// One line with its line feed.
pub fn line(random: &mut Random, grown: &Grown) -> String {
    let has_all = random.one_in(3);
    let has_test = random.one_in(3);
    let at = if has_test { owner(random, grown) } else { random.below(grown.chains.len()) };
    let steps = if random.one_in(2) { laid(random, &grown.chains[at], has_all) } else { loose(random, grown, has_all) };
    let tested = if has_test { attribute(random, grown, at) } else { String::new() };
    let mark = if random.one_in(4) { " #" } else { "" };
    format!("{steps}{tested}{mark}\n")
}

/// A chain whose last element has attributes, if there is one.
fn owner(random: &mut Random, grown: &Grown) -> usize {
    let owners: Vec<usize> = (0..grown.owned.len()).filter(|&at| !grown.owned[at].is_empty()).collect();
    if owners.is_empty() {
        random.below(grown.chains.len())
    } else {
        random.pick(&owners)
    }
}

/// A test of an attribute, mostly of one of that chain's last element, if it has one.
fn attribute(random: &mut Random, grown: &Grown, at: usize) -> String {
    let own = &grown.owned[at];
    let (name, value) = match random.below(4) {
        0..=2 if !own.is_empty() => random.pick(own),
        _ => (random.pick(&grown.attributes), random.pick(&grown.values).1),
    };
    match random.below(10) {
        0 => format!("[@{name}=\"{}\"]", random.pick(VALUES).1),
        1 => format!("[@{name}=\"{value}{}\"]", random.pick(&[" ", "1", "\u{301}"])),
        _ => format!("[@{name}=\"{value}\"]"),
    }
}

/// Places chosen on a chain, the last among them. A child step can stand only next to the place before. With all kinds a place is at times
/// taken again, and what could be a descendant step is at times one that could also stay.
fn laid(random: &mut Random, chain: &[&'static str], has_all: bool) -> String {
    let mut steps = String::new();
    let mut next_to = true;
    for (i, name) in chain.iter().enumerate() {
        let stands = i + 1 == chain.len() || !random.one_in(3);
        if stands {
            let further = if has_all && random.one_in(2) { "/descendant-or-self::" } else { "//" };
            steps += if next_to && !random.one_in(4) { "/" } else { further };
            steps += test(random, name, 5);
            if has_all && random.one_in(3) {
                steps += random.pick(&["/self::", "/self::", "/descendant-or-self::"]);
                steps += test(random, name, 5);
            }
        }
        next_to = stands;
    }
    steps
}

fn loose(random: &mut Random, grown: &Grown, has_all: bool) -> String {
    let mut steps = String::new();
    for _ in 0..random.pick(&[1, 1, 2, 2, 3, 4, 5]) {
        let name = random.pick(&grown.names);
        steps += random.pick(if has_all { AXES } else { &AXES[..2] });
        steps += test(random, name, 4);
    }
    steps
}

/// The name, or `*` once in so many times, and where the name can't stand in a list.
fn test(random: &mut Random, name: &'static str, times: usize) -> &'static str {
    if random.one_in(times) || name.contains("::") {
        "*"
    } else {
        name
    }
}

/// The list with another kind of step at one place, or the same: what it selects differs a little.
pub fn turned(list: &[u8], random: &mut Random) -> Vec<u8> {
    let begins = |at: &usize| list[*at] == b'/' && (*at == 0 || list[*at - 1] != b'/');
    let steps: Vec<usize> = (0..list.len()).filter(begins).collect();
    if steps.is_empty() {
        return list.to_vec();
    }
    let at = random.pick(&steps);
    // The longest that stands there: each begins with a slash.
    let axis = AXES.iter().filter(|axis| list[at..].starts_with(axis.as_bytes())).map(|axis| axis.len()).max();
    [&list[..at], random.pick(AXES).as_bytes(), &list[at + axis.unwrap_or(0)..]].concat()
}

/// The list with another test in one line, or with none where one was.
pub fn retested(list: &[u8], random: &mut Random, grown: &Grown) -> Vec<u8> {
    let text = String::from_utf8_lossy(list);
    let mut lines: Vec<String> = text.split_inclusive('\n').map(String::from).collect();
    if !lines.is_empty() {
        let at = random.below(lines.len());
        lines[at] = line_retested(&lines[at], random, grown);
    }
    lines.concat().into_bytes()
}

fn line_retested(line: &str, random: &mut Random, grown: &Grown) -> String {
    let (path, end) = if line.ends_with(" #\n") { (&line[..line.len() - 3], " #\n") } else { (line.trim_end_matches('\n'), "\n") };
    let steps = &path[..path.find("[@").unwrap_or(path.len())];
    if steps.len() < path.len() && random.one_in(3) {
        return format!("{steps}{end}");
    }
    let at = owner(random, grown);
    format!("{steps}{}{end}", attribute(random, grown, at))
}
