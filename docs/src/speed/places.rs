// A list of 32 paths of 8 steps, and a walk through nested places, the same at each run. Twelve kinds of place lie within each other, with
// five names each. The list has 40 of the 60 names; the last of each kind is not among them.
use crate::numbers::Numbers;
use std::ops::Range;

pub const ELEMENTS: usize = 100_000;
const PATHS: usize = 32;
const STEPS: usize = 8;
const NAMES: usize = 5;
const KINDS: [&str; 12] = [
    "country", "region", "province", "district", "county", "commune", "town", "parish", "village", "quarter", "street", "house",
];

/// The first name of a kind is its word, the others have a number: `village`, `village017`.
fn name(kind: usize, k: usize) -> String {
    match k {
        0 => KINDS[kind].to_string(),
        _ => format!("{}{:03}", KINDS[kind], 17 * k),
    }
}

/// All names, by number.
pub fn names() -> Vec<String> {
    (0..KINDS.len() * NAMES).map(|n| name(n / NAMES, n % NAMES)).collect()
}

/// A step in four is `*`, and one in six is a descendant step, which leaves out a kind where enough are left. A path in four is marked.
pub fn list() -> String {
    let mut numbers = Numbers(1);
    let mut list = String::new();
    for p in 0..PATHS {
        let mut kind = 0;
        for step in 0..STEPS {
            let descends = numbers.below(6) == 0;
            kind += (descends && kind + STEPS - step < KINDS.len()) as usize;
            list += if descends { "//" } else { "/" };
            list += &if numbers.below(4) == 0 { "*".to_string() } else { name(kind, numbers.pick(NAMES - 1)) };
            kind += 1;
        }
        list += if p % 4 == 0 { " #\n" } else { "\n" };
    }
    list
}

/// An element's start, with the number of its name and the place of it in the text, or an element's end.
pub enum Tag {
    Start(usize, Range<usize>),
    End,
}

pub struct Walk {
    pub text: String,
    pub tags: Vec<Tag>,
}

/// Elements within each other, as deep as there are kinds at most; after a tag five in eight go in, three go out.
pub fn walk() -> Walk {
    let mut numbers = Numbers(2);
    let mut walk = Walk { text: String::new(), tags: Vec::new() };
    let (mut level, mut count) = (0, 0);
    while count < ELEMENTS || level > 0 {
        let goes_in = level == 0 || (level < KINDS.len() && numbers.below(8) < 5);
        if count < ELEMENTS && goes_in {
            let from = walk.text.len();
            let k = numbers.pick(NAMES);
            walk.text += &name(level, k);
            walk.tags.push(Tag::Start(level * NAMES + k, from..walk.text.len()));
            level += 1;
            count += 1;
        } else {
            walk.tags.push(Tag::End);
            level -= 1;
        }
    }
    walk
}
