// Lists within wider ones by a generator. A wide list is drawn for a document, or of a few names; the narrow one is made from it, path by
// path, by changes that a sending allows, or by ones that only look so, or is drawn by itself. Some of both are damaged.

use crate::calls::case;
use crate::made::{damage, documents, limits, lists, narrower, Case, Random};

const NAMES: &[&str] = &["a", "b", "*"];

pub fn some(random: &mut Random) -> Vec<Case> {
    let grown = documents::document(random);
    let wide = if random.one_in(3) { lists::list(random, &grown) } else { plain(random, 4) };
    let mut cases = Vec::new();
    for _ in 0..6 {
        cases.push(case(narrowed(&wide, random), &wide, 0));
    }
    cases.push(case(narrower(&wide, random), &wide, 0));
    cases.push(case(lists::turned(&wide, random), &wide, 0));
    cases.push(case(lists::retested(&wide, random, &grown), &wide, 0));
    cases.push(case(&wide, narrowed(&wide, random), 0));
    for _ in 0..4 {
        cases.push(case(plain(random, 1), plain(random, 2), 0));
    }
    cases.push(case(damage::list(&wide, 0, random), &wide, 0));
    cases.push(case(narrower(&wide, random), damage::list(&wide, 0, random), 0));
    if random.one_in(8) {
        cases.push(case(limits::too_large(&wide, random), damage::list(&wide, 0, random), 0));
    }
    cases
}

/// Some lines of child and descendant steps over two names, so that many of them cover others.
fn plain(random: &mut Random, most: usize) -> Vec<u8> {
    let mut list = String::new();
    for _ in 0..random.between(1, most) {
        for _ in 0..random.between(1, 5) {
            list += random.pick(&["/", "/", "//"]);
            list += random.pick(NAMES);
        }
        list += random.pick(&["\n", "\n", "\n", " #\n", "[@k=\"1\"]\n"]);
    }
    list.into_bytes()
}

/// Some lines of a sound list, each changed a few times, mostly to a line that it covers.
pub fn narrowed(wide: &[u8], random: &mut Random) -> Vec<u8> {
    let text = String::from_utf8_lossy(wide).into_owned();
    let mut narrow = String::new();
    for line in text.lines() {
        if random.one_in(4) {
            continue;
        }
        let mut line = line.to_string();
        for _ in 0..random.pick(&[0, 1, 1, 2, 3]) {
            line = changed(&line, random);
        }
        narrow += &line;
        narrow.push('\n');
    }
    narrow.into_bytes()
}

/// One change: a descendant step made a child step, a step put in before it, `*` made a name, a mark dropped, a test put on. One in six
/// may be a change that is not covered.
fn changed(line: &str, random: &mut Random) -> String {
    let plain = line.strip_suffix(" #").unwrap_or(line);
    match random.below(6) {
        0 => line.replacen("//", "/", 1),
        1 => line.replacen("//", &format!("{}{}//", random.pick(&["/", "//"]), random.pick(NAMES)), 1),
        2 => line.replacen("//", &format!("//{}/", random.pick(NAMES)), 1),
        3 => line.replacen('*', random.pick(&["a", "b"]), 1),
        4 if !line.contains('[') => format!("{plain}[@k=\"1\"]{}", &line[plain.len()..]),
        4 => plain.to_string(),
        _ => match random.below(4) {
            0 => format!("{plain} #"),
            1 => line.replacen('/', "//", 1),
            2 => line.replacen('/', "/a/", 1),
            _ => line.replacen('a', random.pick(&["b", "*"]), 1),
        },
    }
}
