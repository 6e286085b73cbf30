// Lists within wider ones by hand, with the readings: pairs of paths, told narrow first, then marks, tests, steps that may
// stay, lists of several lines and refusals. A path is told without its line feed; `;` parts two lines.

use crate::calls::Told;

pub fn all() -> Vec<Told> {
    let pairs = |pairs: &[(&str, &str)], is_covered: u64| -> Vec<Told> {
        pairs.iter().map(|(narrow, wide)| Told::bare(list(narrow), list(wide), [0, is_covered, 0, 0]).room(0)).collect()
    };
    let both = |pairs: &[(&str, &str)]| -> Vec<(String, String)> {
        pairs.iter().flat_map(|(one, other)| [(one.to_string(), other.to_string()), (other.to_string(), one.to_string())]).collect()
    };
    let mut cases = [pairs(COVERED, 1), pairs(OPEN, 0)].concat();
    for (narrow, wide) in both(APART) {
        cases.extend(pairs(&[(&narrow, &wide)], 0));
        cases.extend(pairs(&[(&narrow, &narrow)], 1));
    }
    cases.extend(limits());
    cases.extend(refusals());
    cases
}

fn list(paths: &str) -> String {
    paths.split(';').filter(|path| !path.is_empty()).map(|path| format!("{path}\n")).collect()
}

const COVERED: &[(&str, &str)] = &[
    // The examples of document 02.
    ("/g/p/v", "//v"), ("/g/p/v", "/g//v"), ("/g/p/v", "//p/v"),
    // Child steps to child steps.
    ("/g", "/g"), ("/g/p/v", "/g/p/v"), ("/g/p/v", "/g/*/v"), ("/g/p/v", "/*/p/*"), ("/g/p/v", "/*/*/*"), ("/*/p", "/*/p"), ("/*", "/*"),
    // Descendant steps to any later one, child or descendant.
    ("/v", "//v"), ("//v", "//v"), ("//v", "//*"), ("/v", "//*"), ("/g//v", "//v"), ("//g/v", "//v"), ("//g//v", "//v"), ("/g/v", "/g//v"),
    ("/g//v", "/g//v"), ("/g//p//v", "/g//v"), ("/g//p/v", "/g//v"), ("/g/p//v", "/g//v"), ("/a/b/c/d/e", "/a//c//e"),
    ("/a/b/c/d/e", "//b/c//e"), ("/a/b/c/d/e", "//a//b//c//d//e"), ("/a/b/c/d/e", "//*//*//*//*//*"), ("/a//b/c//d", "//a//b//d"),
    ("/a//b/c//d", "//b/c//d"), ("//a/b", "//a/b"), ("//a//b/c", "//b/c"), ("//*/b", "//*/b"), ("/x//a/b", "//a/b"), ("//*", "//*"),
    // The first that fits is not the one to take, nor the last.
    ("/a/b/a/c", "//a/c"), ("/a/b/b/c", "//b/c"), ("/a/c/a/b/c", "//a/b/c"), ("/a/b/c/a/b", "/a/b//b"), ("/a/a/a/b", "//a/a/b"),
    ("/a/b/a/b/c", "//a/b/c"), ("/a/b/c/b/c/d", "/a//b/c/d"), ("/a/b/c/b/c/d", "/a/b/c//d"), ("/a/b/c/b/d", "/a//b//d"),
    ("/*/a/b/*/a/b/c", "//a/b//a/b/c"), ("/a/a/b/a/b", "//a/b//a/b"), ("/a/b/x/b/c", "/a/b//c"), ("/a/b/b/c", "/a/b//c"),
    ("/a/b/c/b/d", "//a/b//d"), ("/a/*/b/c/*/d", "/a/*//d"), ("//a/b//b/c", "//a/b//c"),
    // A descendant step of a between two steps that are sent.
    ("/a//x/b", "/a//b"), ("/a/x//b", "/a//b"), ("/a//x//b", "/a//b"), ("//x//a/b", "//a/b"), ("//x/y//a", "//y//a"),
    // Marks: a path without one is covered by both.
    ("/v", "/v #"), ("/v #", "/v #"), ("/g/v #", "//v #"), ("/g/v", "//v #"), ("/g/v #", "//v;//v #"), ("/g/v #", "//v #;//v"),
    ("/g/v #;/g/n", "//n;//v #"),
    // Tests: none, or the same.
    ("/v[@k=\"1\"]", "/v"), ("/v[@k=\"1\"]", "//v"), ("/v[@k=\"1\"]", "//*"), ("/v[@k=\"1\"]", "/v[@k=\"1\"]"),
    ("/g/v[@k=\"1\"]", "//v[@k=\"1\"]"), ("/g/v[@k=\"\"]", "//*[@k=\"\"]"), ("/v[@k=\"1\"] #", "/v #"), ("/v[@k=\"1\"]", "/v[@k=\"1\"] #"),
    ("/v[@k=\"1\"]", "//v[@k=\"2\"];//v"), ("/v[@k=\"1\"];/v[@k=\"2\"]", "/v[@k=\"2\"];/v[@k=\"1\"]"),
    ("/v[@a::b=\"1\"]", "/v[@a::b=\"1\"]"),
    // The same path with a step that may stay.
    ("/self::g", "/self::g"), ("/g/self::g", "/g/self::g"), ("/g/self::g", "/g/self::g #"), ("/g/self::g #", "/g/self::g #"),
    ("/descendant-or-self::v", "/descendant-or-self::v"), ("/a/descendant-or-self::*/b", "/a/descendant-or-self::*/b"),
    ("/g/self::*[@k=\"1\"]", "/g/self::*[@k=\"1\"]"), ("/g/self::*[@k=\"1\"]", "//*;/g/self::*[@k=\"1\"] #"),
    // Lists: an empty one within every other, each line by some line.
    ("", ""), ("", "//v"), ("", "/self::g"), ("/v;/v", "/v"), ("/g/v;/g/n", "//n;//v"), ("/g/v;/g/n", "//*"), ("/g/v", "/x;/y;//v"),
    ("/g/v;/g/self::g", "//v;/g/self::g"), ("/v;/v #", "/v #"),
];

const OPEN: &[(&str, &str)] = &[
    ("/g/p/v", "/g/v"),
    // Last to last.
    ("/a/b", "/a"), ("/a/b", "//a"), ("/a/b/c", "/a//b"), ("/a/b/c", "//b"), ("//a//b", "//a"),
    // A child step goes to no descendant step, wherever it stands.
    ("//v", "/v"), ("//v", "/*"), ("/g//v", "/g/v"), ("/g//v", "/g/*"), ("//g/v", "/g/v"), ("//g/v", "/*/v"), ("/a//b/c", "/a/b/c"),
    ("/a//b/c", "//a/b/c"), ("/a/b//c", "//b/c"),
    // Right after the one before, the first to a's first.
    ("/a/b", "/b"), ("/a/b/c", "/b/c"), ("/a/b/c", "/a/c"), ("/a/b/c/d", "//b/d"), ("/a/b/c/d", "/a/b/d"), ("/a/x/b/c", "/a/b/c"),
    ("/a/b/c/d", "//a/c//d"), ("/a/b/c", "/c"), ("/a/b/c", "/*"),
    // No two steps of b to one of a.
    ("/a", "//a//a"), ("/a", "//*//a"), ("/a/b", "//a//*//b"), ("/a/b", "//*//*//b"), ("//b", "//*//b"), ("/a/b", "//a//a//b"),
    ("/a/b/c", "//a//b//b//c"), ("//a", "//*//*"), ("/a/b", "//a/a/b"),
    // Names: `*` by `*` only, bytes.
    ("/*", "/v"), ("//*", "//v"), ("/g/*", "//v"), ("/*/v", "/g/v"), ("/*/v", "/g//v"), ("/vv", "/v"), ("/v", "/vv"), ("/v", "/V"),
    ("/\u{e9}", "/e\u{301}"), ("/e\u{301}", "/\u{e9}"), ("/a:b", "/b"), ("//n", "//v"), ("/g/v", "//n"),
    // Marks.
    ("/v #", "/v"), ("/v #", "//v"), ("/v #", "//v;//v"), ("/g/v #", "//v;/g #"), ("/g/v #", "//*;//n #"), ("/v #;/v", "/v"),
    ("/g/self::g #", "/g/self::g"),
    // Tests.
    ("/v", "/v[@k=\"1\"]"), ("/v", "//v[@k=\"\"]"), ("/v[@k=\"1\"]", "/v[@k=\"2\"]"), ("/v[@k=\"1\"]", "/v[@k=\"11\"]"),
    ("/v[@k=\"1\"]", "/v[@l=\"1\"]"), ("/v[@k=\"\"]", "//v[@l=\"\"]"), ("/v[@k=\"1\"]", "/v[@kk=\"1\"]"), ("/v[@k=\"1\"]", "/v[@k=\"\"]"),
    ("/v[@k=\"1\"]", "/n"), ("/v[@k=\"1\"]", "/n[@k=\"1\"]"), ("/v[@k=\"1\"]", "//v[@k=\"2\"];//n;//v[@l=\"1\"]"),
    ("/v[@k=\"1\"] #", "/v[@k=\"1\"];/v[@k=\"2\"] #"), ("/v[@k=\"ab\"]", "/v[@ka=\"b\"]"),
    // A step that may stay, in either path: `//*` selects all that these do.
    ("/g/self::g", "//*"), ("/g/self::g", "/*"), ("/g/self::g", "/g/*"), ("/self::g", "//*"), ("/self::g", "/g"),
    ("/descendant-or-self::v", "//v"), ("/descendant-or-self::v", "//*"), ("/g/self::g/v", "//v"), ("/g/self::g/v", "/g/v"),
    ("/a/descendant-or-self::b/c", "//c"), ("/v", "/descendant-or-self::v"), ("//v", "/descendant-or-self::v"),
    ("//v", "/descendant-or-self::*"), ("/g/v", "/g/self::*/v"), ("/g/v", "/g/descendant-or-self::v"),
    ("/g/self::g", "/g/self::*"), ("/g/self::g", "/*/self::g"), ("/g/self::g", "//g/self::g"), ("/g/self::g", "/g/self::g/self::g"),
    ("/a/self::b", "/a/descendant-or-self::b"), ("/g/self::g[@k=\"1\"]", "/g/self::g"), ("/g/self::g", "/g/self::g[@k=\"1\"]"),
    ("/g/self::g[@k=\"1\"]", "/g/self::g[@k=\"2\"]"), ("/descendant-or-self::v[@k=\"1\"]", "/descendant-or-self::v"),
    // Lists.
    ("/v", ""), ("/self::g", ""), ("/g/v;/g/n", "//v"), ("/g/n;/g/v", "//v"), ("/g/v;/x;/g/n", "//n;//v"), ("/a/b", "/a;/b"),
    ("/g/v;/g/self::g", "//*"),
];

/// Neither covers the other, and each covers itself.
const APART: &[(&str, &str)] = &[
    ("/a//*/b", "/a/*//b"), ("//*/b", "/*//b"), ("/a", "/b"), ("/a", "/a/b"), ("//a//b", "//b//a"), ("/a/b", "/b/a"), ("/a/*", "/*/b"),
    ("//a/*", "//*/b"), ("/g/self::g", "/g"), ("/g/self::*", "/g"), ("/self::g", "/g"), ("/descendant-or-self::a", "//a"),
    ("/descendant-or-self::a", "/self::a"), ("/g/v[@k=\"1\"]", "/g/v[@k=\"2\"]"), ("//v[@k=\"1\"]", "/g/v"), ("/g/v #", "//v"),
];

/// 16 steps and 32 lines, names of 255 bytes, and lists of 8,192 bytes.
fn limits() -> Vec<Told> {
    let told = |narrow: String, wide: String, is_covered: u64| Told::bare(narrow, wide, [0, is_covered, 0, 0]).room(0);
    let (name, deep) = ("n".repeat(255), "/a".repeat(16) + "\n");
    let full = format!("/{}\n", "n".repeat(254)).repeat(32);
    vec![
        told(deep.clone(), deep.clone(), 1),
        told(deep.clone(), "//a".repeat(16) + "\n", 1),
        told(deep.clone(), "//*".repeat(15) + "/a\n", 1),
        told(deep.clone(), "//a\n".into(), 1),
        told(deep.clone(), "//*".repeat(8) + "\n", 1),
        told(deep.clone(), "//*".repeat(8) + "/b\n", 0),
        told("//a".repeat(16) + "\n", deep.clone(), 0),
        told("/a".repeat(15) + "\n", "//*".repeat(16) + "\n", 0),
        told("/a".repeat(15) + "\n", deep, 0),
        told("/g/v\n".repeat(32), "/n\n".repeat(31) + "//v\n", 1),
        told("/n\n".repeat(31) + "/v\n", "/n\n".into(), 0),
        told("/v\n".to_string() + &"/n\n".repeat(31), "/n\n".into(), 0),
        told(format!("/{name}\n"), format!("//{name}\n"), 1),
        told(format!("/{name}\n"), format!("//{}m\n", &name[1..]), 0),
        told(format!("/{name}\n"), format!("//m{}\n", &name[1..]), 0),
        told(full.clone(), full.clone(), 1),
        told(full, "//*\n".into(), 1),
        told(format!("/v[@k=\"{name}\"]\n"), format!("//v[@k=\"{name}\"]\n"), 1),
        told(format!("/v[@k=\"{name}\"]\n"), format!("//v[@k=\"{}\"]\n", &name[1..]), 0),
    ]
}

/// The narrow list's first, with third number 1; then the wide one's, with 2.
fn refusals() -> Vec<Told> {
    let told = |narrow: &str, wide: &str, numbers: [u64; 3]| Told::bare(narrow, wide, [numbers[0], numbers[1], numbers[2], 0]).room(0);
    let (long, lines, steps) = ("x".repeat(8_193), "/v\n".repeat(33), "/v".repeat(17) + "\n");
    let bad: [(&str, [u64; 2]); 8] = [
        (&long, [1, 0]), ("v\n", [2, 1]), ("/v\n/v", [2, 2]), ("\n", [2, 1]), (&steps, [3, 1]), (&lines, [3, 33]), ("/a::b\n", [2, 1]),
        ("/v[@k]\n", [2, 1]),
    ];
    let mut cases = Vec::new();
    for (list, [number, second]) in bad {
        for sound in ["", "//v\n", "/self::g\n"] {
            cases.push(told(list, sound, [number, second, 1]));
            cases.push(told(sound, list, [number, second, 2]));
        }
        for (other, _) in bad {
            cases.push(told(list, other, [number, second, 1]));
        }
    }
    cases
}
