//! Which lists cover which, document 02, Q-12, with the readings. Pairs are told narrow first.

use crate::covers;
use crate::three::Three;

fn answer(narrow: impl AsRef<[u8]>, wide: impl AsRef<[u8]>) -> (u64, u64, u64) {
    let Three { number, second, third } = covers(narrow.as_ref(), wide.as_ref());
    (number, second, third)
}

fn covered(narrow: &str, wide: &str) {
    assert_eq!(answer(narrow, wide), (0, 1, 0), "{narrow:?} {wide:?}");
}

fn open(narrow: &str, wide: &str) {
    assert_eq!(answer(narrow, wide), (0, 0, 0), "{narrow:?} {wide:?}");
}

/// Each covers itself and not the other.
fn apart(one: &str, other: &str) {
    covered(one, one);
    covered(other, other);
    open(one, other);
    open(other, one);
}

/// "`//v`, `/g//v` and `//p/v` cover `/g/p/v`; `/g/v` does not. `/a//*/b` and `/a/*//b` select the same elements and neither
/// covers the other."
#[test]
fn examples() {
    covered("/g/p/v\n", "//v\n");
    covered("/g/p/v\n", "/g//v\n");
    covered("/g/p/v\n", "//p/v\n");
    open("/g/p/v\n", "/g/v\n");
    apart("/a//*/b\n", "/a/*//b\n");
}

#[test]
fn child_steps() {
    covered("/g/p/v\n", "/g/*/v\n");
    covered("/g/p/v\n", "/*/*/*\n");
    apart("/g/p\n", "/g\n");
    apart("/p/v\n", "/v\n");
    // A child step of b goes to no descendant step of a.
    open("//v\n", "/v\n");
    open("/g//v\n", "/g/v\n");
    open("//g/v\n", "/g/v\n");
    // Right after the one before, and the first to a's first.
    open("/a/b/c\n", "/a/c\n");
    open("/a/b/c\n", "/b/c\n");
    covered("/a/b/c\n", "//b/c\n");
    open("/a/b/c/d\n", "//b/d\n");
}

#[test]
fn descendant_steps() {
    covered("//v\n", "//v\n");
    covered("/v\n", "//v\n");
    covered("/g//v\n", "//v\n");
    covered("//g/v\n", "//v\n");
    covered("/a/b/c/d\n", "/a//d\n");
    covered("/a//b/c//d\n", "//a//b//d\n");
    covered("/a/b/b/c\n", "//b/c\n");
    // The first `a` that fits is not the one.
    covered("/a/b/a/c\n", "//a/c\n");
    covered("/a/a/b\n", "//a/a/b\n");
    open("/a/b\n", "//a/a/b\n");
}

/// no two steps of b go to one of a.
#[test]
fn strictly_rising() {
    open("/a\n", "//a//a\n");
    open("/a\n", "//*//a\n");
    open("/a/b\n", "//*//*//b\n");
    covered("/a/b\n", "//*//b\n");
    open("//b\n", "//*//b\n");
}

/// "last to last"
#[test]
fn the_last_step() {
    open("/a/b\n", "//a\n");
    open("/a/b/c\n", "/a//b\n");
    open("/a/b\n", "/a\n");
}

/// "`*` in a is covered by `*` only".
#[test]
fn name_tests() {
    covered("/v\n", "/*\n");
    open("/*\n", "/v\n");
    covered("/*\n", "/*\n");
    open("/vv\n", "/v\n");
    open("/v\n", "/vv\n");
    open("/\u{E9}\n", "/e\u{301}\n");
}

#[test]
fn marks() {
    covered("/v\n", "/v #\n");
    covered("/v #\n", "//v #\n");
    open("/v #\n", "/v\n");
    covered("/v #\n", "//v\n//v #\n");
    // The path that covers has to have the mark itself.
    open("/g/v #\n", "//v\n/g #\n");
    //
    covered("/g/self::g\n", "/g/self::g #\n");
    open("/g/self::g #\n", "/g/self::g\n");
}

#[test]
fn attribute_tests() {
    covered("/v[@k=\"1\"]\n", "//v\n");
    covered("/v[@k=\"1\"]\n", "//v[@k=\"1\"]\n");
    open("/v\n", "//v[@k=\"1\"]\n");
    open("/v[@k=\"1\"]\n", "//v[@k=\"2\"]\n");
    open("/v[@k=\"1\"]\n", "//v[@l=\"1\"]\n");
    open("/v[@k=\"\"]\n", "//v[@l=\"\"]\n");
    covered("/v[@k=\"1\"]\n", "//*[@k=\"1\"]\n");
    covered("/v[@k=\"1\"] #\n", "//v[@k=\"1\"] #\n");
}

#[test]
fn steps_that_may_stay() {
    apart("/g/self::g\n", "/g\n");
    apart("/g/self::*\n", "/g\n");
    apart("/descendant-or-self::v\n", "//v\n");
    apart("/a/descendant-or-self::v\n", "/a/descendant-or-self::*\n");
    open("/g/self::g\n", "//*\n");
    open("/g/self::g/v\n", "//v\n");
    apart("/g/self::g[@k=\"1\"]\n", "/g/self::g\n");
    covered("/g/self::g[@k=\"1\"]\n", "/g/self::g[@k=\"1\"]\n");
    // A path that can select nothing has to be covered as well.
    open("/self::g\n", "//*\n");
    covered("/self::g\n", "/self::g\n");
    // Other lines are judged by sendings as before.
    covered("/g/v\n/g/self::g\n", "//v\n/g/self::g\n");
}

/// Each narrow line by some wide one, whichever.
#[test]
fn lists() {
    covered("", "");
    covered("", "//v\n");
    open("/v\n", "");
    covered("/g/v\n/g/n\n", "//n\n//v\n");
    covered("/g/v\n/g/n\n", "//*\n");
    open("/g/v\n/g/n\n", "//v\n");
    open("/g/n\n/g/v\n", "//v\n");
    covered("/v\n/v\n", "/v\n");
}

#[test]
fn limits() {
    let deep = "/a".repeat(16) + "\n";
    covered(&deep, &deep);
    covered(&deep, &("//a".repeat(16) + "\n"));
    covered(&deep, &("//*".repeat(15) + "/a\n"));
    open(&("/a".repeat(15) + "\n"), &("//*".repeat(16) + "\n"));
    covered(&"/g/v\n".repeat(32), &("/n\n".repeat(31) + "//v\n"));
    open(&("/n\n".repeat(31) + "/v\n"), "/n\n");
}

/// "both lists sound is asked for even if the narrow one is empty".
#[test]
fn refusals() {
    let (long, lines, steps) = ("x".repeat(8_193), "/v\n".repeat(33), "/v".repeat(17) + "\n");
    assert_eq!(answer(&long, "//v\n"), (1, 0, 1));
    assert_eq!(answer("/v\nv\n", "//v\n"), (2, 2, 1));
    assert_eq!(answer(&lines, "//v\n"), (3, 33, 1));
    assert_eq!(answer("//v\n", &long), (1, 0, 2));
    assert_eq!(answer("", "/v"), (2, 1, 2));
    assert_eq!(answer("", &steps), (3, 1, 2));
    assert_eq!(answer(&steps, &long), (3, 1, 1));
    assert_eq!(answer("v\n", &long), (2, 1, 1));
    assert_eq!(answer("/v\n", "/v\n/v\nv\n"), (2, 3, 2));
}
