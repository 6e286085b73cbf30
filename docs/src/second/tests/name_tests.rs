//! How many name tests are tried, document 02, Q-13: "for each element and each step of each line, one exactly when the steps
//! before it can be laid so that the step's place would be that element", with readings R-43 to R-46. The sums in the tests
//! have one number for each step of each line, in the list's order. At the end: the bound, and the same count once more by
//! trying every choice of places.

use super::{cut_of, lent, most_tests, refusal, refused};
use crate::select::{can_be_laid, may_follow};
use crate::{cut, list, whole};

/// Four elements: `g`, under it `p` and `v`, under `p` another `v`.
const DOC: &str = "<g><p><v/></p><v/></g>";

/// So many name tests are tried, with exactly the cut's room and with more; none where one byte is missing.
fn tried(list: impl AsRef<[u8]>, doc: impl AsRef<[u8]>, tests: u64) {
    let (list, doc) = (list.as_ref(), doc.as_ref());
    assert_eq!(whole(list, doc).unwrap().tried, tests, "{} {}", String::from_utf8_lossy(list), String::from_utf8_lossy(doc));
    let (bytes, selected) = cut_of(list, doc);
    for room in [bytes.len(), bytes.len() + 9] {
        let answer = cut(list, doc, &mut lent(room));
        assert_eq!((answer.number, answer.second, answer.third, answer.fourth), (0, bytes.len() as u64, selected, tests));
    }
    assert_eq!(cut(list, doc, &mut lent(bytes.len() - 1)), refusal(9, bytes.len()));
    assert!(tests <= most_tests(list, doc));
}

fn chain(levels: usize) -> String {
    "<a>".repeat(levels) + &"</a>".repeat(levels)
}

#[test]
fn child_steps() {
    // A first child step is tried at the root alone, whether it fits or not.
    tried("/g\n", DOC, 1);
    tried("/x\n", DOC, 1);
    // The second at the two children of `g`; not at all where the first does not fit.
    tried("/g/p\n", DOC, 1 + 2);
    tried("/g/x\n", DOC, 1 + 2);
    tried("/x/p\n", DOC, 1);
    // The third at the one child of `p`, or at none, since neither `v` has children.
    tried("/g/p/v\n", DOC, 1 + 2 + 1);
    tried("/g/v/v\n", DOC, 1 + 2);
    tried("/g/p/v/v\n", DOC, 1 + 2 + 1);
}

#[test]
fn descendant_steps() {
    // A first descendant step is tried at each of the four elements.
    tried("//v\n", DOC, 4);
    tried("//x\n", DOC, 4);
    // Then a child step at the children of what fits: the `v` under `p`, the two under `g`, none under `v`.
    tried("//p/x\n", DOC, 4 + 1);
    tried("//g/x\n", DOC, 4 + 2);
    tried("//v/x\n", DOC, 4);
    // A descendant step at all that is below: three elements under `g`, one under `p`.
    tried("/g//x\n", DOC, 1 + 3);
    tried("//g//x\n", DOC, 4 + 3);
    tried("//p//x\n", DOC, 4 + 1);
    tried("//g//p//v\n", DOC, 4 + 3 + 1);
    tried("//x//v\n", DOC, 4);
}

#[test]
fn self_steps() {
    // A self step is tried where the step before can end: at the root, at the two `v`, at the two children of `g`.
    tried("/g/self::g\n", DOC, 1 + 1);
    tried("/g/self::x\n", DOC, 1 + 1);
    tried("/x/self::g\n", DOC, 1);
    tried("//v/self::v\n", DOC, 4 + 2);
    tried("/g/*/self::p\n", DOC, 1 + 2 + 2);
    // What follows it goes on from there, if it fits.
    tried("/g/self::g/p\n", DOC, 1 + 1 + 2);
    tried("/g/self::x/p\n", DOC, 1 + 1);
    tried("/g/*/self::p/v\n", DOC, 1 + 2 + 2 + 1);
    tried("//*/self::v/self::v/self::p\n", DOC, 4 + 4 + 2 + 2);
}

#[test]
fn descendant_or_self_steps() {
    // Tried where the step before can end and at all that is below: at all four, at `p` and its `v`, at each `v` alone.
    tried("/g/descendant-or-self::x\n", DOC, 1 + 4);
    tried("//p/descendant-or-self::x\n", DOC, 4 + 2);
    tried("//v/descendant-or-self::x\n", DOC, 4 + 2);
    tried("/x/descendant-or-self::x\n", DOC, 1);
    // It can end at both `v`, which have no children; at `p`, which has one.
    tried("/g/descendant-or-self::v/x\n", DOC, 1 + 4);
    tried("/g/descendant-or-self::p/x\n", DOC, 1 + 4 + 1);
    tried("/g/descendant-or-self::p/self::p\n", DOC, 1 + 4 + 1);
}

#[test]
fn a_first_step_self_is_never_tried() {
    for list in ["/self::g\n", "/self::* #\n", "/self::g/p\n", "/self::*//v\n", "/self::*/self::*\n", "/self::g/descendant-or-self::*\n"] {
        tried(list, DOC, 0);
    }
    tried("/self::*".repeat(16) + "\n", DOC, 0);
    tried("/self::g\n//v\n/self::v\n", DOC, 4);
}

#[test]
fn a_first_step_descendant_or_self_is_tried_as_a_descendant_step() {
    for axis in ["//", "/descendant-or-self::"] {
        tried(format!("{axis}v\n"), DOC, 4);
        tried(format!("{axis}p/v\n"), DOC, 4 + 1);
        tried(format!("{axis}*/self::*\n"), DOC, 4 + 4);
        tried(format!("{axis}g//v\n"), DOC, 4 + 3);
    }
}

#[test]
fn reading_r_43_any_name_is_a_name_test_too() {
    tried("/*\n", DOC, 1);
    tried("//*\n", DOC, 4);
    // One element has two places above it.
    tried("/*/*/*\n", DOC, 1 + 2 + 1);
    tried("//*/*\n", DOC, 4 + 3);
    tried("//*//*//*\n", DOC, 4 + 3 + 1);
    tried("//*//*//*//*\n", DOC, 4 + 3 + 1);
    tried("/*/self::*/descendant-or-self::*\n", DOC, 1 + 1 + 4);
}

#[test]
fn reading_r_44_one_however_many_layings() {
    // Below the first `a` a descendant step has one place to follow, below the second two: each counts once.
    tried("//a//a\n", chain(3), 3 + 2);
    tried("//a//a//a\n", chain(3), 3 + 2 + 1);
    tried("//a//a/a\n", chain(5), 5 + 4 + 3);
    // Places may repeat, so each of these steps can stand at each of the three.
    tried("/descendant-or-self::a".repeat(2) + "\n", chain(3), 3 + 3);
    tried("/descendant-or-self::a".repeat(16) + "\n", chain(3), 3 * 16);
    // `/a` at the three places with an `a` above, `/b` at those below the second and the third `a`.
    tried("//a/a/b\n", "<a><a><a><b/></a></a></a>", 4 + 3 + 2);
    // Names from the root: a b a b. `//a` ends at 1 and 3, so `/b` is tried at 2 and 4 and ends at both; below 2 are 3 and 4.
    tried("//a/b//b\n", "<a><b><a><b/></a></b></a>", 4 + 2 + 2);
    // As before, but the last step may also stand at 2 itself.
    tried("//a/b/descendant-or-self::b\n", "<a><b><a><b/></a></b></a>", 4 + 2 + 3);
}

#[test]
fn the_deepest_chain_and_the_most_steps() {
    // Step j of 16 is tried at the places j to 64: 64 + 63 + ... + 49.
    tried("//a".repeat(16) + "\n", chain(64), (64 + 49) * 16 / 2);
    // At one place each, as far as there are places.
    tried("/a".repeat(16) + "\n", chain(64), 16);
    tried("/a".repeat(16) + "\n", chain(5), 5);
    // Fifteen self steps are all tried where the child step ends; where the third does not fit, three.
    tried("/a".to_string() + &"/self::a".repeat(15) + "\n", chain(64), 1 + 15);
    tried("/a/self::a/self::*/self::b".to_string() + &"/self::a".repeat(12) + "\n", chain(64), 1 + 3);
    refused("/a".to_string() + &"/self::a".repeat(16) + "\n", chain(64), 3, 1);
    // Fifteen child steps, then at place 15 and the 49 below it.
    tried("/a".repeat(15) + "/descendant-or-self::a\n", chain(64), 15 + 50);
    tried("/a".repeat(15) + "//a\n", chain(64), 15 + 49);
}

#[test]
fn every_line_counts() {
    tried("//v\n//v\n", DOC, 4 + 4);
    tried("//v\n".repeat(32), DOC, 32 * 4);
    // Lines with the same steps at their front share nothing.
    tried("/g/p/v\n/g/p/x\n/g/p\n", DOC, (1 + 2 + 1) + (1 + 2 + 1) + (1 + 2));
    tried("/x\n/g\n/self::g\n//p/v\n", DOC, 1 + 1 + (4 + 1));
}

#[test]
fn marks_change_nothing_and_kept_entries_are_counted_inside() {
    tried("//v #\n", DOC, 4);
    tried("//v\n//v #\n", DOC, 4 + 4);
    // All of the document is kept as it came, by the root or by `p`.
    tried("/g #\n//v\n", DOC, 1 + 4);
    tried("/g #\n/g/p/v\n", DOC, 1 + (1 + 2 + 1));
    tried("//p #\n//p/v/x\n", DOC, 4 + (4 + 1));
    tried("//* #\n", DOC, 4);
}

#[test]
fn elements_that_no_path_can_reach() {
    let doc = "<x><y><z/><z/></y><y/></x>";
    tried("/g/p/v\n", doc, 1);
    // `/q` is tried at the two `y` in vain; `//z` never.
    tried("/x/q//z\n", doc, 1 + 2);
    // `/z` is tried at the two `z`, and `//y` below them never.
    tried("/x/y/z//y\n", doc, 1 + 2 + 2);
    // What is tried after an end tag goes by the names from the root again.
    tried("/g/p/v\n", "<g><p><q><v/></q><v/></p><v/><q><v/></q></g>", 1 + 3 + 2);
}

#[test]
fn elements_alone_are_counted() {
    tried("//*\n", "<?xml version='1.0'?><!--a--><g k='v'>t<?p?>&amp;<![CDATA[<v/>]]><v></v ><!--<v/>--></g>\n", 2);
    tried("/g/v\n", "\u{FEFF}<g>\n<v/> <v l=''/>\n</g>", 1 + 2);
}

#[test]
fn names_are_equal_when_their_bytes_are() {
    // Five elements. One `x` is under each of the two names, and one name is the list's.
    let doc = "<g><\u{E9}><x/></\u{E9}><e\u{301}><x/></e\u{301}></g>";
    tried("//\u{E9}/x\n", doc, 5 + 1);
    tried("//e\u{301}/x\n", doc, 5 + 1);
    tried("//e/x\n", doc, 5);
}

#[test]
fn reading_r_45_attribute_tests_change_nothing() {
    let doc = "<g k='1'><p k='1'><v k='2'/></p><v/></g>";
    for test in ["", "[@k=\"1\"]", "[@k=\"2\"]", "[@k=\"\"]", "[@l=\"1\"]"] {
        tried(format!("//v{test}\n"), doc, 4);
        tried(format!("/g/p{test} #\n"), doc, 1 + 2);
        tried(format!("//*/self::*{test}\n"), doc, 4 + 4);
        tried(format!("/g/descendant-or-self::v{test}\n//v\n"), doc, (1 + 4) + 4);
    }
    tried("//v[@k=\"1\"]\n//v[@k=\"2\"]\n", doc, 4 + 4);
}

#[test]
fn the_empty_list_tries_nothing() {
    tried("", "<g/>", 0);
    tried("", DOC, 0);
}

#[test]
fn reading_r_46_none_under_every_other_number() {
    refused("//*\n".repeat(2_049), DOC, 1, 0);
    refused("//*\nv\n", DOC, 2, 2);
    refused("//*\n".repeat(33), DOC, 3, 33);
    refused("//*\n", vec![b' '; 16_777_217], 4, 0);
    refused("//*\n", b"<g><v/>\xFF</g>", 5, 7);
    refused("//*\n", "<g><v/><!DOCTYPE g></g>", 6, 7);
    refused("//*\n", "<g><v/></h>", 7, 7);
    refused("//*\n", "<a>".repeat(65), 8, 192);
    refused("//*\n", "<?xml version='1.0' encoding='x'?><g/>", 10, 0);
    // The cut has 28 bytes. Each call of `tried` asks for 9 as well, with one byte less than the cut.
    for room in 0..28 {
        assert_eq!(cut(b"//*\n", DOC.as_bytes(), &mut lent(room)), refusal(9, 28));
    }
}

#[test]
fn the_bound_is_reached() {
    // Each step at each element: "at most elements times steps in the list, repeats counted".
    tried("//*\n", DOC, 4);
    tried("//*\n".repeat(32), DOC, 4 * 32);
    tried("/descendant-or-self::*".repeat(16) + "\n", DOC, 4 * 16);
    tried(format!("//*{}\n", "/self::*".repeat(15)).repeat(32), chain(64), 64 * 16 * 32);
    tried(format!("/*{}\n", "/self::*".repeat(15)).repeat(32), "<g/>", 16 * 32);
}

/// The same number by the words alone: for each place and step, every choice of places for the steps before.
fn by_every_choice(list: &str, names: &[&str]) -> usize {
    let paths = list::paths(list.as_bytes()).unwrap();
    let places = 1..=names.len();
    let steps = paths.iter().flat_map(|path| (0..path.steps.len()).map(move |at| path.steps.split_at(at)));
    let is_tried = |place: usize, before: &[_], axis| {
        (0..=place).any(|above| may_follow(axis, above, place) && can_be_laid(before, &names[..place], above))
    };
    steps.map(|(before, rest)| places.clone().filter(|&place| is_tried(place, before, &rest[0].axis)).count()).sum()
}

/// Every line of up to three steps, of all kinds and over two tests, on every chain of up to four names.
#[test]
fn as_by_every_choice_of_places() {
    let axes = ["/", "//", "/self::", "/descendant-or-self::"];
    let steps: Vec<String> = axes.iter().flat_map(|axis| ["a", "*"].map(|test| [*axis, test].concat())).collect();
    let longer =
        |paths: &[String]| -> Vec<String> { paths.iter().flat_map(|path| steps.iter().map(move |step| path.clone() + step)).collect() };
    let (two, three) = (longer(&steps), longer(&longer(&steps)));
    let chains: Vec<Vec<&str>> = (1..=4).flat_map(|levels| (0..1 << levels).map(move |bits| named(levels, bits))).collect();
    for path in [&steps, &two, &three].into_iter().flatten() {
        let list = format!("{path}\n");
        for names in &chains {
            tried(&list, nested(names), by_every_choice(&list, names) as u64);
        }
    }
}

/// So many names, `a` or `b` by the bits.
fn named(levels: usize, bits: usize) -> Vec<&'static str> {
    (0..levels).map(|level| ["a", "b"][bits >> level & 1]).collect()
}

fn nested(names: &[&str]) -> String {
    let starts: String = names.iter().map(|name| format!("<{name}>")).collect();
    let ends: String = names.iter().rev().map(|name| format!("</{name}>")).collect();
    starts + &ends
}
