// How long the check of two lists takes: 32 paths of 16 steps in each, of distinct names, of one name, with long tests, and with steps that
// stay. In each the wide list has the narrow list's lines in the other order, so that every narrow line is looked for to the end.
use crate::rounds::{medians, work, Work};
use std::hint::black_box;

const LINES: usize = 32;
const STEPS: usize = 16;
/// So many checks in a round.
const TURNS: usize = 100;

fn list(line: impl Fn(usize) -> String) -> [String; 2] {
    let lines: Vec<String> = (0..LINES).map(|n| line(n) + "\n").collect();
    [lines.concat(), lines.into_iter().rev().collect()]
}

/// The pairs, with what they are.
fn pairs() -> [(&'static str, [String; 2]); 4] {
    let names = |n: usize| (0..STEPS).map(|j| format!("//n{:011}", n * STEPS + j)).collect::<String>();
    let other = |n: usize| format!("{}/*//n{n:02}", "//n/n".repeat(STEPS / 2 - 1));
    let tested = |n: usize| format!("{}[@k=\"{}{n:02}\"]", "//n".repeat(STEPS), "x".repeat(190));
    let staying = |n: usize| format!("{}/n{n:02}", "/self::nnnnnn".repeat(STEPS - 1));
    [
        ("distinct names", list(names)),
        ("one name but for the last", list(other)),
        ("long tests", list(tested)),
        ("steps that stay", list(staying)),
    ]
}

pub fn measure() {
    println!("\nWhether a list is covered by another, 32 paths of 16 steps in each, µs a call");
    let pairs = pairs();
    let check = |[narrow, wide]: &[String; 2]| choughbell::covers_of(black_box(narrow.as_bytes()), black_box(wide.as_bytes()));
    let mut works: Vec<Work> = Vec::new();
    for (what, lists) in &pairs {
        assert_eq!(check(lists), Ok(true), "{what}");
        works.push(work(move || (0..TURNS).fold(0, |yes, _| yes + usize::from(check(lists) == Ok(true)))));
    }
    for ((what, lists), seconds) in pairs.iter().zip(medians(&mut works)) {
        println!("{:<44}{:>10.1}", format!("{what}, {} bytes", lists[0].len()), seconds * 1e6 / TURNS as f64);
    }
}
