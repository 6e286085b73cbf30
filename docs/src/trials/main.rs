// The functions that the library exports, beside the second program: the same numbers, and the same bytes in the whole buffer. And the
// plain engine beside the cut: the first three of its numbers, and the same bytes.
//
//     packs FOLDER         the packed cases, and those of the other calls
//     limits               documents at the most bytes that one may have and about it
//     big                  these, many name tests, and a gazetteer of 8 MiB by several lists
//     fuzz CASES [SEED]    so many cases of the generator that makes the pack `made`, from other seeds; of a call named
//                          behind them, cases of its own generator
//     tables FOLDER        writes documents and their tables for a spreadsheet, by the library alone
//     suite FOLDER         the W3C's files in a folder: both programs have to give the suite's verdict as well
//
// `big` and `fuzz` try demand 3 as well, and that the longest cut for its document is reached. The first difference ends the run, and is
// shown.
mod batch;
mod big;
mod covers;
mod four;
mod fuzz;
#[path = "../speed/gazetteer.rs"]
mod gazetteer;
#[allow(dead_code)]
#[path = "../speed/lists.rs"]
mod lists;
mod mend;
mod narrow;
// The gazetteer and its lists draw in some of its ways only.
#[allow(dead_code)]
#[path = "../speed/numbers.rs"]
mod numbers;
mod packed;
mod rows;
mod same;

use vectors::asked::Four;
use vectors::pack::{read, PACKS};
use vectors::suite::verdicts;

/// The other calls: the name, a run on all its cases, and one on so many of its generator from a seed.
type Trial = (&'static str, fn(), fn(usize, u64));
const CALLS: &[Trial] = &[
    ("batch", batch::packs, batch::fuzz),
    ("packed", packed::packs, packed::fuzz),
    ("covers", covers::packs, covers::fuzz),
    ("mend", mend::packs, mend::fuzz),
    ("four", four::packs, four::fuzz),
    ("rows", rows::packs, rows::fuzz),
];

fn main() {
    let args: Vec<String> = std::env::args().skip(1).collect();
    let number = |i: usize, default: u64| args.get(i).map_or(default, |a| a.parse().expect("a number"));
    match args.first().map(String::as_str) {
        Some("packs") if args.len() == 2 => packs(&args[1]),
        Some("limits") => big::limits(),
        Some("big") => big::run(),
        Some("fuzz") => fuzz_of(args.get(3))(number(1, 100_000) as usize, number(2, 1)),
        Some("tables") if args.len() == 2 => rows::tables(&args[1]).expect("a folder that can be written"),
        Some("suite") if args.len() == 2 => assert_eq!(verdicts(&args[1], answered), Ok(true)),
        _ => {
            let ways = "packs FOLDER | limits | big | fuzz CASES [SEED [CALL]] | tables FOLDER | suite FOLDER";
            eprintln!("usage: trials {ways}");
            std::process::exit(64);
        }
    }
}

fn packs(folder: &str) {
    for pack in PACKS {
        let cases = read(folder, pack).unwrap_or_else(|why| panic!("{why}"));
        cases.iter().for_each(|case| drop(same::both(&case.list, &case.doc, case.room)));
        println!("{pack}: {} cases, no difference", cases.len());
    }
    CALLS.iter().for_each(|(_, packs, _)| packs());
}

/// The fuzzing of the call with this name, or of the cut.
fn fuzz_of(name: Option<&String>) -> fn(usize, u64) {
    let named = |name| CALLS.iter().find(|(call, ..)| call == name).unwrap_or_else(|| panic!("no call {name}"));
    name.map_or(fuzz::run, |name| named(name).2)
}

/// What both programs answer.
fn answered(list: &[u8], doc: &[u8], out: &mut [u8]) -> Four {
    let (numbers, bytes) = same::both(list, doc, out.len());
    out.copy_from_slice(&bytes);
    [numbers.number, numbers.second, numbers.third, numbers.fourth]
}
