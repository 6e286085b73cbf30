// The whole cut of a gazetteer by five lists: by the library as the toolchain compiles it, with a log that is lent and with its own, by its
// source read as Rust and by the baseline, beside other parsers, which check that it is well-formed, and a copy of its bytes; and parts of
// the cut. Cuts are first compared with each other and, where expat is there, with that of tree.rs, which knows child and descendant steps
// alone; the cut by steps that stay is that by the same list without them. Last the plain engine, once by each of three lists, since it
// takes longer than is worth fifteen rounds; its cuts are compared too.
use crate::figures::Figures;
use crate::filters::{agreed, library, plain, room, FILTERS};
use crate::gazetteer;
use crate::lists;
use crate::parsers::{agree, COUNTING, EXPAT, LIBXML, PARSERS};
use crate::rounds::{cleared, medians, work, Work, ROUNDS};
use std::hint::black_box;

#[cfg(expat)]
fn compare(list: &str, doc: &[u8], (out, selected): &(Vec<u8>, u64)) {
    let (expected, count) = crate::tree::cut(list, doc);
    assert!(*out == expected, "another cut than that of ordinary Rust");
    assert_eq!(*selected, count as u64);
}

#[cfg(not(expat))]
fn compare(_: &str, _: &[u8], _: &(Vec<u8>, u64)) {
    println!("not compared with the cut of a tree, which needs expat:");
}

/// The lists with what they are called; compared, and said what they select.
fn compared(doc: &[u8]) -> Vec<(&'static str, String)> {
    let lists = vec![
        ("32 paths of 8 steps", lists::long()),
        ("atlas", lists::ATLAS.to_string()),
        ("desk", lists::DESK.to_string()),
        ("32 paths, 7 steps that stay", lists::staying()),
        ("32 paths, each with a test", lists::tested()),
    ];
    let cuts: Vec<_> = lists.iter().map(|(_, list)| agreed(list, doc)).collect();
    (0..3).for_each(|i| compare(&lists[i].1, doc, &cuts[i]));
    assert!(cuts[3] == cuts[0]);
    for ((what, list), (out, selected)) in lists.iter().zip(&cuts) {
        println!("{what}: {} paths, {selected} elements selected, {} bytes written", list.lines().count(), out.len());
    }
    lists
}

/// Everything but the cuts, with its name. A cut into no room measures and does not write.
fn beside<'a>(list: &'a str, doc: &'a [u8]) -> Vec<(&'static str, Work<'a>)> {
    let mut copied = vec![0; doc.len()];
    let mut rows = vec![
        ("copy of the bytes", work(move || black_box(&mut copied).copy_from_slice(black_box(doc)))),
        ("ours, characters alone", work(|| crate::linked::check(black_box(doc)))),
        ("ours, document alone", work(|| choughbell::check(black_box(doc)).is_ok())),
        ("ours, 8 steps, no room", work(|| library(black_box(list.as_bytes()), black_box(doc), &mut []))),
    ];
    for &(what, check) in PARSERS.iter().chain(COUNTING) {
        rows.push((what, work(move || check(black_box(doc)))));
    }
    rows
}

/// How many times as fast the library is, where what it is compared with was timed.
fn times_as_fast(ours: f64, theirs: Option<f64>) -> String {
    theirs.map_or("missing".to_string(), |theirs| format!("{:.2}", theirs / ours))
}

pub fn measure(figures: &mut Figures) {
    let text = gazetteer::document();
    let doc = text.as_bytes();
    let elements = text.matches("</").count() + text.matches("/>").count();
    let high = doc.iter().filter(|&&b| b >= 0x80).count();
    println!("The cut of a gazetteer of {} bytes, {high} of them not ASCII, with {elements} elements", doc.len());
    agree(doc);
    let lists = compared(doc);
    let (names, mut works): (Vec<&str>, Vec<Work>) = beside(&lists[0].1, doc).into_iter().unzip();
    for (_, list) in &lists {
        works.extend(FILTERS.map(|(_, cut)| cleared(room(doc), move |out| cut(black_box(list.as_bytes()), black_box(doc), out))));
    }
    let seconds = medians(&mut works);
    let of = |what: &str| names.iter().position(|&name| name == what).map(|row| seconds[row]);
    println!("\nMedians of {ROUNDS} rounds, each buffer cleared before each cut");
    println!("{:<30}{:>10}{:>10}", "what", "ms", "GB/s");
    for (what, seconds) in names.iter().zip(&seconds) {
        println!("{what:<30}{:>10.2}{:>10.3}", seconds * 1e3, doc.len() as f64 / seconds / 1e9);
    }
    println!("\nCuts, ms; and how many times the throughput of the baseline, expat and libxml2 (no handlers) ours has");
    print!("{:<30}{:>8}{:>9}{:>9}{:>10}", "list", "ours", "own log", "as Rust", "baseline");
    println!("{:>10}{:>8}{:>9}", "baseline", "expat", "libxml2");
    for ((what, _), cuts) in lists.iter().zip(seconds[names.len()..].chunks(FILTERS.len())) {
        let [expat, libxml] = [of(EXPAT), of(LIBXML)].map(|theirs| times_as_fast(cuts[0], theirs));
        print!("{what:<30}{:>8.2}{:>9.2}{:>9.2}{:>10.2}", cuts[0] * 1e3, cuts[1] * 1e3, cuts[2] * 1e3, cuts[3] * 1e3);
        println!("{:>10}{expat:>8}{libxml:>9}", times_as_fast(cuts[0], Some(cuts[3])));
    }
    println!("\nThe plain engine, one cut each; and how many times as long as ours it takes");
    println!("{:<30}{:>10}{:>10}", "list", "ms", "times");
    for ((what, list), cuts) in lists.iter().zip(seconds[names.len()..].chunks(FILTERS.len())).take(3) {
        let took = plainly(list, doc);
        println!("{what:<30}{:>10.1}{:>10.1}", took * 1e3, took / cuts[0]);
    }
    let shown = lists.iter().zip(seconds[names.len()..].chunks(FILTERS.len())).take(3);
    shown.for_each(|((what, _), cuts)| add(figures, what, doc.len(), cuts, &of));
}

/// The plain engine by a list: the time of one cut, which has to be that of the others.
fn plainly(list: &str, doc: &[u8]) -> f64 {
    let (mut out, mut numbers) = (vec![0; room(doc)], [0; 3]);
    let took = work(|| numbers = plain(black_box(list.as_bytes()), black_box(doc), &mut out))();
    let (cut, selected) = agreed(list, doc);
    assert!(numbers == [0, cut.len() as u64, selected] && out[..cut.len()] == cut, "another cut by the plain engine");
    took
}

/// The bars of a group: ours, the baseline, the parsers.
fn add(figures: &mut Figures, list: &str, bytes: usize, cuts: &[f64], of: &dyn Fn(&str) -> Option<f64>) {
    let parsers = PARSERS.iter().filter_map(|(what, _)| Some((*what, of(what)?)));
    for (what, seconds) in [("ours", cuts[0]), ("baseline", cuts[3])].into_iter().chain(parsers) {
        figures.add("A gazetteer of 8 MiB, by list", list, what, bytes as f64 / seconds / 1e6);
    }
}
