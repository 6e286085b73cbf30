// How the time of a cut goes by the number of paths, by the length of the document, for a small document, and by its kind.
use crate::figures::Figures;
use crate::filters::{agreed, baseline, library, room, Filter};
use crate::gazetteer;
use crate::kinds;
use crate::lists;
use crate::parsers::{agree, PARSERS};
use crate::rounds::{cleared, medians, work, Work};
use std::hint::black_box;

const TWO: [(&str, Filter); 2] = [("ours", library), ("baseline", baseline)];
/// A small document is cut so many times in a round.
const TURNS: usize = 500;

fn cuts<'a>(list: &'a str, doc: &'a [u8]) -> [Work<'a>; 2] {
    TWO.map(|(_, cut)| cleared(room(doc), move |out| cut(black_box(list.as_bytes()), black_box(doc), out)))
}

/// The path that alone writes most stands for one path, so that what is written differs least.
fn one_path(list: &str, doc: &[u8]) -> String {
    let needed = |line: &&str| library(format!("{line}\n").as_bytes(), doc, &mut [])[1];
    list.lines().max_by_key(needed).map(|line| format!("{line}\n")).unwrap()
}

/// Two of something: their times, and how many times as long the second takes, by ours and by the baseline.
fn ratio(what: [&str; 2], first: (&str, &[u8]), second: (&str, &[u8])) {
    let mut works: Vec<Work> = cuts(first.0, first.1).into_iter().chain(cuts(second.0, second.1)).collect();
    let seconds = medians(&mut works);
    for (i, (by, _)) in TWO.iter().enumerate() {
        let (one, other) = (seconds[i], seconds[2 + i]);
        println!("{:<44}{:>10.2}{:>10.2}{:>10.2}", format!("{by}: {}, {}", what[0], what[1]), one * 1e3, other * 1e3, other / one);
    }
}

fn ratios() {
    let (text, long) = (gazetteer::document(), lists::long());
    let doc = text.as_bytes();
    // A little is left to what is open at that length: a longer document is refused.
    let larger = gazetteer::of_size((16 << 20) - 4096);
    let one = one_path(&long, doc);
    let written = |list: &str| agreed(list, doc).0.len();
    println!("\nThe path {} writes {} bytes, the list of it {}", one.trim_end(), written(&one), written(&long));
    println!("{} bytes are {:.2} times {}", larger.len(), larger.len() as f64 / doc.len() as f64, doc.len());
    println!("{:<44}{:>10}{:>10}{:>10}", "by: first, second", "ms", "ms", "times");
    ratio(["1 path", "32"], (&one, doc), (&long, doc));
    ratio(["8 MiB", "16 by 32 paths"], (&long, doc), (&long, larger.as_bytes()));
    ratio(["8 MiB", "16 by the desk's list"], (lists::DESK, doc), (lists::DESK, larger.as_bytes()));
}

fn small() {
    let (text, long) = (gazetteer::of_size(800), lists::long());
    let doc = text.as_bytes();
    println!("\nA document of {} bytes, µs a call", doc.len());
    let (mut names, mut works) = (Vec::new(), Vec::new());
    for (what, list) in [("32 paths of 8 steps", &long[..]), ("atlas", lists::ATLAS), ("desk", lists::DESK)] {
        agreed(list, doc);
        for (by, cut) in TWO {
            names.push(format!("{by}, {what}"));
            let turns = move |out: &mut [u8]| (0..TURNS).fold(0, |sum, _| sum + cut(black_box(list.as_bytes()), black_box(doc), out)[1]);
            works.push(cleared(room(doc), turns));
        }
    }
    for &(what, check) in PARSERS {
        names.push(what.to_string());
        works.push(work(move || (0..TURNS).fold(true, |all, _| all & check(black_box(doc)))));
    }
    for (what, seconds) in names.iter().zip(medians(&mut works)) {
        println!("{what:<30}{:>10.2}", seconds * 1e6 / TURNS as f64);
    }
}

fn by_kind(figures: &mut Figures) {
    let long = lists::long();
    println!("\nOther kinds of document by 32 paths of 8 steps; and how many times as fast ours and the baseline are");
    println!("{:<30}{:>10}{:>10}{:>10}{:>10}{:>10}", "what", "bytes", "written", "MB/s", "ours", "baseline");
    for (kind, text) in kinds::documents() {
        let doc = text.as_bytes();
        agree(doc);
        let written = agreed(&long, doc).0.len();
        let mut works: Vec<Work> = cuts(&long, doc).into_iter().collect();
        works.extend(PARSERS.iter().map(|&(_, check)| work(move || check(black_box(doc)))));
        let seconds = medians(&mut works);
        let names = TWO.iter().map(|(by, _)| *by).chain(PARSERS.iter().map(|(by, _)| *by));
        for (by, &time) in names.zip(&seconds) {
            let rate = doc.len() as f64 / time / 1e6;
            print!("{:<30}{:>10}{written:>10}{rate:>10.0}", format!("{kind}, {by}"), doc.len());
            println!("{:>10.2}{:>10.2}", time / seconds[0], time / seconds[1]);
            figures.add("Other kinds of document, by 32 paths of 8 steps", kind, by, rate);
        }
    }
}

pub fn measure(figures: &mut Figures) {
    ratios();
    small();
    by_kind(figures);
}
