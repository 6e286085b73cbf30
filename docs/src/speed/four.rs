//! four: how long one call for four clients takes beside four single calls, on the gazetteer of 8 MiB: without logs, and with logs that
//! are lent. For several sets of four lists; numbers and bytes are first compared. By the library, as callers link it.
mod gazetteer;
mod lists;
// Not all of its ways are taken here.
#[allow(dead_code)]
mod numbers;
#[allow(dead_code)]
mod rounds;

use choughbell::FourNumbers;
use rounds::{medians, work, Work};
use std::hint::black_box;

/// Notes enough for most cuts: as many as the crate for Rust lends.
const NOTES: usize = 131_072;

/// Four buffers or logs, lent.
fn lent<T>(vecs: &mut [Vec<T>; 4]) -> [&mut [T]; 4] {
    let [first, second, third, fourth] = vecs;
    [first, second, third, fourth]
}

fn clear(outs: &mut [Vec<u8>; 4]) {
    outs.iter_mut().for_each(|out| out.fill(0));
}

/// The four ways: single calls and one call, each without logs and with.
const WAYS: [&str; 4] = ["4 × cut", "four", "4 × cut_with", "four_with"];

fn ask(way: usize, sets: [&[u8]; 4], doc: &[u8], outs: &mut [Vec<u8>; 4], logs: &mut [Vec<u64>; 4]) -> [FourNumbers; 4] {
    let seats = [0, 1, 2, 3];
    match way {
        0 => seats.map(|seat| choughbell::cut(sets[seat], doc, &mut outs[seat])),
        1 => choughbell::four(sets, doc, lent(outs)),
        2 => seats.map(|seat| choughbell::cut_with(sets[seat], doc, &mut outs[seat], &mut logs[seat])),
        _ => choughbell::four_with(sets, doc, lent(outs), lent(logs)),
    }
}

fn main() {
    let text = gazetteer::document();
    let doc = text.as_bytes();
    let (long, staying, tested) = (lists::long(), lists::staying(), lists::tested());
    let (long, staying, tested, atlas, desk) = (&*long, &*staying, &*tested, lists::ATLAS, lists::DESK);
    let sets = [
        ("four different", [long, atlas, desk, staying]),
        ("one with 32 tests of attributes", [long, atlas, desk, tested]),
        ("two pairs of short lists", [atlas, atlas, desk, desk]),
        ("32 paths of 8 steps, four times", [long; 4]),
        ("one client, three unused seats", [long, "", "", ""]),
    ];
    let mut outs = [(); 4].map(|()| vec![0; 2 * doc.len()]);
    let mut logs = [(); 4].map(|()| vec![0; NOTES]);
    println!("A gazetteer of {} bytes for four clients: ms, and one call as a part of four", doc.len());
    println!("{:<34}{:>10}{:>8}{:>8}{:>16}{:>12}{:>8}", "lists", WAYS[0], WAYS[1], "part", WAYS[2], WAYS[3], "part");
    for (what, lists) in sets {
        let lists = lists.map(str::as_bytes);
        let mut answers = Vec::new();
        for way in 0..WAYS.len() {
            clear(&mut outs);
            answers.push((ask(way, lists, doc, &mut outs, &mut logs), outs.clone()));
        }
        assert!(answers.iter().all(|answer| *answer == answers[0]), "{what}: another answer");
        drop(answers);
        let seconds = timed(lists, doc);
        print!("{what:<34}{:>10.2}{:>8.2}{:>8.2}", seconds[0] * 1e3, seconds[1] * 1e3, seconds[1] / seconds[0]);
        println!("{:>16.2}{:>12.2}{:>8.2}", seconds[2] * 1e3, seconds[3] * 1e3, seconds[3] / seconds[2]);
    }
}

/// The medians of the four ways, which take turns. The buffers are cleared before the first round only: all ways write the same into them.
fn timed(lists: [&[u8]; 4], doc: &[u8]) -> Vec<f64> {
    let asking = |way| {
        let mut outs = [(); 4].map(|()| vec![0; 2 * doc.len()]);
        let mut logs = [(); 4].map(|()| vec![0; NOTES]);
        work(move || ask(way, black_box(lists), black_box(doc), &mut outs, &mut logs))
    };
    let mut works: Vec<Work> = (0..WAYS.len()).map(asking).collect();
    // What is touched for the first time costs the system's time: not counted.
    for work in &mut works {
        work();
    }
    medians(&mut works)
}
