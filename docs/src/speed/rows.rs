//! rows: how long tables of the gazetteer of 8 MiB take, for lists that select leaves, few elements and all of them; into a buffer that
//! suffices, and into none, which measures alone. Beside them the cut by the same list. By the library, as callers link it.
mod gazetteer;
// Not all of its ways are taken here.
#[allow(dead_code)]
mod lists;
#[allow(dead_code)]
mod numbers;
#[allow(dead_code)]
mod rounds;

use rounds::{medians, work, Work};
use std::hint::black_box;

fn main() {
    let text = gazetteer::document();
    let doc = text.as_bytes();
    println!("Tables of a gazetteer of {} bytes: ms, and the document's megabytes a second", doc.len());
    println!("{:<20}{:>10}{:>12}{:>10}{:>10}{:>10}{:>10}", "list", "selected", "bytes", "table", "MB/s", "no room", "cut");
    for (what, list) in [("//name", "//name\n"), ("atlas", lists::ATLAS), ("desk", lists::DESK), ("//*", "//*\n")] {
        let list = list.as_bytes();
        let made = choughbell::rows_of(list, doc).expect("a table");
        let (mut out, mut cut) = (vec![0; made.bytes.len()], vec![0; 2 * doc.len()]);
        let mut works: Vec<Work> = vec![
            work(|| assert_eq!(choughbell::rows(black_box(list), black_box(doc), &mut out).number, 0)),
            work(|| assert_eq!(choughbell::rows(black_box(list), black_box(doc), &mut []).number, 9)),
            work(|| assert_eq!(choughbell::cut(black_box(list), black_box(doc), &mut cut).number, 0)),
        ];
        let seconds = medians(&mut works);
        print!("{what:<20}{:>10}{:>12}{:>10.2}", made.selected, made.bytes.len(), seconds[0] * 1e3);
        println!("{:>10.0}{:>10.2}{:>10.2}", doc.len() as f64 / seconds[0] / 1e6, seconds[1] * 1e3, seconds[2] * 1e3);
    }
}
