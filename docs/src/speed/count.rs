// count WHAT LIST SIZE: one call of the library, the baseline or a parser on a gazetteer of about a size, for a tool that counts what runs
// in the function `counted`. Prints the document's length, and what the call answered.
#[cfg(expat)]
#[allow(dead_code)]
mod expat;
mod gazetteer;
#[cfg(libxml)]
#[allow(dead_code)]
mod libxml;
#[allow(dead_code)]
mod lists;
#[allow(dead_code)]
mod numbers;

use std::hint::black_box;

/// Its name stands in the program as it is here: that is what the counting goes by.
#[no_mangle]
#[inline(never)]
fn counted(what: &str, list: &[u8], doc: &[u8], out: &mut [u8]) -> u64 {
    match what {
        "ours" => choughbell::cut_with(list, doc, out, &mut vec![0; 131_072]).second,
        "baseline" => baseline::cut(list, doc, out).second,
        #[cfg(expat)]
        "expat" => expat::check(doc) as u64,
        #[cfg(libxml)]
        "libxml2" => libxml::check(doc) as u64,
        _ => panic!("{what} is not there"),
    }
}

fn main() {
    let words: Vec<String> = std::env::args().skip(1).collect();
    let [what, list, size] = &words[..] else { panic!("usage: count WHAT LIST SIZE") };
    let list = match list.as_str() {
        "long" => lists::long(),
        "atlas" => lists::ATLAS.to_string(),
        "desk" => lists::DESK.to_string(),
        _ => panic!("{list} is no list"),
    };
    let doc = gazetteer::of_size(size.parse().expect("a number")).into_bytes();
    let mut out = vec![0; 2 * doc.len()];
    let answer = counted(what, black_box(list.as_bytes()), black_box(&doc), black_box(&mut out));
    println!("{} {answer}", doc.len());
}
