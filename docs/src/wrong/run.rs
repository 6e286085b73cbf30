// A changed filter, as its source read as Rust, on the packed cases: prints how many of each pack it answers otherwise than the second
// program. A case in which an index is out of range counts too, and one that the plain engine answers otherwise. Run from the repository's
// top.
#[path = "../../../target/rust/wrong.rs"]
mod ours;

use std::panic::{catch_unwind, set_hook};
use vectors::asked::{line, second, Four};
use vectors::pack::{read, PACKS};

fn changed(list: &[u8], doc: &[u8], out: &mut [u8]) -> Four {
    let numbers = ours::exported::choughbell_cut(list, doc, out);
    [numbers.number, numbers.second, numbers.third, numbers.fourth]
}

/// The plain engine, which counts no name tests: these are left to the other.
fn plain(list: &[u8], doc: &[u8], out: &mut [u8]) -> Four {
    let numbers = ours::exported::engine::choughbell_plain(list, doc, out);
    [numbers.number, numbers.second, numbers.third, second(list, doc, &mut out.to_vec())[3]]
}

fn main() {
    set_hook(Box::new(|_| {}));
    for name in PACKS {
        let cases = read("crates/vectors/data", name).expect("a pack");
        let otherwise = |case: &&_| {
            let expected = Some(line(case, second));
            catch_unwind(|| line(case, changed)).ok() != expected || catch_unwind(|| line(case, plain)).ok() != expected
        };
        println!("{}", cases.iter().filter(otherwise).count());
    }
}
