// How fast a part of the library is beside ordinary Rust and other parsers: the check of a document's characters, the matcher, or the whole
// cut. A program is made for each, since what is inlined goes by what else calls it. The library is here as the toolchain compiles it, for
// the machine at hand, and as its source read as Rust, by source.rs; of the matcher there is the source alone. Other parsers are there
// where they could be linked.
#[cfg(characters)]
mod characters;
#[cfg(cut)]
mod covering;
#[cfg(cut)]
mod cutting;
#[cfg(all(cut, expat))]
mod expat;
#[cfg(cut)]
mod figures;
#[cfg(cut)]
mod filters;
#[cfg(cut)]
mod further;
#[cfg(cut)]
mod gazetteer;
#[cfg(cut)]
mod kinds;
#[cfg(all(cut, libxml))]
mod libxml;
#[cfg(any(characters, cut))]
mod linked;
#[cfg(cut)]
mod lists;
#[cfg(matcher)]
mod matching;
#[cfg(any(cut, matcher))]
#[allow(dead_code)]
mod numbers;
#[path = "../../../target/rust/source.rs"]
mod ours;
#[cfg(cut)]
mod parsers;
#[cfg(matcher)]
mod places;
#[cfg(any(characters, all(cut, expat)))]
#[path = "../plain/mod.rs"]
#[allow(dead_code)]
mod plain;
#[allow(dead_code)]
mod rounds;
#[cfg(any(matcher, all(cut, expat)))]
#[allow(dead_code)]
mod steps;
#[cfg(all(cut, expat))]
mod tree;

// It brings the library along, of which linked.rs calls a function.
#[cfg(any(characters, cut))]
extern crate choughbell;

fn main() {
    let checks = if ours::INDEX_CHECKS { "in" } else { "out" };
    println!("\n{} rounds; all that is compared takes turns. In the source read as Rust index checks are left {checks}.", rounds::ROUNDS);
    #[cfg(characters)]
    characters::measure();
    #[cfg(matcher)]
    matching::measure();
    #[cfg(cut)]
    {
        let mut figures = figures::Figures::default();
        cutting::measure(&mut figures);
        further::measure(&mut figures);
        covering::measure();
        figures.write();
    }
}
