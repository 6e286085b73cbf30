// Makes the expected output of the programs crates/cases and crates/walks: the same cases, answered by ordinary Rust (plain/), which shares
// nothing with the Rattle source.
//
//     rustc -O -o expected docs/src/expected/main.rs
//     ./expected cases > crates/cases/stdout
//     ./expected walks > crates/walks/stdout

mod chars;
#[path = "../plain/mod.rs"]
mod plain;
mod sizes;
mod texts;
mod walks;

fn main() {
    match std::env::args().nth(1).as_deref() {
        Some("cases") => {
            chars::print();
            texts::print();
            sizes::print();
        }
        Some("walks") => walks::print(),
        _ => panic!("cases or walks"),
    }
}
