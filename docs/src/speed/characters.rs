// The check of a document's characters, in megabytes a second, beside the standard library's UTF-8 alone, which asks for less, and beside
// UTF-8 and a loop over the characters for [2] Char.
use crate::ours::chars::whole::check;
use crate::rounds::{medians, work, Work};
use std::hint::black_box;

const SIZE: usize = 8 << 20;

const TEXTS: [(&str, &str); 5] = [
    ("plain text", "The river rises in the hills, passes two weirs\nand a mill, and is navigable from here on. "),
    ("markup", "<place type=\"village\"><name>Aarau</name><pop>21000</pop></place>\n"),
    ("text with accents", "Orléans, Besançon et Müllheim sont à l'est; Évreux n'y est pas. "),
    ("Chinese text", "河流发源于山区流经两座水坝和一座磨坊"),
    ("Cyrillic text", "река берёт начало в горах и впадает в озеро за городом "),
];

/// What a check is called, and what it answers: how many bytes at the front are well-formed, or characters.
type Check = (&'static str, fn(&[u8]) -> usize);

/// The library's: the source read as Rust, and as the toolchain compiles it.
const OURS: [Check; 2] = [("as Rust", said), ("ours", crate::linked::check)];

/// As the exported function says it.
fn said(s: &[u8]) -> usize {
    match check(s) {
        Ok(()) => s.len(),
        Err(e) => e.valid_up_to,
    }
}

/// Megabytes a second of each check on some eight megabytes of a text.
fn rates(piece: &str, checks: &[Check]) -> Vec<f64> {
    let text = piece.repeat(SIZE / piece.len());
    let s = text.as_bytes();
    let mut works: Vec<Work> = Vec::new();
    for &(what, check) in checks {
        assert_eq!(check(s), s.len(), "{what}");
        works.push(work(move || check(black_box(s))));
    }
    medians(&mut works).iter().map(|seconds| s.len() as f64 / seconds / 1e6).collect()
}

pub fn measure() {
    println!("The check of characters, MB/s, and how many times as fast as UTF-8 alone, and as UTF-8 and Char");
    let mut checks: Vec<Check> = OURS.to_vec();
    checks.push(("UTF-8 alone", |s| std::str::from_utf8(s).map_or(0, str::len)));
    checks.push(("UTF-8, Char", crate::plain::chars::check));
    print!("{:<20}", "text");
    checks.iter().for_each(|(what, _)| print!("{what:>14}"));
    println!("{:>10}{:>10}", "ratio", "ratio");
    for (text, piece) in TEXTS {
        let rates = rates(piece, &checks);
        print!("{text:<20}");
        rates.iter().for_each(|rate| print!("{rate:>14.0}"));
        let ours = rates[OURS.len() - 1];
        println!("{:>10.2}{:>10.2}", ours / rates[OURS.len()], ours / rates[OURS.len() + 1]);
    }
}
