// Lists for the gazetteer: 32 paths of 8 steps each, the same with steps that stay, and with a test on each line; a thin one, as for an
// atlas; and whole entries, as for a search desk. A thin list names elements and takes nothing under them; a marked path takes all.
use crate::gazetteer::KINDS;
use crate::numbers::Numbers;

pub const ATLAS: &str = "//country\n//commune\n//hamlet/name\n";
pub const DESK: &str = "//commune #\n";

const PATHS: usize = 32;
const STEPS: usize = 8;
const LEAVES: [&str; 6] = ["name", "pos", "pop", "note", "farm", "owner"];
const ABSENT: [&str; 4] = ["lake", "mill", "canton", "quarter"];

/// Eight names: from the root or a kind of place on down, or, in a path of three, in any order. In a path of two the last is what is said
/// of a place.
fn names(numbers: &mut Numbers) -> Vec<&'static str> {
    let chain = [&["gazetteer"][..], &KINDS].concat();
    let mut names: Vec<&str> = match numbers.once_in(3) {
        true => (0..STEPS).map(|_| *numbers.of(&chain)).collect(),
        false => {
            let from = numbers.below(chain.len() - STEPS + 1);
            chain[from..from + STEPS].to_vec()
        }
    };
    if numbers.once_in(2) {
        names[STEPS - 1] = *numbers.of(&LEAVES);
    }
    names
}

/// The first step descends where the first name is not the root's; of the others one in two does. A step in five is `*`, but not the last,
/// and one in 25 has a name that no place has. A path in four is marked. `between` stands before each step but the first, `test` behind
/// the last.
fn list(between: &str, test: &str) -> String {
    let mut numbers = Numbers(4);
    let mut list = String::new();
    for _ in 0..PATHS {
        for (j, name) in names(&mut numbers).into_iter().enumerate() {
            let descends = if j == 0 { name != "gazetteer" } else { numbers.once_in(2) };
            list += if j == 0 { "" } else { between };
            list += if descends { "//" } else { "/" };
            list += match numbers.below(25) {
                0..=4 if j + 1 < STEPS => "*",
                5 => *numbers.of(&ABSENT),
                _ => name,
            };
        }
        list += test;
        list += if numbers.once_in(4) { " #\n" } else { "\n" };
    }
    list
}

pub fn long() -> String {
    list("", "")
}

/// What it selects is what `long` does: each step that is put in passes where the one before it stands.
pub fn staying() -> String {
    list("/self::*", "")
}

/// Most places have a name, and it is another.
pub fn tested() -> String {
    list("", "[@name=\"Aulne\"]")
}
