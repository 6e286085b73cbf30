// Makes the cases that the filter is held to, and their answers by the second program (docs/src/second), which shares nothing with the
// filter. Here are the commands; the cases are in named/ (by hand) and the library's suite.rs (W3C files) and made/ (by a generator),
// the files that hold them in its pack.rs, a case asked and its digest in its asked.rs and crc.rs, a case shown in show.rs, and the
// cases of the other calls in its calls.rs. It is run from the repository's top; `make target/rust/vectors` builds it.

mod named;
mod show;

use std::fs;
use std::process::ExitCode;
use vectors::asked::{ask, line, second};
use vectors::calls::CALLS;
use vectors::four;
use vectors::made::{self, Case, Random};
use vectors::pack::{self, read, PACKS};
use vectors::rows;
use vectors::suite;

/// The seed of the pack `made`, and how many cases it has at least. The last batch is not broken off.
const SEED: u64 = 19_980_210;
const MADE: usize = 24_000;

const COMMANDS: &str =
    "pack FOLDER | answers FOLDER | calls [FOLDER] | tables FOLDER | verdicts [--folder DIR] | counts FOLDER | show FOLDER PACK N";

fn main() -> ExitCode {
    let words: Vec<String> = std::env::args().skip(1).collect();
    let words: Vec<&str> = words.iter().map(String::as_str).collect();
    let done = match words[..] {
        ["pack", folder] => write(folder),
        ["answers", folder] => answers(folder),
        ["calls"] => calls(),
        ["calls", folder] => write_calls(folder),
        ["tables", folder] => write_tables(folder),
        ["verdicts"] => suite::verdicts(suite::FILES, second),
        ["verdicts", "--folder", folder] => suite::verdicts(folder, second),
        ["counts", folder] => counts(folder),
        ["show", folder, pack, n] => show(folder, pack, n),
        _ => Err(COMMANDS.into()),
    };
    match done {
        Ok(true) => ExitCode::SUCCESS,
        Ok(false) => ExitCode::from(1),
        Err(why) => {
            eprintln!("{why}");
            ExitCode::from(2)
        }
    }
}

/// Writes the packs, if the second program says of every named case what is written by hand.
fn write(folder: &str) -> Result<bool, String> {
    if !named::agree() {
        return Ok(false);
    }
    fs::create_dir_all(folder).map_err(|e| format!("{folder}: {e}"))?;
    for (name, cases) in PACKS.iter().zip([suite::cases()?, named::cases(), made_cases()]) {
        let bytes = pack::write(&cases);
        println!("{name}: {} cases, {} bytes", cases.len(), bytes.len());
        fs::write(format!("{folder}/{name}"), bytes).map_err(|e| format!("{folder}/{name}: {e}"))?;
    }
    Ok(true)
}

fn made_cases() -> Vec<Case> {
    let mut random = Random::new(SEED);
    let mut cases = Vec::new();
    while cases.len() < MADE {
        cases.append(&mut made::batch(&mut random));
    }
    cases
}

fn answers(folder: &str) -> Result<bool, String> {
    for name in PACKS {
        println!("{name}");
        for case in read(folder, name)? {
            println!("{}", line(&case, second));
        }
    }
    Ok(true)
}

/// How many cases each of the other calls has, by number, and the sum of their answers, if the second program says of every case by hand
/// what is told of it.
fn calls() -> Result<bool, String> {
    let mut is_right = true;
    for call in CALLS {
        is_right &= call.agrees();
        println!("{}\n{}", call.summary("by hand", &call.by_hand()), call.summary("by the generator", &call.generated()));
    }
    is_right &= four::agrees();
    println!("{}\n{}", four::summary("by hand", &four::by_hand()), four::summary("by the generator", &four::generated()));
    Ok(is_right)
}

/// Writes the cases of each of the other calls as a pack, those by hand first, and beside it the answers by the second program.
fn write_calls(folder: &str) -> Result<bool, String> {
    fs::create_dir_all(folder).map_err(|e| format!("{folder}: {e}"))?;
    for call in CALLS {
        let cases = [call.by_hand(), call.generated()].concat();
        let answers: String = cases.iter().map(|case| call.line(case) + "\n").collect();
        save(folder, call.name, &pack::write(&cases))?;
        save(folder, &format!("{}.answers", call.name), answers.as_bytes())?;
    }
    Ok(true)
}

/// Writes documents and their tables by the second program, for others to read.
fn write_tables(folder: &str) -> Result<bool, String> {
    fs::create_dir_all(folder).map_err(|e| format!("{folder}: {e}"))?;
    for (n, (doc, table)) in rows::tables().iter().enumerate() {
        save(folder, &format!("{n}.xml"), doc)?;
        save(folder, &format!("{n}.csv"), table)?;
    }
    Ok(true)
}

fn save(folder: &str, name: &str, bytes: &[u8]) -> Result<(), String> {
    fs::write(format!("{folder}/{name}"), bytes).map_err(|e| format!("{folder}/{name}: {e}"))
}

/// How many cases each pack has, in all and by number.
fn counts(folder: &str) -> Result<bool, String> {
    for name in PACKS {
        let cases = read(folder, name)?;
        let mut by_number = [0; 11];
        for case in &cases {
            by_number[ask(case, second).0[0] as usize] += 1;
        }
        println!("{name}: {} cases", cases.len());
        for (number, count) in by_number.iter().enumerate() {
            println!("  {number}: {count}, {:.1} %", 100.0 * f64::from(*count) / cases.len() as f64);
        }
    }
    Ok(true)
}

/// Case N of a pack, from 1, so that it is the Nth line after the pack's name in the answers.
fn show(folder: &str, name: &str, n: &str) -> Result<bool, String> {
    let cases = read(folder, name)?;
    let place: usize = n.parse().map_err(|e| format!("{n}: {e}"))?;
    let case = place.checked_sub(1).and_then(|i| cases.get(i));
    show::show(case.ok_or(format!("{name} has cases 1 to {}", cases.len()))?);
    Ok(true)
}
