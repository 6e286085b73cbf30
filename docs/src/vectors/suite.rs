// The W3C conformance files: the pack made of those in xmlconf/files, and the suite's verdicts held against a program's. The suite says
// accepted or refused and no more, so the verdicts hold against the answer 0 only.

use crate::asked::{ask, Program};
use crate::made::Case;
use std::fs;
use std::path::Path;

const TABLE: &str = "xmlconf/subset.tsv";
pub const FILES: &str = "xmlconf/files";

/// The files have at most 301 bytes, and no cut is over twice as long as its document.
const ROOM: usize = 1_024;

struct Row {
    file: String,
    accepted: bool,
    class: String,
}

/// The rows of the table, without its head.
fn rows() -> Result<Vec<Row>, String> {
    let table = fs::read_to_string(TABLE).map_err(|e| format!("{TABLE}: {e}"))?;
    table.lines().skip(1).map(row).collect()
}

fn row(line: &str) -> Result<Row, String> {
    let mut fields = line.split('\t');
    match (fields.next(), fields.next(), fields.next()) {
        (Some(file), Some(verdict), Some(class)) if ["accepted", "refused"].contains(&verdict) => {
            Ok(Row { file: file.into(), accepted: verdict == "accepted", class: class.into() })
        }
        _ => Err(format!("{TABLE}: {line}")),
    }
}

fn case(list: &str, doc: &[u8]) -> Case {
    Case { list: list.into(), doc: doc.into(), room: ROOM }
}

/// Every file that is in the repository, plainly selected throughout and then marked throughout.
pub fn cases() -> Result<Vec<Case>, String> {
    let mut cases = Vec::new();
    for row in rows()? {
        if let Ok(doc) = fs::read(Path::new(FILES).join(&row.file)) {
            cases.push(case("//*\n", &doc));
            cases.push(case("//* #\n", &doc));
        }
    }
    Ok(cases)
}

/// Prints how many rows agree, by class and verdict, and each row that does not; says whether all agree.
pub fn verdicts(folder: &str, program: Program) -> Result<bool, String> {
    let rows = rows()?;
    let (mut wrong, mut missing) = (0, 0);
    for class in ["direct", "derived"] {
        for accepted in [true, false] {
            let mut right = 0;
            for row in rows.iter().filter(|r| r.class == class && r.accepted == accepted) {
                match judged(folder, row, program) {
                    None => missing += 1,
                    Some(true) => right += 1,
                    Some(false) => wrong += 1,
                }
            }
            println!("{class} {}: {right} right", verdict(accepted));
        }
    }
    println!("{} rows, {missing} not in {folder}, {wrong} wrong", rows.len());
    Ok(wrong == 0 && missing < rows.len())
}

fn verdict(accepted: bool) -> &'static str {
    if accepted {
        "accepted"
    } else {
        "refused"
    }
}

/// Whether the row's verdict is the program's; nothing if the file is not here.
fn judged(folder: &str, row: &Row, program: Program) -> Option<bool> {
    let doc = fs::read(Path::new(folder).join(&row.file)).ok()?;
    let ([number, place, ..], _) = ask(&case("//*\n", &doc), program);
    let right = (number == 0) == row.accepted;
    if !right {
        println!("wrong: {} should be {}, answer {number} {place}", row.file, verdict(row.accepted));
    }
    Some(right)
}
