//! A run of `rows`: reads, asks the library, and writes the table or says why there is none. Gives the exit status.
use crate::each;
use crate::input::Source;
use crate::output::{self, Sink};
use crate::paths::Paths;
use crate::progress;
use crate::report::{self, Read};
use crate::say;
use crate::trouble::Trouble;
use choughbell::{Refusal, Rows, DOCUMENT_LIMIT};

/// What is asked for.
#[derive(PartialEq, Eq, Debug)]
pub struct Table {
    pub paths: Paths,
    pub document: Source,
    pub output: Sink,
    pub quiet: bool,
    pub json: bool,
}

pub fn run(table: &Table) -> Result<u8, Trouble> {
    let list = table.paths.read()?;
    let document = Read::of(&table.document, DOCUMENT_LIMIT)?;
    let list = match table.paths.text(&list) {
        Ok(text) => text,
        Err(refusal) => return refused(table, refusal, &list, &document),
    };
    match progress::during("making the table", || choughbell::rows_of(&list.bytes, &document.bytes)) {
        Ok(rows) => written(table, &rows, &list, &document).map(|()| 0),
        Err(refusal) => refused(table, refusal, &list, &document),
    }
}

/// Under 0: the table goes where it is to go. Lines that select nothing are told, as `cut` tells them.
fn written(table: &Table, rows: &Rows, list: &Read, document: &Read) -> Result<(), Trouble> {
    table.output.write(&rows.bytes)?;
    if table.json {
        let length = rows.bytes.len() as u64;
        let mut object = report::three(0, length, rows.selected, "written");
        object.number("length", length);
        object.number("selected", rows.selected);
        return numbers(table, &object.line());
    }
    if !table.quiet {
        let each = progress::during("counting", || {
            // Taken by the call before, so never refused.
            let cut = choughbell::cut_of(&list.bytes, &document.bytes).map_or(Vec::new(), |cut| cut.bytes);
            each::each(&list.bytes, &document.bytes, &cut)
        });
        each::idle(list, &each).iter().for_each(|line| say(line));
    }
    Ok(())
}

fn refused(table: &Table, refusal: Refusal, list: &Read, document: &Read) -> Result<u8, Trouble> {
    let report = report::report(refusal, list, document);
    if table.json {
        numbers(table, &report.placed(report::three(refusal.number(), refusal.second(), 0, meaning(refusal))))?;
    } else if !table.quiet {
        say(&message(refusal, document, report.message()));
    }
    Ok(refusal.number() as u8)
}

/// Under 9 it is the table for which there is no room.
fn meaning(refusal: Refusal) -> &'static str {
    match refusal {
        Refusal::Short { .. } => "output shorter than the table",
        _ => refusal.meaning(),
    }
}

/// Under 9 there is no memory for the table, so its length is told.
fn message(refusal: Refusal, document: &Read, message: String) -> String {
    match refusal {
        Refusal::Short { needed } => format!("{}: 9: {}, of {needed} bytes: no memory for it", document.name, meaning(refusal)),
        _ => message,
    }
}

/// A line of JSON: on the standard output, or on the standard error if the table goes, or would go, to the other.
fn numbers(table: &Table, line: &str) -> Result<(), Trouble> {
    if table.output == Sink::Standard {
        return output::tell(line.trim_end_matches('\n'));
    }
    output::print(line)
}

#[cfg(test)]
mod tests {
    use super::*;

    #[test]
    fn the_length_of_a_table_without_memory_is_told() {
        let document = Read::whole("m.xml".to_string(), Vec::new());
        let refusal = Refusal::Short { needed: 67_108_864_000 };
        let said = message(refusal, &document, String::new());
        assert_eq!(said, "m.xml: 9: output shorter than the table, of 67108864000 bytes: no memory for it");
    }
}
