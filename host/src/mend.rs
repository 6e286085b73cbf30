//! A run of `mend`: reads a document that stops half way, asks the library, writes what it makes of it, and says in one line what was kept,
//! what was lost and what was added. Gives the exit status.
use crate::input::Source;
use crate::json::Object;
use crate::output::{self, Sink};
use crate::places;
use crate::progress;
use crate::report::{self, Read};
use crate::trouble::Trouble;
use choughbell::{Mended, DOCUMENT_LIMIT};

/// What is asked for.
#[derive(PartialEq, Eq, Debug)]
pub struct Mending {
    pub document: Source,
    pub output: Sink,
    pub quiet: bool,
    pub json: bool,
}

pub fn run(task: &Mending) -> Result<u8, Trouble> {
    let document = Read::of(&task.document, DOCUMENT_LIMIT)?;
    match progress::during("mending", || choughbell::mend_of(&document.bytes)) {
        Ok(mended) => {
            task.output.write(&mended.bytes)?;
            let line = format!("{}: {}", document.name, summary(&document.bytes, &mended));
            let length = mended.bytes.len() as u64;
            let mut object = numbers(0, length, mended.kept, mended.added, "mended");
            object.number("length", length);
            tell(task, &line, object.line())?;
            Ok(0)
        }
        Err(refusal) => {
            let report = report::report(refusal, &Read::default(), &document);
            tell(task, &report.message(), report.placed(numbers(refusal.number(), refusal.second(), 0, 0, refusal.meaning())))?;
            Ok(refusal.number() as u8)
        }
    }
}

/// What was kept, what was lost and from which line on, and what was added. Where nothing was lost or added the document is whole.
fn summary(document: &[u8], mended: &Mended) -> String {
    let (all, kept) = (document.len(), mended.kept as usize);
    let added = match mended.added {
        0 => "added no end tag".to_string(),
        1 => "added 1 end tag".to_string(),
        n => format!("added {n} end tags"),
    };
    if kept == all && mended.added == 0 {
        format!("whole: kept all {all} bytes, {added}")
    } else if kept == all {
        format!("kept all {all} bytes, {added}")
    } else {
        let line = places::line_and_column(document, kept).0;
        format!("kept {kept} of {all} bytes, lost {} from line {line} on, {added}", all - kept)
    }
}

/// The numbers, as the members that every answer of `mend` has.
fn numbers(number: u64, second: u64, kept: u64, added: u64, meaning: &str) -> Object {
    let mut object = Object::new();
    object.number("number", number);
    object.number("second", second);
    object.number("kept", kept);
    object.number("added", added);
    object.string("meaning", meaning);
    object
}

/// The line for a person on the standard error; or a line of JSON, on the standard output, or on the standard error if the document goes,
/// or would go, to the other.
fn tell(task: &Mending, line: &str, json: String) -> Result<(), Trouble> {
    if task.json && task.output != Sink::Standard {
        return output::print(&json);
    }
    if task.json {
        return output::tell(json.trim_end_matches('\n'));
    }
    // What is lost has to be told, also where it is told to nobody.
    if task.quiet {
        Ok(())
    } else {
        output::tell(line)
    }
}

#[cfg(test)]
mod tests {
    use super::*;

    fn said(document: &[u8]) -> String {
        summary(document, &choughbell::mend_of(document).unwrap())
    }

    #[test]
    fn one_line_says_what_was_kept_lost_and_added() {
        assert_eq!(said(b"<g><n>Aar"), "kept 6 of 9 bytes, lost 3 from line 1 on, added 2 end tags");
        assert_eq!(said(b"<g>\n<n>a</n>\n<n"), "kept 13 of 15 bytes, lost 2 from line 3 on, added 1 end tag");
        assert_eq!(said(b"<g/>x"), "kept 4 of 5 bytes, lost 1 from line 1 on, added no end tag");
        assert_eq!(said(b"<g>"), "kept all 3 bytes, added 1 end tag");
        assert_eq!(said(b"<g/>\n"), "whole: kept all 5 bytes, added no end tag");
    }
}
