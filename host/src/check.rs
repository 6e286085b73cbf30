//! A run of `check`: reads one document after the other, asks the library, and says which would not be taken. One that is refused or can't
//! be read does not end the run. Gives the exit status: 0, or the first other one.
use crate::input::Source;
use crate::output;
use crate::progress;
use crate::report::{self, Read};
use crate::say;
use crate::trouble::Trouble;
use choughbell::DOCUMENT_LIMIT;

/// What is asked for.
#[derive(PartialEq, Eq, Debug)]
pub struct Checking {
    pub documents: Vec<Source>,
    pub quiet: bool,
    pub json: bool,
}

pub fn run(checking: &Checking) -> Result<u8, Trouble> {
    let mut status = 0;
    for source in &checking.documents {
        let next = match one(checking, source) {
            // What is printed can't be: then there is no more to do.
            Ok(next) => next?,
            Err(Trouble { status, message }) => {
                if let Some(message) = message.filter(|_| !checking.quiet) {
                    say(&format!("choughbell: {message}"));
                }
                status
            }
        };
        status = if status == 0 { next } else { status };
    }
    Ok(status)
}

/// The status of one document, or why it can't be read; or why the answer can't be printed.
fn one(checking: &Checking, source: &Source) -> Result<Result<u8, Trouble>, Trouble> {
    let document = Read::of(source, DOCUMENT_LIMIT)?;
    let refusal = match progress::during("checking", || choughbell::check(&document.bytes)) {
        Ok(()) => return Ok(sound(checking, &document).map(|()| 0)),
        Err(refusal) => refusal,
    };
    let report = report::report(refusal, &Read::default(), &document);
    if checking.json {
        return Ok(output::print(&report.json(Some(0))).map(|()| refusal.number() as u8));
    }
    if !checking.quiet {
        say(&report.message());
    }
    Ok(Ok(refusal.number() as u8))
}

/// There are no numbers but 0. Of several documents JSON names each.
fn sound(checking: &Checking, document: &Read) -> Result<(), Trouble> {
    if !checking.json {
        return Ok(());
    }
    let mut object = report::numbers(0, 0, 0, Some(0), "sound");
    if checking.documents.len() > 1 {
        object.string("file", &document.name);
    }
    output::print(&object.line())
}
