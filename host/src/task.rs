//! A run of `cut`: reads, asks the library, and writes the cut or says why there is none. Gives the exit status.
use crate::each;
use crate::input::Source;
use crate::json::Object;
use crate::output::{self, Sink};
use crate::paths::Paths;
use crate::progress;
use crate::report::{self, Read};
use crate::say;
use crate::trouble::Trouble;
use choughbell::{Refusal, DOCUMENT_LIMIT};

/// What is asked for.
#[derive(PartialEq, Eq, Debug)]
pub struct Task {
    pub paths: Paths,
    pub document: Source,
    /// Where the cut goes; nowhere under `--count` and `--each`.
    pub output: Option<Sink>,
    /// The numbers of the cut, and those of each line.
    pub count: bool,
    pub each: bool,
    /// By the plain engine, which counts no name tests.
    pub plain: bool,
    pub quiet: bool,
    pub json: bool,
}

/// A cut by either engine.
struct Made {
    cut: Vec<u8>,
    selected: u64,
    name_tests: Option<u64>,
}

pub fn run(task: &Task) -> Result<u8, Trouble> {
    let list = task.paths.read()?;
    let document = Read::of(&task.document, DOCUMENT_LIMIT)?;
    let list = match task.paths.text(&list) {
        Ok(text) => text,
        Err(refusal) => return refused(task, refusal, &list, &document),
    };
    match progress::during("cutting", || make(task, &list.bytes, &document.bytes)) {
        Ok(made) => written(task, &made, &list, &document).map(|()| 0),
        Err(refusal) => refused(task, refusal, &list, &document),
    }
}

fn make(task: &Task, list: &[u8], document: &[u8]) -> Result<Made, Refusal> {
    if task.plain {
        choughbell::plain_of(list, document).map(|cut| Made { cut: cut.bytes, selected: cut.selected, name_tests: None })
    } else {
        let cut = choughbell::cut_of(list, document);
        cut.map(|cut| Made { cut: cut.bytes, selected: cut.selected, name_tests: Some(cut.name_tests) })
    }
}

/// Under 0: the cut goes where it is to go, and the numbers where they are asked for.
fn written(task: &Task, made: &Made, list: &Read, document: &Read) -> Result<(), Trouble> {
    let length = made.cut.len() as u64;
    if let Some(output) = &task.output {
        output.write(&made.cut)?;
    }
    // JSON has no messages beside it, so that lines which select nothing are told there by `--each` alone.
    if task.quiet || (task.json && !task.each) {
        return numbers(task, || object(made).line());
    }
    let each = progress::during("counting", || each::each(&list.bytes, &document.bytes, &made.cut));
    if task.json {
        let mut object = object(made);
        object.numbers("each", &each);
        return numbers(task, || object.line());
    }
    let mut text = String::new();
    if task.count {
        let tried = made.name_tests.map_or(String::new(), |tests| format!("name tests {tests}\n"));
        text = format!("kept {} {length}\n{tried}", made.selected);
    }
    if task.each {
        text += &each::text(&list.bytes, &each);
    }
    if task.output.is_none() {
        output::print(&text)?;
    }
    each::idle(list, &each).iter().for_each(|line| say(line));
    Ok(())
}

/// The numbers, and the later ones again by what they are.
fn object(made: &Made) -> Object {
    let length = made.cut.len() as u64;
    let mut object = report::numbers(0, length, made.selected, made.name_tests, "written");
    object.number("length", length);
    object.number("selected", made.selected);
    if let Some(name_tests) = made.name_tests {
        object.number("tests", name_tests);
    }
    object
}

fn refused(task: &Task, refusal: Refusal, list: &Read, document: &Read) -> Result<u8, Trouble> {
    let report = report::report(refusal, list, document);
    if !task.json && !task.quiet {
        say(&report.message());
    }
    let name_tests = if task.plain { None } else { Some(0) };
    numbers(task, || report.json(name_tests))?;
    Ok(refusal.number() as u8)
}

/// A line of JSON where it is asked for: on the standard output, or on the standard error if the cut goes, or would go, to the other.
fn numbers(task: &Task, line: impl FnOnce() -> String) -> Result<(), Trouble> {
    if !task.json {
        return Ok(());
    }
    if task.output == Some(Sink::Standard) {
        return output::tell(line().trim_end_matches('\n'));
    }
    output::print(&line())
}
