//! A run of `covers`: asks the library whether every path of a narrow list is covered by one of a wide list, and says yes, or names each
//! narrow line that nothing covers. Where that is so, the wide list's cut of a document serves the narrow list as the document does.
use crate::input::Source;
use crate::output;
use crate::packing;
use crate::places;
use crate::report::{self, Read};
use crate::say;
use crate::trouble::Trouble;
use choughbell::{Refusal, Which};

/// The exit status where a narrow line is not covered. It is no number of an answer: under 0 and 0 both lists are sound.
pub const UNCOVERED: u8 = 20;

/// What is asked for.
#[derive(PartialEq, Eq, Debug)]
pub struct Asked {
    pub narrow: Source,
    pub wide: Source,
    /// Both lists are in their packed form.
    pub packed: bool,
    pub quiet: bool,
    pub json: bool,
}

pub fn run(asked: &Asked) -> Result<u8, Trouble> {
    let narrow = packing::read(&asked.narrow, asked.packed)?;
    let wide = packing::read(&asked.wide, asked.packed)?;
    let narrow = match packing::text(&narrow, asked.packed) {
        Ok(text) => text,
        Err(refusal) => return refused(asked, Which::Narrow, refusal, &narrow),
    };
    let wide = match packing::text(&wide, asked.packed) {
        Ok(text) => text,
        Err(refusal) => return refused(asked, Which::Wide, refusal, &wide),
    };
    match choughbell::covers_of(&narrow.bytes, &wide.bytes) {
        Ok(true) => {
            answer(asked, "yes\n", || json(1, "covered", &[]))?;
            Ok(0)
        }
        Ok(false) => {
            let lines = uncovered(&narrow.bytes, &wide.bytes);
            answer(asked, &named(&lines, &narrow, &wide), || json(0, "not covered", &lines))?;
            Ok(UNCOVERED)
        }
        Err((which, refusal)) => refused(asked, which, refusal, if which == Which::Narrow { &narrow } else { &wide }),
    }
}

/// One of the lists is refused: the third number says which.
fn refused(asked: &Asked, which: Which, refusal: Refusal, list: &Read) -> Result<u8, Trouble> {
    let report = report::report(refusal, list, list);
    if !asked.json && !asked.quiet {
        say(&report.message());
    }
    if asked.json {
        output::print(&report.placed(report::three(refusal.number(), refusal.second(), which.number(), refusal.meaning())))?;
    }
    Ok(refusal.number() as u8)
}

/// The text, or the line of JSON where that is asked for, on the standard output.
fn answer(asked: &Asked, text: &str, line: impl FnOnce() -> String) -> Result<(), Trouble> {
    match (asked.json, asked.quiet) {
        (true, _) => output::print(&line()),
        (false, true) => Ok(()),
        (false, false) => output::print(text),
    }
}

/// The narrow lines that no wide path covers, from 1: each asked for as a list of its own.
fn uncovered(narrow: &[u8], wide: &[u8]) -> Vec<u64> {
    let lines = narrow.split_inclusive(|&b| b == b'\n').zip(1..);
    lines.filter(|(line, _)| choughbell::covers_of(line, wide) == Ok(false)).map(|(_, number)| number).collect()
}

/// A line of text for each of them.
fn named(lines: &[u64], narrow: &Read, wide: &Read) -> String {
    let text = |number: u64| {
        let line = narrow.bytes.split(|&b| b == b'\n').nth(number as usize - 1).unwrap_or(b"");
        format!("{}:{number}: no path of {} covers \"{}\"\n", narrow.name, wide.name, places::quoted(line))
    };
    lines.iter().map(|&number| text(number)).collect()
}

fn json(second: u64, meaning: &str, lines: &[u64]) -> String {
    let mut object = report::three(0, second, 0, meaning);
    object.numbers("uncovered", lines);
    object.line()
}

#[cfg(test)]
mod tests {
    use super::*;

    fn list(name: &str, bytes: &[u8]) -> Read {
        Read::whole(name.to_string(), bytes.to_vec())
    }

    #[test]
    fn each_line_that_nothing_covers_is_named() {
        let (narrow, wide) = (list("n.lst", b"/g/p/v\n/g/v #\n//w\n"), list("w.lst", b"//v\n"));
        let lines = uncovered(&narrow.bytes, &wide.bytes);
        assert_eq!(lines, [2, 3]);
        let said = "n.lst:2: no path of w.lst covers \"/g/v #\"\nn.lst:3: no path of w.lst covers \"//w\"\n";
        assert_eq!(named(&lines, &narrow, &wide), said);
        let numbers = r#""number":0,"second":0,"third":0"#;
        assert_eq!(json(0, "not covered", &lines), format!("{{{numbers},\"meaning\":\"not covered\",\"uncovered\":[2,3]}}\n"));
    }
}
