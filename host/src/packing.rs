//! A run of `pack` or `unpack`: a list from text to its packed form, or back; and the text of a list that
//! another command is given, packed or not.
use crate::input::Source;
use crate::output::{self, Sink};
use crate::report::{self, Read};
use crate::say;
use crate::trouble::Trouble;
use choughbell::{Refusal, LIST_LIMIT, PACKED_LIMIT};

/// What is asked for.
#[derive(PartialEq, Eq, Debug)]
pub struct Packing {
    /// Back from the packed form to text.
    pub back: bool,
    pub list: Source,
    pub output: Sink,
    pub quiet: bool,
    pub json: bool,
}

pub fn run(packing: &Packing) -> Result<u8, Trouble> {
    let list = read(&packing.list, packing.back)?;
    let done = if packing.back { choughbell::unpack_of(&list.bytes) } else { choughbell::pack_of(&list.bytes) };
    match done {
        Ok(bytes) => {
            packing.output.write(&bytes)?;
            let length = bytes.len() as u64;
            let mut object = report::numbers(0, length, 0, Some(0), "written");
            object.number("length", length);
            numbers(packing, || object.line())?;
            Ok(0)
        }
        Err(refusal) => refused(packing, refusal, &list),
    }
}

fn refused(packing: &Packing, refusal: Refusal, list: &Read) -> Result<u8, Trouble> {
    let report = report::report(refusal, list, list);
    if !packing.json && !packing.quiet {
        say(&report.message());
    }
    numbers(packing, || report.json(Some(0)))?;
    Ok(refusal.number() as u8)
}

/// A line of JSON where it is asked for: on the standard output, or on the standard error if the list goes, or would go, to the other.
fn numbers(packing: &Packing, line: impl FnOnce() -> String) -> Result<(), Trouble> {
    if packing.json && packing.output == Sink::Standard {
        output::tell(line().trim_end_matches('\n'))?;
    } else if packing.json {
        output::print(&line())?;
    }
    Ok(())
}

/// The bytes of a list for another command, packed or not.
pub fn read(list: &Source, packed: bool) -> Result<Read, Trouble> {
    Read::of(list, if packed { PACKED_LIMIT } else { LIST_LIMIT })
}

/// The text of a list, where it is named as a packed one by the proved reader; a text is judged later, by the call that takes it.
pub fn text(list: &Read, packed: bool) -> Result<Read, Refusal> {
    let bytes = if packed { choughbell::unpack_of(&list.bytes)? } else { list.bytes.clone() };
    Ok(Read { name: list.name.clone(), bytes, size: list.size })
}
