//! The words of the command line: which command it is and what it is to do; or, where they are wrong, a line that says why. One table has
//! the options, another the commands and which of the options each takes. File names are bytes of any kind and stay as they are.
use crate::batch::{Post, Way};
use crate::check::Checking;
use crate::clients::{Client, Clients, SEATS};
use crate::covers::Asked;
use crate::explain;
use crate::input::Source;
use crate::mend::Mending;
use crate::output::Sink;
use crate::packing::Packing;
use crate::paths::Paths;
use crate::show::Showing;
use crate::shown;
use crate::table::Table;
use crate::task::Task;
use std::collections::HashSet;
use std::ffi::{OsStr, OsString};
use std::os::unix::ffi::{OsStrExt, OsStringExt};
use std::path::PathBuf;

#[derive(PartialEq, Eq, Debug)]
pub enum Request {
    Task(Task),
    Clients(Clients),
    Check(Checking),
    Batch(Post),
    Packing(Packing),
    Covers(Asked),
    Mend(Mending),
    Rows(Table),
    Show(Showing),
    /// The text on a number, or the list of all.
    Explain(String),
    Help,
    Version,
}

/// An option: its name, its letter, and what its value is where it takes one.
struct Known {
    name: &'static str,
    letter: Option<u8>,
    value: Option<&'static str>,
}

const fn known(name: &'static str, letter: Option<u8>, value: Option<&'static str>) -> Known {
    Known { name, letter, value }
}

const FILE: Option<&str> = Some("a file's name");
const OPTIONS: [Known; 14] = [
    known("--list", Some(b'l'), FILE),
    known("--path", Some(b'e'), Some("a path")),
    known("--output", Some(b'o'), FILE),
    known("--folder", Some(b'd'), FILE),
    known("--narrow", None, FILE),
    known("--wide", None, FILE),
    known("--packed", None, None),
    known("--count", None, None),
    known("--each", None, None),
    known("--plain", None, None),
    known("--quiet", Some(b'q'), None),
    known("--json", None, None),
    known("--help", Some(b'h'), None),
    known("--version", Some(b'V'), None),
];

/// The commands, what reads the rest of their words, and which options they take besides `--help` and `--version`.
type Reading = fn(&str, Given) -> Result<Request, String>;
const COMMANDS: [(&str, Reading, &[&str]); 10] = [
    ("cut", cut, &["--list", "--path", "--packed", "--output", "--count", "--each", "--plain", "--quiet", "--json"]),
    ("rows", rows, &["--list", "--path", "--packed", "--output", "--quiet", "--json"]),
    ("check", check, &["--quiet", "--json"]),
    ("batch", batch, &["--list", "--path", "--packed", "--output", "--folder", "--quiet", "--json"]),
    ("pack", packing, &["--output", "--quiet", "--json"]),
    ("unpack", packing, &["--output", "--quiet", "--json"]),
    ("covers", covers, &["--narrow", "--wide", "--packed", "--quiet", "--json"]),
    ("mend", mend, &["--output", "--quiet", "--json"]),
    ("show", show, &["--list", "--path", "--packed", "--output", "--quiet"]),
    ("explain", explain, &[]),
];

/// What `cut` takes again, for several clients.
const PAIR: [&str; 2] = ["--list", "--output"];

/// Options and names as they were given, before it is asked whether they go together.
#[derive(Default)]
struct Given {
    options: Vec<(&'static str, OsString)>,
    names: Vec<OsString>,
}

/// What the words ask for. The first is the command.
pub fn read(mut words: impl Iterator<Item = OsString>) -> Result<Request, String> {
    const WHICH: &str = "it is cut, rows, check, batch, pack, unpack, covers, mend, show or explain";
    let first = words.next().ok_or(format!("there is no command: {WHICH}"))?;
    match first.as_bytes() {
        b"help" | b"--help" | b"-h" => return Ok(Request::Help),
        b"version" | b"--version" | b"-V" => return Ok(Request::Version),
        _ => {}
    }
    let command = COMMANDS.iter().find(|(name, ..)| first == *name);
    let (name, reading, taken) = command.ok_or(format!("there is no command {}: {WHICH}", word(&first)))?;
    let given = given(words)?;
    if given.has("--help") {
        return Ok(Request::Help);
    }
    if given.has("--version") {
        return Ok(Request::Version);
    }
    if let Some((option, _)) = given.options.iter().find(|(option, _)| !taken.contains(option)) {
        return Err(format!("{name} takes no {option}"));
    }
    if let Some(option) = given.again().find(|option| *name != "cut" || !PAIR.contains(option)) {
        return Err(format!("{option} is given twice"));
    }
    if given.has("--quiet") && given.has("--json") {
        return Err("--quiet and --json don't go together".to_string());
    }
    reading(name, given)
}

fn word(word: &OsStr) -> String {
    shown::all(word.as_bytes())
}

fn given(mut words: impl Iterator<Item = OsString>) -> Result<Given, String> {
    let mut given = Given::default();
    while let Some(word) = words.next() {
        match word.as_bytes() {
            b"--" => given.names.extend(words.by_ref()),
            [b'-', b'-', ..] => given.long(&word, &mut words)?,
            [b'-', letters @ ..] if !letters.is_empty() => given.letters(&word, letters, &mut words)?,
            _ => given.names.push(word),
        }
    }
    Ok(given)
}

impl Given {
    fn has(&self, name: &str) -> bool {
        self.value(name).is_some()
    }

    /// The value of an option, which is empty where it takes none.
    fn value(&self, name: &str) -> Option<&OsStr> {
        self.options.iter().find(|(option, _)| *option == name).map(|(_, value)| value.as_os_str())
    }

    /// `--list NAME`, `--list=NAME`, `--count`.
    fn long(&mut self, whole: &OsStr, words: &mut impl Iterator<Item = OsString>) -> Result<(), String> {
        let bytes = whole.as_bytes();
        let end = bytes.iter().position(|&b| b == b'=').unwrap_or(bytes.len());
        let option = OPTIONS.iter().find(|option| option.name.as_bytes() == &bytes[..end]);
        let option = option.ok_or(format!("there is no option {}", word(whole)))?;
        let joined = bytes.get(end + 1..).map(|rest| OsString::from_vec(rest.to_vec()));
        if option.value.is_none() && joined.is_some() {
            return Err(format!("{} takes no value", option.name));
        }
        self.take(option, joined, words)
    }

    /// `-l NAME`, `-lNAME`, `-q`, `-ql NAME`: letters of flags, and then perhaps one that takes a value.
    fn letters(&mut self, whole: &OsStr, letters: &[u8], words: &mut impl Iterator<Item = OsString>) -> Result<(), String> {
        for (at, letter) in letters.iter().enumerate() {
            let option = OPTIONS.iter().find(|option| option.letter == Some(*letter));
            let option = option.ok_or(format!("there is no option {}", word(whole)))?;
            if option.value.is_none() {
                self.take(option, None, words)?;
                continue;
            }
            let rest = &letters[at + 1..];
            let joined = Some(rest).filter(|rest| !rest.is_empty()).map(|rest| OsString::from_vec(rest.to_vec()));
            return self.take(option, joined, words);
        }
        Ok(())
    }

    /// Takes an option, and the next word where that is its value.
    fn take(&mut self, option: &Known, joined: Option<OsString>, words: &mut impl Iterator<Item = OsString>) -> Result<(), String> {
        let value = match option.value {
            None => OsString::new(),
            Some(kind) => joined.or_else(|| words.next()).ok_or(format!("{} wants {kind}", option.name))?,
        };
        self.options.push((option.name, value));
        Ok(())
    }

    /// The options with a value that are given once more. Paths may be, and are left out.
    fn again(&self) -> impl Iterator<Item = &'static str> + '_ {
        let again = |at: usize, name: &str| self.options[..at].iter().any(|(option, _)| *option == name);
        let valued = |name: &str| name != "--path" && OPTIONS.iter().any(|option| option.name == name && option.value.is_some());
        let options = self.options.iter().enumerate().map(|(at, (name, _))| (at, *name));
        options.filter(move |&(at, name)| valued(name) && again(at, name)).map(|(_, name)| name)
    }

    /// Where the output goes.
    fn output(&self) -> Sink {
        self.value("--output").map_or(Sink::Standard, Sink::named)
    }

    /// The only name, of `what`, or the standard input.
    fn only(&self, command: &str, what: &str) -> Result<Source, String> {
        match self.names.as_slice() {
            [] => Ok(Source::Standard),
            [name] => Ok(Source::named(name)),
            [_, second, ..] => Err(format!("{command} takes one {what}, and {} is a second", word(second))),
        }
    }

    /// The paths of a command that cuts: a list, paths of the command line, or both.
    fn paths(&self, wanted: &str) -> Result<Paths, String> {
        let list = self.value("--list").map(Source::named);
        let more: Vec<&OsStr> = self.options.iter().filter(|(name, _)| *name == "--path").map(|(_, path)| path.as_os_str()).collect();
        if list.is_none() && more.is_empty() {
            return Err(wanted.to_string());
        }
        if more.iter().any(|path| path.as_bytes().contains(&b'\n')) {
            return Err("--path takes one path, without a line feed".to_string());
        }
        let more = more.iter().map(|path| path.as_bytes().to_vec()).collect();
        Ok(Paths { list, packed: self.has("--packed"), more })
    }
}

/// The paths and the document of a command that takes one of each. `none` says what an empty list does.
fn one_of_each(command: &str, given: &Given, none: &str) -> Result<(Paths, Source), String> {
    let paths = given.paths(&format!("{command} wants a list: -l LIST, or -e PATH{none}"))?;
    let document = given.only(command, "document")?;
    if paths.list == Some(Source::Standard) && document == Source::Standard {
        return Err("the list and the document can't both come from the standard input".to_string());
    }
    Ok((paths, document))
}

const ROOT: &str = "; by -l /dev/null the root alone is kept";

fn show(command: &str, given: Given) -> Result<Request, String> {
    let (paths, document) = one_of_each(command, &given, ROOT)?;
    Ok(Request::Show(Showing { paths, document, output: given.output(), quiet: given.has("--quiet") }))
}

fn cut(command: &str, given: Given) -> Result<Request, String> {
    if given.again().next().is_some() {
        return clients(command, given);
    }
    let (paths, document) = one_of_each(command, &given, ROOT)?;
    let (count, each) = (given.has("--count"), given.has("--each"));
    if (count || each) && given.has("--output") {
        return Err(format!("{} writes no cut, so it takes no --output", if count { "--count" } else { "--each" }));
    }
    let output = Some(given.output()).filter(|_| !count && !each);
    let (plain, quiet, json) = (given.has("--plain"), given.has("--quiet"), given.has("--json"));
    Ok(Request::Task(Task { paths, document, output, count, each, plain, quiet, json }))
}

fn rows(command: &str, given: Given) -> Result<Request, String> {
    let (paths, document) = one_of_each(command, &given, "")?;
    let (output, quiet, json) = (given.output(), given.has("--quiet"), given.has("--json"));
    Ok(Request::Rows(Table { paths, document, output, quiet, json }))
}

/// Several lists, each with its output behind it. Paths stand in place of a list, or behind it and before its output.
fn clients(command: &str, given: Given) -> Result<Request, String> {
    const PAIRS: &str = "-l LIST -o OUTPUT, up to four times";
    if let Some(option) = ["--count", "--each", "--plain"].iter().find(|option| given.has(option)) {
        return Err(format!("{option} takes one list"));
    }
    let document = given.only(command, "document")?;
    let (packed, quiet, json) = (given.has("--packed"), given.has("--quiet"), given.has("--json"));
    let unwritten = || format!("each of several lists wants its own output behind it: {PAIRS}");
    let mut clients: Vec<Client> = Vec::new();
    let mut open = Given::default();
    for (option, value) in given.options {
        match option {
            "--list" if open.has("--list") => return Err(unwritten()),
            "--list" | "--path" => open.options.push((option, value)),
            "--output" => {
                let paths = open.paths(&format!("each of several outputs wants its own list before it: {PAIRS}"))?;
                clients.push(Client { paths: Paths { packed, ..paths }, output: Sink::named(&value) });
                open = Given::default();
            }
            _ => {}
        }
    }
    if !open.options.is_empty() {
        return Err(unwritten());
    }
    if clients.len() > SEATS {
        return Err(format!("cut serves four lists at most, and these are {}", clients.len()));
    }
    let again = |at: usize| clients[..at].iter().any(|client| client.output == clients[at].output);
    if let Some(at) = (0..clients.len()).find(|&at| again(at)) {
        return Err(format!("two cuts can't both go to {}", clients[at].output.name()));
    }
    let lists = clients.iter().filter(|client| client.paths.list == Some(Source::Standard)).count();
    if lists + usize::from(document == Source::Standard) > 1 {
        return Err("only one of the lists and the document can come from the standard input".to_string());
    }
    Ok(Request::Clients(Clients { clients, document, quiet, json }))
}

fn check(_: &str, given: Given) -> Result<Request, String> {
    let mut documents: Vec<Source> = given.names.iter().map(|name| Source::named(name)).collect();
    if documents.is_empty() {
        documents.push(Source::Standard);
    }
    if documents.iter().filter(|&source| *source == Source::Standard).count() > 1 {
        return Err("two documents can't both come from the standard input".to_string());
    }
    Ok(Request::Check(Checking { documents, quiet: given.has("--quiet"), json: given.has("--json") }))
}

fn batch(_: &str, given: Given) -> Result<Request, String> {
    let paths = given.paths("batch wants a list: -l LIST, or -e PATH")?;
    let way = match (given.value("--folder"), given.names.as_slice()) {
        (Some(_), _) if given.has("--output") => return Err("--folder and --output don't go together".to_string()),
        (Some(_), []) => return Err("batch with --folder wants documents".to_string()),
        (Some(folder), names) => Way::Documents(documents(names)?, folder.into()),
        (None, [] | [_]) => {
            let batch = given.names.first().map_or(Source::Standard, |name| Source::named(name));
            if paths.list == Some(Source::Standard) && batch == Source::Standard {
                return Err("the list and the batch can't both come from the standard input".to_string());
            }
            Way::Batch(batch, given.output())
        }
        (None, _) => return Err("batch takes one batch, or with -d FOLDER documents".to_string()),
    };
    Ok(Request::Batch(Post { paths, way, quiet: given.has("--quiet"), json: given.has("--json") }))
}

/// Documents with the names of their cuts, of which no two are the same.
fn documents(names: &[OsString]) -> Result<Vec<(PathBuf, OsString)>, String> {
    let mut seen = HashSet::new();
    let mut documents = Vec::new();
    for name in names {
        let path = PathBuf::from(name);
        let last = path.file_name().filter(|_| name != "-").ok_or(format!("{} is no name for a document of a batch", word(name)))?;
        if !seen.insert(last.to_owned()) {
            return Err(format!("two documents have the name {}", word(last)));
        }
        documents.push((path.clone(), last.to_owned()));
    }
    Ok(documents)
}

fn mend(command: &str, given: Given) -> Result<Request, String> {
    let document = given.only(command, "document")?;
    Ok(Request::Mend(Mending { document, output: given.output(), quiet: given.has("--quiet"), json: given.has("--json") }))
}

/// `pack` and `unpack` take a list as their only name, and give its other form.
fn packing(command: &str, given: Given) -> Result<Request, String> {
    let list = given.only(command, "list")?;
    let (quiet, json) = (given.has("--quiet"), given.has("--json"));
    Ok(Request::Packing(Packing { back: command == "unpack", list, output: given.output(), quiet, json }))
}

fn covers(_: &str, given: Given) -> Result<Request, String> {
    if let [name, ..] = given.names.as_slice() {
        return Err(format!("covers takes two lists by their options, and {} is none", word(name)));
    }
    let wanted = "covers wants two lists: --narrow LIST --wide LIST";
    let (narrow, wide) = given.value("--narrow").zip(given.value("--wide")).ok_or(wanted)?;
    let (narrow, wide) = (Source::named(narrow), Source::named(wide));
    if narrow == Source::Standard && wide == Source::Standard {
        return Err("the two lists can't both come from the standard input".to_string());
    }
    let (packed, quiet, json) = (given.has("--packed"), given.has("--quiet"), given.has("--json"));
    Ok(Request::Covers(Asked { narrow, wide, packed, quiet, json }))
}

fn explain(_: &str, given: Given) -> Result<Request, String> {
    match given.names.as_slice() {
        [] => Ok(Request::Explain(explain::all())),
        [number] => match explain::text(number.as_bytes()) {
            Some(text) => Ok(Request::Explain(text.to_string())),
            None => Err(format!("{} is no number that is explained: 0 to 13, 20, 64, 66, 73 or 74", word(number))),
        },
        _ => Err("explain takes one number, or none to list them".to_string()),
    }
}

#[cfg(test)]
#[path = "usage_tests.rs"]
mod tests;
