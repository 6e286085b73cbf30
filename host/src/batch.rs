//! A run of `batch`: many documents by one list. Documents that are named are bundled, some megabytes at a time, and each cut goes to a
//! folder under the name of its document; or a batch is cut as a whole, and the result is a batch again. A document that is refused is
//! named on the standard error, and the others are cut all the same. Gives the exit status: 0, or the number of the first refusal.
use crate::input::Source;
use crate::json::Object;
use crate::output::{self, Sink};
use crate::paths::Paths;
use crate::progress::{self, Progress};
use crate::report::{self, Read};
use crate::say;
use crate::shown;
use crate::trouble::{self, Trouble};
use choughbell::{Refusal, BATCH_LIMIT, DOCUMENT_LIMIT};
use std::ffi::OsString;
use std::fs;
use std::io;
use std::os::unix::ffi::OsStrExt;
use std::path::{Path, PathBuf};

/// What is asked for.
#[derive(PartialEq, Eq, Debug)]
pub struct Post {
    pub paths: Paths,
    pub way: Way,
    pub quiet: bool,
    pub json: bool,
}

#[derive(PartialEq, Eq, Debug)]
pub enum Way {
    /// Documents with the names of their cuts, and the folder that these go to.
    Documents(Vec<(PathBuf, OsString)>, PathBuf),
    /// A batch, and where the result goes.
    Batch(Source, Sink),
}

/// A call has this many bytes of documents, or one document more: far less than a batch may have.
const CALL: usize = 4 << 20;

pub fn run(post: &Post) -> Result<u8, Trouble> {
    let list = post.paths.read()?;
    let list = match post.paths.text(&list) {
        Ok(text) => text,
        Err(refusal) => return refused(post, refusal, &list, &list),
    };
    match &post.way {
        Way::Documents(documents, folder) => documents_to(post, &list, documents, folder),
        Way::Batch(source, sink) => batch_to(post, &list, source, sink),
    }
}

/// What has come of some documents: the first status that is not 0, and the numbers of the whole.
#[derive(Default)]
struct Sum {
    status: u8,
    documents: u64,
    cut: u64,
    length: u64,
    selected: u64,
}

impl Sum {
    /// A document that is written, or why it is not: the status is that of the first that is not.
    fn add(&mut self, status: u8, length: usize) {
        self.documents += 1;
        self.cut += u64::from(status == 0);
        self.status = if self.status == 0 { status } else { self.status };
        self.length += length as u64;
    }

    /// The last line of JSON: the numbers of the whole, how many documents there were, and how many of them are cut.
    fn tell(&self, post: &Post, length: u64) -> Result<(), Trouble> {
        let mut object = report::three(0, length, self.selected, "written");
        object.number("length", length);
        object.number("selected", self.selected);
        object.number("documents", self.documents);
        object.number("cut", self.cut);
        line(post, object.line())
    }
}

fn documents_to(post: &Post, list: &Read, documents: &[(PathBuf, OsString)], folder: &Path) -> Result<u8, Trouble> {
    let mut sum = Sum::default();
    let mut progress = Progress::new(documents.len());
    let mut rest = documents;
    // The list is judged before anything is read or made.
    if let Err(refusal) = choughbell::batch_of(&list.bytes, &choughbell::bundle([])) {
        return refused(post, refusal, list, &Read::default());
    }
    make(folder)?;
    while !rest.is_empty() {
        let (group, taken) = some(post, rest, &mut sum);
        rest = &rest[taken..];
        let batch = choughbell::bundle(group.iter().map(|(document, _)| document.bytes.as_slice()));
        let result = match choughbell::batch_of(&list.bytes, &batch) {
            Ok(result) => result,
            Err(refusal) => return refused(post, refusal, list, &Read::whole(String::new(), batch)),
        };
        sum.selected += result.selected;
        for ((document, name), entry) in group.iter().zip(choughbell::entries(&result.bytes)) {
            if !entry.is_empty() {
                Sink::File(folder.join(name)).write(entry)?;
            } else {
                progress.clear();
            }
            one(post, list, document, entry, &mut sum)?;
        }
        progress.say(documents.len() - rest.len());
    }
    progress.clear();
    sum.tell(post, sum.length)?;
    Ok(sum.status)
}

/// Tells what has come of a document. An empty entry says that it is refused, and not by which number.
fn one(post: &Post, list: &Read, document: &Read, entry: &[u8], sum: &mut Sum) -> Result<(), Trouble> {
    if let Err(refusal) = if entry.is_empty() { choughbell::check(&document.bytes) } else { Ok(()) } {
        sum.add(refused(post, refusal, list, document)?, 0);
        return Ok(());
    }
    sum.add(0, entry.len());
    let mut object = Object::new();
    object.number("number", 0);
    object.number("second", entry.len() as u64);
    object.string("meaning", "written");
    object.string("file", &document.name);
    object.number("length", entry.len() as u64);
    line(post, object.line())
}

/// The next documents with the names of their cuts, and how many were taken from the front. One that can't be read is told and left out.
fn some<'a>(post: &Post, documents: &'a [(PathBuf, OsString)], sum: &mut Sum) -> (Vec<(Read, &'a OsString)>, usize) {
    let (mut group, mut bytes, mut taken) = (Vec::new(), 0, 0);
    while taken < documents.len() && bytes < CALL {
        let (path, name) = &documents[taken];
        let source = Source::File(path.clone());
        match Read::of(&source, DOCUMENT_LIMIT) {
            Ok(document) => {
                bytes += document.bytes.len();
                group.push((document, name));
            }
            Err(Trouble { status, message }) => {
                sum.add(status, 0);
                if let Some(message) = message.filter(|_| !post.quiet) {
                    say(&format!("choughbell: {message}"));
                }
            }
        }
        taken += 1;
    }
    (group, taken)
}

/// The folder, where it is not there.
fn make(folder: &Path) -> Result<(), Trouble> {
    match fs::create_dir(folder) {
        Err(e) if e.kind() != io::ErrorKind::AlreadyExists => {
            Err(trouble::creating(&shown::all(folder.as_os_str().as_bytes()), &trouble::words(&e)))
        }
        _ => Ok(()),
    }
}

fn batch_to(post: &Post, list: &Read, source: &Source, sink: &Sink) -> Result<u8, Trouble> {
    let batch = Read::of(source, BATCH_LIMIT)?;
    let result = match progress::during("cutting", || choughbell::batch_of(&list.bytes, &batch.bytes)) {
        Ok(result) => result,
        Err(refusal) => return refused(post, refusal, list, &batch),
    };
    sink.write(&result.bytes)?;
    let mut sum = Sum { selected: result.selected, ..Sum::default() };
    let cuts = choughbell::entries(&result.bytes);
    for (i, (document, entry)) in choughbell::entries(&batch.bytes).into_iter().zip(cuts).enumerate() {
        // Without JSON there is nothing to say of one that is written.
        let document = if post.json || entry.is_empty() { document.to_vec() } else { Vec::new() };
        one(post, list, &Read::whole(format!("{}, document {}", batch.name, i + 1), document), entry, &mut sum)?;
    }
    sum.tell(post, result.bytes.len() as u64)?;
    Ok(sum.status)
}

/// A refusal is told, of the list, of a batch or of a document. Gives its number.
fn refused(post: &Post, refusal: Refusal, list: &Read, read: &Read) -> Result<u8, Trouble> {
    let (number, second, meaning) = (refusal.number(), refusal.second(), refusal.meaning());
    let report = report::report(refusal, list, read);
    if let Refusal::BadBatch { offset } = refusal {
        let hint = fault(&read.bytes, offset as usize);
        if !post.quiet && !post.json {
            say(&format!("{}: {number}: {meaning}: {hint} (offset {offset})", read.name));
        }
        let mut object = report::three(number, second, 0, meaning);
        object.string("file", &read.name);
        object.number("offset", offset);
        object.string("hint", &hint);
        line(post, object.line())?;
    } else {
        if !post.quiet && !post.json {
            say(&report.message());
        }
        line(post, report.placed(report::three(number, second, 0, meaning)))?;
    }
    Ok(number as u8)
}

/// A line of JSON where it is asked for: on the standard output, or on the standard error where the batch goes to the other.
fn line(post: &Post, line: String) -> Result<(), Trouble> {
    if !post.json {
        Ok(())
    } else if matches!(post.way, Way::Batch(_, Sink::Standard)) {
        output::tell(line.trim_end_matches('\n'))
    } else {
        output::print(&line)
    }
}

/// What is wrong at an offset of a batch.
fn fault(batch: &[u8], offset: usize) -> String {
    match batch.get(offset..).unwrap_or(&[]) {
        [] => "it is empty".to_string(),
        _ if batch.len() > BATCH_LIMIT => "it has over 67,108,864 bytes".to_string(),
        [version, ..] if offset == 0 => format!("its version byte is {version}, not 1"),
        [a, b, c, d, rest @ ..] => {
            let length = u32::from_be_bytes([*a, *b, *c, *d]);
            format!("a length says {length}, and {} bytes are left", rest.len())
        }
        rest => format!("a length has {} of its 4 bytes", rest.len()),
    }
}
