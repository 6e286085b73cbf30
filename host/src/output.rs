//! Where a cut goes. A file is replaced as a whole: the cut is written to a temporary file in the same folder, which then takes the file's
//! name. So a run that fails or is ended leaves the old file as it was, and one that can't be replaced so is not written at all. What is no
//! regular file, as a pipe, is written directly.
use crate::note;
use crate::shown;
use crate::system;
use crate::trouble::{self, Trouble};
use std::ffi::OsStr;
use std::fs::{self, File, Metadata, OpenOptions, Permissions};
use std::io::{self, Write};
use std::os::unix::ffi::OsStrExt;
use std::os::unix::fs::{MetadataExt, OpenOptionsExt, PermissionsExt};
use std::path::{Path, PathBuf};
use std::process;

#[derive(PartialEq, Eq, Debug)]
pub enum Sink {
    Standard,
    /// An open file by its number, other than the standard output.
    Stream(u16),
    File(PathBuf),
}

impl Sink {
    /// The sink that a word of the command line names. The system's names for open files are told here: opened by name they would begin
    /// anew what the shell has already written there, or be replaced.
    pub fn named(word: &OsStr) -> Sink {
        match system::number(word) {
            _ if word == "-" => Sink::Standard,
            Some(1) => Sink::Standard,
            Some(number) => Sink::Stream(number),
            None => Sink::File(PathBuf::from(word)),
        }
    }

    /// How messages call it.
    pub fn name(&self) -> String {
        match self {
            Sink::Standard => "standard output".to_string(),
            Sink::Stream(number) => format!("/dev/fd/{number}"),
            Sink::File(path) => shown::all(path.as_os_str().as_bytes()),
        }
    }

    pub fn write(&self, bytes: &[u8]) -> Result<(), Trouble> {
        match self {
            Sink::Standard => standard(bytes),
            Sink::Stream(number) => {
                let written = system::given(*number).and_then(|()| system::stream(*number).write_all(bytes));
                written.map_err(|e| trouble::writing(&self.name(), &e))
            }
            Sink::File(path) => to_file(path, bytes),
        }
    }
}

/// Text for the standard output.
pub fn print(text: &str) -> Result<(), Trouble> {
    standard(text.as_bytes())
}

/// A line for the standard error that has to be written there.
pub fn tell(line: &str) -> Result<(), Trouble> {
    system::given(2).and_then(|()| writeln!(io::stderr(), "{line}")).map_err(|e| trouble::writing("standard error", &e))
}

fn standard(bytes: &[u8]) -> Result<(), Trouble> {
    let mut out = io::stdout().lock();
    system::given(1).and_then(|()| out.write_all(bytes)).and_then(|()| out.flush()).map_err(|e| trouble::writing("standard output", &e))
}

fn to_file(path: &Path, bytes: &[u8]) -> Result<(), Trouble> {
    let name = shown::all(path.as_os_str().as_bytes());
    match fs::metadata(path) {
        Ok(old) if old.is_dir() => Err(trouble::creating(&name, "Is a directory")),
        Ok(old) if old.is_file() => {
            // Only a file that may be written is replaced, though a rename would ask for the folder alone.
            OpenOptions::new().write(true).open(path).map_err(|e| trouble::creating(&name, &trouble::words(&e)))?;
            replace(&name, &behind(path), Some(&old), bytes)
        }
        Ok(_) => {
            let mut file = OpenOptions::new().write(true).open(path).map_err(|e| trouble::creating(&name, &trouble::words(&e)))?;
            file.write_all(bytes).map_err(|e| trouble::writing(&name, &e))
        }
        Err(e) if e.kind() == io::ErrorKind::NotFound => replace(&name, &behind(path), None, bytes),
        Err(e) => Err(trouble::creating(&name, &trouble::words(&e))),
    }
}

/// What a path leads to through symbolic links, whether it is there or not. The system has refused a ring of links before.
fn behind(path: &Path) -> PathBuf {
    let mut path = path.to_path_buf();
    for _ in 0..64 {
        match fs::read_link(&path) {
            Ok(to) => path = folder(&path).join(to),
            Err(_) => break,
        }
    }
    path
}

/// The folder that a path stands in.
fn folder(path: &Path) -> &Path {
    match path.parent() {
        Some(parent) if !parent.as_os_str().is_empty() => parent,
        _ => Path::new("."),
    }
}

/// Gives a file new bytes, with the owner, the group and the permissions of the old file where there is one.
fn replace(name: &str, path: &Path, old: Option<&Metadata>, bytes: &[u8]) -> Result<(), Trouble> {
    // Until it has the old file's permissions, nobody else may read it.
    let mode = if old.is_some() { 0o600 } else { 0o666 };
    let (mut file, scratch) = Scratch::beside(path, mode).map_err(|e| trouble::creating(name, &unmade(&e, old)))?;
    file.write_all(bytes).map_err(|e| trouble::writing(name, &e))?;
    let lost = old.map_or(Ok(None), |old| inherit(&file, old)).map_err(|e| trouble::writing(name, &e))?;
    file.sync_all().map_err(|e| trouble::writing(name, &e))?;
    scratch.rename(path).map_err(|e| trouble::creating(name, &unrenamed(&e, old)))?;
    if let Some(lost) = lost {
        note(&format!("choughbell: {name}: {lost} could not be kept"));
    }
    Ok(())
}

/// How a file that may be written is written where it can't be replaced. It is for the user to do, since it loses the old file at once.
const IN_PLACE: &str = "; -o - and the shell's > write into it, and lose what it holds first";

/// Why there is no temporary file.
fn unmade(e: &io::Error, old: Option<&Metadata>) -> String {
    let more = if old.is_some() { IN_PLACE } else { "" };
    format!("no temporary file beside it: {}{more}", trouble::words(e))
}

/// Why a file does not take the place of another.
fn unrenamed(e: &io::Error, old: Option<&Metadata>) -> String {
    const EPERM: i32 = 1;
    const EBUSY: i32 = 16;
    let words = trouble::words(e);
    match e.raw_os_error() {
        Some(EPERM) if old.is_some() => format!("{words}: its folder lets nobody replace another's file{IN_PLACE}"),
        Some(EBUSY) if old.is_some() => format!("{words}: it is mounted by itself and can't be replaced{IN_PLACE}"),
        _ => words,
    }
}

/// Gives a file the owner, the group and the permissions of an old one. Gives which of the first two it does not get: to hand a file to
/// another is for root, and to a group for its members. Another group gets the rights that all others have.
fn inherit(file: &File, old: &Metadata) -> io::Result<Option<String>> {
    let own = file.metadata()?;
    if (own.uid(), own.gid()) != (old.uid(), old.gid()) && !system::give(file, old.uid(), old.gid()) {
        system::give(file, own.uid(), old.gid());
    }
    let new = file.metadata()?;
    let (owner, group) = (new.uid() == old.uid(), new.gid() == old.gid());
    let mode = old.mode() & if owner && group { 0o7777 } else { 0o777 };
    file.set_permissions(Permissions::from_mode(if group { mode } else { mode & 0o707 | (mode & 0o007) << 3 }))?;
    Ok(match (owner, group) {
        (true, true) => None,
        (false, true) => Some(format!("its owner, {},", old.uid())),
        (true, false) => Some(format!("its group, {},", old.gid())),
        (false, false) => Some(format!("its owner, {}, and its group, {},", old.uid(), old.gid())),
    })
}

/// A temporary file. It is removed when it is let go, unless it has got its name.
struct Scratch {
    path: PathBuf,
    renamed: bool,
}

impl Scratch {
    /// A file of its own in the folder of `path`. The name has nothing of the other's, which may be as long as names can be.
    fn beside(path: &Path, mode: u32) -> io::Result<(File, Scratch)> {
        let mut tries = 0;
        loop {
            let scratch = folder(path).join(format!(".choughbell-{}-{tries}", process::id()));
            match system::make(&scratch, || OpenOptions::new().write(true).create_new(true).mode(mode).open(&scratch)) {
                Ok(file) => return Ok((file, Scratch { path: scratch, renamed: false })),
                // One that a killed run has left.
                Err(e) if e.kind() == io::ErrorKind::AlreadyExists && tries < 100 => tries += 1,
                Err(e) => return Err(e),
            }
        }
    }

    fn rename(mut self, path: &Path) -> io::Result<()> {
        fs::rename(&self.path, path)?;
        self.renamed = true;
        system::done();
        Ok(())
    }
}

impl Drop for Scratch {
    fn drop(&mut self) {
        if !self.renamed {
            let _ = fs::remove_file(&self.path);
            system::done();
        }
    }
}
