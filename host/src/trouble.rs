//! What goes wrong outside the library: a message and an exit status, as sysexits has them. A broken pipe has no message, since whoever
//! stopped reading knows.
use std::io;

/// The words of the command line are wrong.
pub const USAGE: u8 = 64;
/// An input can't be opened, or is a directory.
const NO_INPUT: u8 = 66;
/// The output can't be created.
const CANT_CREATE: u8 = 73;
/// Reading or writing failed.
const IO: u8 = 74;

pub struct Trouble {
    pub status: u8,
    pub message: Option<String>,
}

/// An input that can't be opened.
pub fn opening(name: &str, e: &io::Error) -> Trouble {
    Trouble { status: NO_INPUT, message: Some(format!("{name}: {}", words(e))) }
}

/// An input that can't be read. Linux opens a directory and says only then what it is.
pub fn reading(name: &str, e: &io::Error) -> Trouble {
    const EISDIR: i32 = 21;
    let status = if e.raw_os_error() == Some(EISDIR) { NO_INPUT } else { IO };
    Trouble { status, message: Some(format!("{name}: {}", words(e))) }
}

/// An output that can't be created, with why.
pub fn creating(name: &str, why: &str) -> Trouble {
    Trouble { status: CANT_CREATE, message: Some(format!("{name}: {why}")) }
}

/// An output that can't be written.
pub fn writing(name: &str, e: &io::Error) -> Trouble {
    let silent = e.kind() == io::ErrorKind::BrokenPipe;
    Trouble { status: IO, message: if silent { None } else { Some(format!("{name}: {}", words(e))) } }
}

/// What the system says, without its number.
pub fn words(e: &io::Error) -> String {
    let text = e.to_string();
    match text.find(" (os error") {
        Some(end) => text[..end].to_string(),
        None => text,
    }
}
