//! Where a list or a document comes from, and its bytes. At most one byte more than the limit is read: that is enough for the library to
//! refuse it, and no input is read without bound.
use crate::shown;
use crate::system;
use crate::trouble::{self, Trouble};
use std::ffi::OsStr;
use std::fs::{self, File, Metadata};
use std::io::{self, Read};
use std::os::unix::ffi::OsStrExt;
use std::path::{Path, PathBuf};

#[derive(PartialEq, Eq, Debug)]
pub enum Source {
    Standard,
    File(PathBuf),
}

impl Source {
    /// The source that a word of the command line names. The system's names for the standard input are told here, so that it is not taken
    /// twice.
    pub fn named(word: &OsStr) -> Source {
        if word == "-" || system::number(word) == Some(0) {
            return Source::Standard;
        }
        Source::File(PathBuf::from(word))
    }

    /// How messages call it.
    pub fn name(&self) -> String {
        match self {
            Source::Standard => "standard input".to_string(),
            Source::File(path) => shown::all(path.as_os_str().as_bytes()),
        }
    }

    /// How many bytes it has, where it is a regular file.
    pub fn size(&self) -> Option<u64> {
        let path = match self {
            Source::Standard => Path::new("/dev/stdin"),
            Source::File(path) => path,
        };
        fs::metadata(path).ok().filter(Metadata::is_file).map(|file| file.len())
    }

    /// Its bytes, up to one more than `limit`.
    pub fn read(&self, limit: usize) -> Result<Vec<u8>, Trouble> {
        let mut bytes = Vec::new();
        let most = limit as u64 + 1;
        match self {
            Source::Standard => {
                system::given(0).map_err(|e| trouble::opening(&self.name(), &e))?;
                io::stdin().lock().take(most).read_to_end(&mut bytes)
            }
            Source::File(path) => {
                let file = File::open(path).map_err(|e| trouble::opening(&self.name(), &e))?;
                file.take(most).read_to_end(&mut bytes)
            }
        }
        .map_err(|e| trouble::reading(&self.name(), &e))?;
        Ok(bytes)
    }
}
