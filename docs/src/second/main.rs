//! `second LIST DOCUMENT`: prints what document 01 says of the program `cut`, with the list and the document in two
//! files. A list that is not there counts as empty; a document that is not there is an error of the call. Built with
//! `rustc --edition 2021 -O --extern second=libsecond.rlib main.rs -o second`.

use std::io::Write;
use std::path::Path;
use std::process::ExitCode;

fn main() -> ExitCode {
    let arguments: Vec<_> = std::env::args_os().skip(1).collect();
    if arguments.len() != 2 {
        eprintln!("second LIST DOCUMENT");
        return ExitCode::from(2);
    }
    match print(Path::new(&arguments[0]), Path::new(&arguments[1])) {
        Ok(()) => ExitCode::SUCCESS,
        Err(error) => {
            eprintln!("second: {error}");
            ExitCode::from(2)
        }
    }
}

fn print(list: &Path, document: &Path) -> std::io::Result<()> {
    let list = second::program::list_at(list);
    let document = std::fs::read(document)?;
    std::io::stdout().write_all(&second::program::printed(&list, &document))
}
