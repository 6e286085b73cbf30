//! The command `choughbell`: cuts XML by a list of paths, by the proved library. This file goes from the words of the command line to the
//! exit status; `usage` reads the words, `task` does the work, `help` and `explain` have the texts.
#![deny(unsafe_code)]
mod advice;
mod attribute;
mod batch;
mod caret;
mod check;
mod clients;
mod covers;
mod each;
mod explain;
mod help;
mod hints;
mod input;
mod json;
mod mend;
mod names;
mod outline;
mod output;
mod packing;
mod page;
mod parts;
mod paths;
mod picked;
mod places;
mod progress;
mod report;
mod show;
mod shown;
#[allow(unsafe_code)]
mod system;
mod table;
mod tag;
mod task;
mod trouble;
mod usage;
mod widths;

use std::env;
use std::io::{self, Write};
use std::process::ExitCode;
use std::sync::atomic::{AtomicBool, Ordering::Relaxed};
use trouble::Trouble;
use usage::Request;

fn main() -> ExitCode {
    system::watch();
    let request = match usage::read(env::args_os().skip(1)) {
        Ok(request) => request,
        Err(message) => {
            say(&format!("choughbell: {message}\nchoughbell --help tells more"));
            return ExitCode::from(trouble::USAGE);
        }
    };
    let (quiet, json) = match &request {
        Request::Task(task) => (task.quiet, task.json),
        Request::Clients(clients) => (clients.quiet, clients.json),
        Request::Check(checking) => (checking.quiet, checking.json),
        Request::Batch(post) => (post.quiet, post.json),
        Request::Packing(packing) => (packing.quiet, packing.json),
        Request::Covers(asked) => (asked.quiet, asked.json),
        Request::Mend(task) => (task.quiet, task.json),
        Request::Rows(table) => (table.quiet, table.json),
        Request::Show(showing) => (showing.quiet, false),
        _ => (false, false),
    };
    QUIET.store(quiet, Relaxed);
    match answer(&request) {
        Ok(status) => {
            if (1..=13).contains(&status) && !quiet && !json {
                say(&format!("choughbell explain {status} tells more"));
            }
            ExitCode::from(status)
        }
        Err(Trouble { status, message }) => {
            if let Some(message) = message.filter(|_| !quiet) {
                say(&format!("choughbell: {message}"));
            }
            ExitCode::from(status)
        }
    }
}

/// Does what is asked, and gives the exit status.
fn answer(request: &Request) -> Result<u8, Trouble> {
    match request {
        Request::Task(task) => return task::run(task),
        Request::Clients(clients) => return clients::run(clients),
        Request::Check(checking) => return check::run(checking),
        Request::Batch(post) => return batch::run(post),
        Request::Packing(packing) => return packing::run(packing),
        Request::Covers(asked) => return covers::run(asked),
        Request::Mend(task) => return mend::run(task),
        Request::Rows(table) => return table::run(table),
        Request::Show(showing) => return show::run(showing),
        Request::Explain(text) => output::print(text)?,
        Request::Help => output::print(help::HELP)?,
        Request::Version => output::print(help::VERSION)?,
    }
    Ok(0)
}

/// Whether messages are left out.
static QUIET: AtomicBool = AtomicBool::new(false);

/// A message that is left out where nothing is to be said.
fn note(message: &str) {
    if !QUIET.load(Relaxed) {
        say(message);
    }
}

/// A message on the standard error. Where that can't be written, there is nobody to tell.
fn say(message: &str) {
    let _ = writeln!(io::stderr(), "{message}");
}
