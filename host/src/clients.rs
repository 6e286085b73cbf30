//! A run of `cut` for several clients, each with a list and an output: reads the document once, asks the library once, and writes each cut
//! or says why there is none. What stops one client does not stop the others, and an output that gets no cut is named and stays as it was.
//! Gives the exit status: 0, or that of the first client that gets no cut.
use crate::each;
use crate::input::Source;
use crate::json::Object;
use crate::output::{self, Sink};
use crate::paths::Paths;
use crate::progress;
use crate::report::{self, Read, Report};
use crate::say;
use crate::trouble::Trouble;
use choughbell::{Cut, Refusal, DOCUMENT_LIMIT};

/// The seats of a call.
pub const SEATS: usize = 4;

#[derive(PartialEq, Eq, Debug)]
pub struct Client {
    pub paths: Paths,
    pub output: Sink,
}

/// What is asked for.
#[derive(PartialEq, Eq, Debug)]
pub struct Clients {
    /// At most as many as there are seats.
    pub clients: Vec<Client>,
    pub document: Source,
    pub quiet: bool,
    pub json: bool,
}

/// Why a client gets no cut.
enum Why {
    /// The list as it stands in its file is refused, or the text of it by the call.
    Refused(Refusal, Read),
    /// The list can't be read.
    Trouble(Trouble),
}

pub fn run(clients: &Clients) -> Result<u8, Trouble> {
    let lists: Vec<Result<Read, Why>> = clients.clients.iter().map(list).collect();
    let document = Read::of(&clients.document, DOCUMENT_LIMIT)?;
    // A seat that is not used, or whose list is not there, has an empty list.
    let texts = std::array::from_fn(|seat| lists.get(seat).and_then(|list| list.as_ref().ok()).map_or(&b""[..], |list| &list.bytes));
    let cuts: [_; SEATS] = progress::during("cutting", || choughbell::four_of(texts, &document.bytes));
    let mut run = Run { clients, document: &document, told: false, status: 0 };
    for ((client, list), cut) in clients.clients.iter().zip(lists).zip(cuts) {
        match list {
            Ok(list) => match cut {
                Ok(cut) => run.written(client, &list, &cut)?,
                Err(refusal) => run.nothing(client, Why::Refused(refusal, list))?,
            },
            Err(why) => run.nothing(client, why)?,
        }
    }
    Ok(run.status)
}

/// The list of a client as text.
fn list(client: &Client) -> Result<Read, Why> {
    let list = client.paths.read().map_err(Why::Trouble)?;
    client.paths.text(&list).map_err(|refusal| Why::Refused(refusal, list))
}

struct Run<'a> {
    clients: &'a Clients,
    document: &'a Read,
    /// What is wrong with the document has been said.
    told: bool,
    status: u8,
}

impl Run<'_> {
    /// Under 0: the cut goes where it is to go. Where it can't, the others go on.
    fn written(&mut self, client: &Client, list: &Read, cut: &Cut) -> Result<(), Trouble> {
        if let Err(trouble) = client.output.write(&cut.bytes) {
            self.trouble(trouble);
            return Ok(());
        }
        if self.clients.json {
            let length = cut.bytes.len() as u64;
            let mut object = report::numbers(0, length, cut.selected, Some(cut.name_tests), "written");
            object.number("length", length);
            object.number("selected", cut.selected);
            object.number("tests", cut.name_tests);
            return self.line(client, object, Object::line);
        }
        if !self.clients.quiet {
            let each = progress::during("counting", || each::each(&list.bytes, &self.document.bytes, &cut.bytes));
            each::idle(list, &each).iter().for_each(|line| say(line));
        }
        Ok(())
    }

    /// No cut: why, and for which output. A fault in the document is said once.
    fn nothing(&mut self, client: &Client, why: Why) -> Result<(), Trouble> {
        match why {
            Why::Trouble(trouble) => self.trouble(trouble),
            Why::Refused(refusal, list) => {
                self.first(refusal.number() as u8);
                let report = report::report(refusal, &list, self.document);
                if self.clients.json {
                    let numbers = report::numbers(refusal.number(), refusal.second(), 0, Some(0), refusal.meaning());
                    return self.line(client, numbers, |object| report.placed(object));
                }
                self.report(refusal, &report);
            }
        }
        if !self.clients.quiet && !self.clients.json {
            say(&format!("choughbell: {} is not written", client.output.name()));
        }
        Ok(())
    }

    fn report(&mut self, refusal: Refusal, report: &Report) {
        let of_document = matches!(refusal.number(), 4..=8 | 10);
        if !self.clients.quiet && !(of_document && self.told) {
            say(&report.message());
        }
        self.told |= of_document;
    }

    /// A line of JSON for a client, with the name of its output: on the standard output, or on the standard error if a cut goes, or would
    /// go, to the other.
    fn line(&self, client: &Client, mut object: Object, end: impl FnOnce(Object) -> String) -> Result<(), Trouble> {
        object.string("output", &client.output.name());
        let line = end(object);
        if self.clients.clients.iter().any(|client| client.output == Sink::Standard) {
            return output::tell(line.trim_end_matches('\n'));
        }
        output::print(&line)
    }

    fn trouble(&mut self, Trouble { status, message }: Trouble) {
        self.first(status);
        if let Some(message) = message.filter(|_| !self.clients.quiet) {
            say(&format!("choughbell: {message}"));
        }
    }

    fn first(&mut self, status: u8) {
        if self.status == 0 {
            self.status = status;
        }
    }
}
