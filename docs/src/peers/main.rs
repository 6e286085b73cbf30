// Whether documents are well-formed, by the second program and by two XML processors: rxp, and libxml2's xmllint. The documents are those
// of the packs in a folder, each once. Where a known rule says that a processor judges by something else, the document is left out and
// counted (known.rs); any other difference is shown, and the status is then 1. Run from the repository's top: peers FOLDER
mod known;

use std::collections::{BTreeMap, BTreeSet};
use std::io;
use std::path::Path;
use std::process::{Command, ExitCode, Stdio};
use vectors::pack::{read, PACKS};

/// A processor, and the words that make it judge one file and print nothing but its complaints.
const PEERS: [(&str, &[&str]); 2] = [("rxp", &["-x", "-s"]), ("xmllint", &["--noout", "--nonet"])];

fn documents(folder: &str) -> io::Result<BTreeSet<Vec<u8>>> {
    let mut documents = BTreeSet::new();
    for name in PACKS {
        let cases = read(folder, name).map_err(|why| io::Error::new(io::ErrorKind::Other, why))?;
        documents.extend(cases.into_iter().map(|case| case.doc));
    }
    Ok(documents)
}

fn accepts(peer: &(&str, &[&str]), file: &Path) -> io::Result<bool> {
    let mut command = Command::new(peer.0);
    command.args(peer.1).arg(file).stdin(Stdio::null()).stdout(Stdio::null()).stderr(Stdio::null());
    Ok(command.status()?.success())
}

/// How many documents were compared, how many differ, and by rule how many were left out and how many of those differ.
#[derive(Default)]
struct Counts {
    same: usize,
    differ: usize,
    left_out: BTreeMap<&'static str, (usize, usize)>,
}

fn compare(peer: &(&str, &[&str]), doc: &[u8], file: &Path, counts: &mut Counts) -> io::Result<()> {
    let judged = second::judge(doc);
    let accepted = accepts(peer, file)?;
    if let Some(rule) = known::rule(peer.0, doc, judged) {
        let (documents, otherwise) = counts.left_out.entry(rule).or_default();
        *documents += 1;
        *otherwise += (accepted != judged.is_none()) as usize;
    } else if accepted == judged.is_none() {
        counts.same += 1;
    } else {
        counts.differ += 1;
        let says = if accepted { "accepts" } else { "refuses" };
        println!("{} {says}, we say {judged:?}: {:?}", peer.0, String::from_utf8_lossy(doc));
    }
    Ok(())
}

fn main() -> io::Result<ExitCode> {
    let folder = std::env::args().nth(1).expect("a folder of packs");
    let file = std::env::temp_dir().join(format!("peers-{}.xml", std::process::id()));
    let mut all: [Counts; 2] = Default::default();
    for doc in documents(&folder)? {
        std::fs::write(&file, &doc)?;
        for (peer, counts) in PEERS.iter().zip(&mut all) {
            compare(peer, &doc, &file, counts)?;
        }
    }
    std::fs::remove_file(&file)?;
    for (peer, counts) in PEERS.iter().zip(&all) {
        println!("{}: {} documents judged alike, {} otherwise", peer.0, counts.same, counts.differ);
        for (rule, (documents, otherwise)) in &counts.left_out {
            println!("    {documents} left out, {otherwise} of them judged otherwise: {rule}");
        }
    }
    Ok(ExitCode::from(all.iter().any(|counts| counts.differ > 0) as u8))
}
