// The wrong programs of the gate, each run on the packed cases: how many cases of each pack it answers otherwise than the second program.
// An edit of code is made in a copy of the crates' source, which is then read as Rust (speed/source.rs) and compiled with run.rs. Edits of
// definitions change no code and are left out, as is what an edit of code changes in proofs/ besides. Run from the repository's top:
// wrong CRATE.., the crates that make up the filter
use std::path::{Path, PathBuf};
use std::process::{Command, Output};
use std::{env, fs, io};

const COPY: &str = "target/wrong";
const PACKS: usize = 3;
/// Seconds for a wrong program to answer the packs, which takes a few: one that goes on for ever is found too.
const LIMIT: &str = "60";

/// A text of a file that is replaced by another.
struct Change {
    file: String,
    old: String,
    new: String,
}

/// One wrong program: in a crate, by a name, changes that are made one after the other.
struct Edit {
    crate_name: String,
    label: String,
    changes: Vec<Change>,
}

fn files(folder: &Path) -> io::Result<Vec<PathBuf>> {
    let mut files: Vec<PathBuf> = fs::read_dir(folder)?.map(|entry| Ok(entry?.path())).collect::<io::Result<_>>()?;
    files.sort();
    Ok(files)
}

/// A file holds for the pairs of old and new after it. Those in proofs/ change no program.
fn edit(crate_name: &str, path: &Path) -> io::Result<Edit> {
    let text = fs::read_to_string(path)?;
    let label = path.file_stem().map_or(String::new(), |stem| stem.to_string_lossy().into_owned());
    let (mut file, mut old, mut changes) = ("", "", Vec::new());
    for line in text.lines() {
        if let Some(name) = line.strip_prefix("file: ") {
            file = name;
        } else if let Some(text) = line.strip_prefix("old: ") {
            old = text;
        } else if let Some(new) = line.strip_prefix("new:").filter(|_| !file.starts_with("proofs/")) {
            let new = new.strip_prefix(' ').unwrap_or(new);
            changes.push(Change { file: file.into(), old: old.into(), new: new.into() });
        }
    }
    Ok(Edit { crate_name: crate_name.into(), label, changes })
}

/// The wrong programs of a crate.
fn edits(crate_name: &str) -> io::Result<Vec<Edit>> {
    let folder = PathBuf::from(format!("crates/{crate_name}/must-fail"));
    if !folder.is_dir() {
        return Ok(Vec::new());
    }
    files(&folder)?.iter().map(|path| edit(crate_name, path)).collect()
}

/// A crate's source in the copy, as it stands.
fn copy(crate_name: &str) -> io::Result<()> {
    let to = PathBuf::from(format!("{COPY}/crates/{crate_name}/src"));
    fs::create_dir_all(&to)?;
    for file in files(Path::new(&format!("crates/{crate_name}/src")))? {
        fs::copy(&file, to.join(file.file_name().expect("a file has a name")))?;
    }
    Ok(())
}

fn done(command: &mut Command) -> io::Result<Output> {
    let output = command.output()?;
    match output.status.success() {
        true => Ok(output),
        false => Err(io::Error::new(io::ErrorKind::Other, format!("{command:?}: {}", String::from_utf8_lossy(&output.stderr)))),
    }
}

/// How many cases of each pack the source in the copy answers otherwise; nothing where it is no program for rustc, or does not come to an
/// end of the packs.
fn otherwise(crates: &[String]) -> io::Result<Option<Vec<usize>>> {
    let source = done(Command::new(fs::canonicalize("target/rust/source")?).args(crates).current_dir(COPY))?;
    fs::write("target/rust/wrong.rs", source.stdout)?;
    let words = "--edition 2021 -O -A warnings -L target/rust --extern vectors=target/rust/libvectors.rlib -o target/rust/wrong-run";
    if !Command::new("rustc").args(words.split(' ')).arg("docs/src/wrong/run.rs").output()?.status.success() {
        return Ok(None);
    }
    let output = Command::new("timeout").args([LIMIT, "target/rust/wrong-run"]).output()?;
    let counts: Vec<usize> = String::from_utf8_lossy(&output.stdout).lines().filter_map(|line| line.parse().ok()).collect();
    Ok(Some(counts).filter(|counts| counts.len() == PACKS))
}

/// The same for one edit, which is then taken back.
fn tried(edit: &Edit, crates: &[String]) -> io::Result<Option<Vec<usize>>> {
    for Change { file, old, new } in &edit.changes {
        let path = format!("{COPY}/crates/{}/{file}", edit.crate_name);
        let text = fs::read_to_string(&path)?;
        assert_eq!(text.matches(old).count(), 1, "{path}: {old}");
        fs::write(&path, text.replace(old, new))?;
    }
    let counts = otherwise(crates);
    copy(&edit.crate_name)?;
    counts
}

fn main() -> io::Result<()> {
    let crates: Vec<String> = env::args().skip(1).collect();
    crates.iter().try_for_each(|name| copy(name))?;
    assert_eq!(otherwise(&crates)?, Some(vec![0; PACKS]), "the filter as it stands differs from the second program");
    let (mut found, mut passed) = (0, Vec::new());
    for name in &crates {
        for edit in edits(name)?.into_iter().filter(|edit| edit.changes.iter().all(|change| change.file.starts_with("src/"))) {
            let counts = tried(&edit, &crates)?;
            match &counts {
                Some(counts) => println!("{name} {}: suite {}, named {}, made {}", edit.label, counts[0], counts[1], counts[2]),
                None => println!("{name} {}: no program, or one without end", edit.label),
            }
            match counts.map_or(true, |counts| counts.iter().any(|count| *count > 0)) {
                true => found += 1,
                false => passed.push(format!("{name} {}", edit.label)),
            }
        }
    }
    println!("{found} wrong programs found by some case; not found: {}", passed.join(", "));
    Ok(())
}
