// Reads the Rattle source of crates as Rust, so that it can be timed on any machine: one file of nested modules, on the standard output,
// to be the module `ours`.
// Names of crates are the arguments. Ghost lines, contracts, models, comments and what is said to Rattle alone go; structs and enums are
// Clone and Copy; extern functions are plain ones. With --unchecked first, no index is checked, as in the compiled library, where a proof
// stands for the check.
// What is left has to be Rust: a form that is not known here stops it, or stops rustc.
use std::path::Path;
use std::{env, fs, process};

/// Where a line stands, and what is wrong there.
fn stop(file: &Path, line: usize, what: &str) -> ! {
    eprintln!("{}:{line}: {what}", file.display());
    process::exit(1)
}

/// A line without its comment. A text has no `//` with a space before and after it.
fn code(line: &str) -> &str {
    if line.trim_start().starts_with("//") {
        return "";
    }
    line.split(" // ").next().unwrap().trim_end()
}

/// Whether a clause begins on a line, with a name or without one.
fn clause(start: &str) -> bool {
    let words: Vec<&str> = start.split_whitespace().take(3).collect();
    matches!(words[..], ["requires" | "ensures", "{", ..] | ["requires" | "ensures", _, "{"])
}

/// Whether a line is for Rattle alone: an attribute, or the import of `Model`; or the traits of a type, which are written anew here.
fn attribute(start: &str) -> bool {
    let heads = ["#![tactic(", "#[tactic(", "#[cycle(", "#[unsafe(no_mangle)]", "#[derive(", "use std::marker::Model;"];
    heads.iter().any(|head| start.starts_with(head))
}

/// How many braces of a clause are open after a line, or nothing where something stands after the last.
fn still_open(line: &str, mut open: usize) -> Option<usize> {
    for (i, c) in line.char_indices() {
        match c {
            '{' => open += 1,
            '}' if open == 1 => return Some(0).filter(|_| line[i + 1..].trim().is_empty()),
            '}' => open -= 1,
            _ => {}
        }
    }
    Some(open)
}

/// The line with every `base[index]` left unchecked; or nothing where an index ends on another line or is indexed again.
fn unchecked(line: &str) -> Option<String> {
    let word = |c: char| c.is_alphanumeric() || c == '_';
    let quoted = |i: usize| line[..i].matches('"').count() % 2 == 1;
    let open = match line.char_indices().find(|&(i, c)| c == '[' && line[..i].ends_with(word) && !quoted(i)) {
        Some((open, _)) => open,
        None => return Some(line.to_string()),
    };
    let mut depth = 0;
    let close = open + line[open..].find(|c| {
        depth += (c == '[') as usize;
        depth -= (c == ']') as usize;
        depth == 0
    })?;
    let base = line[..open].trim_end_matches(|c| word(c) || c == '.' || c == ':').len();
    let (before, name, index, after) = (&line[..base], &line[base..open], unchecked(&line[open + 1..close])?, &line[close + 1..]);
    if after.starts_with('[') {
        return None;
    }
    let sign = after.split_whitespace().next().unwrap_or("");
    let assigned = before.trim().is_empty() && sign.ends_with('=') && !["==", "!=", "<=", ">="].contains(&sign);
    let got = match (assigned, before.ends_with("&mut ")) {
        (true, _) => format!("*unsafe {{ {name}.get_unchecked_mut({index}) }}"),
        (false, true) => format!("(*unsafe {{ {name}.get_unchecked_mut({index}) }})"),
        (false, false) => format!("(*unsafe {{ {name}.get_unchecked({index}) }})"),
    };
    Some(format!("{before}{got}{}", unchecked(after)?))
}

/// The module of a file, with those that it names; `folder` is where they stand.
fn module(file: &Path, folder: &Path, own: &str, crates: &[String], checked: bool) -> String {
    let text = fs::read_to_string(file).unwrap_or_else(|e| stop(file, 0, &e.to_string()));
    let others = crates.iter().filter(|c| *c != own && !text.contains(&format!("mod {c};")));
    let mut out: String = others.map(|c| format!("use crate::ours::{c};\n")).collect();
    let mut open = 0; // braces of a clause
    let mut model = false; // inside the model of a type, which ends at a brace of its own
    for (i, line) in text.lines().enumerate() {
        let line = code(line);
        let start = line.trim_start();
        if model || line.starts_with("impl Model for ") {
            model = line != "}";
        } else if open > 0 || clause(start) {
            open = still_open(line, open).unwrap_or_else(|| stop(file, i + 1, "something after a clause"));
        } else if line.starts_with("ghost use ") && line.ends_with(';') || attribute(start) || line.is_empty() {
        } else if start.starts_with("ghost ") && start != line && line.ends_with("};") {
            // a ghost member of an impl, which stands on a line
        } else if !line.is_ascii() || ["ghost", "requires", "ensures"].iter().any(|w| start.starts_with(w)) {
            stop(file, i + 1, "no form of Rust that is known here");
        } else if let Some(name) = line.trim_start_matches("pub ").strip_prefix("mod ") {
            let name = name.strip_suffix(';').unwrap_or_else(|| stop(file, i + 1, "a module that is no file"));
            let inner = module(&folder.join(format!("{name}.rt")), &folder.join(name), own, crates, checked);
            out += &format!("{} {{\n{inner}}}\n", line.trim_end_matches(';'));
        } else {
            if ["struct ", "enum "].iter().any(|w| line.trim_start_matches("pub ").starts_with(w)) {
                out += "#[derive(Clone, Copy)]\n";
            }
            let line = line.replace("crate::", &format!("crate::ours::{own}::")).replace("extern \"C\" ", "");
            // a copy between slices looks at their lengths once, and the slice that it writes is no value
            let line = if checked || line.contains("].copy_from_slice(") { Some(line) } else { unchecked(&line) };
            out += &line.unwrap_or_else(|| stop(file, i + 1, "an index over two lines, or indexed again"));
            out += "\n";
        }
    }
    if open > 0 || model {
        stop(file, text.lines().count(), "a clause or a model that does not end");
    }
    out
}

fn main() {
    let mut crates: Vec<String> = env::args().skip(1).collect();
    let checked = crates.first().map_or(true, |word| word != "--unchecked");
    crates.drain(..!checked as usize);
    println!("// Made from the Rattle source. Index checks are {}.", if checked { "left in" } else { "left out" });
    println!("pub const INDEX_CHECKS: bool = {checked};");
    for own in &crates {
        let src = Path::new("crates").join(own).join("src");
        let inner = module(&src.join("lib.rt"), &src, own, &crates, checked);
        println!("#[allow(dead_code, unused_imports, unused_parens, unused_variables)]\npub mod {own} {{\n{inner}}}");
    }
}
