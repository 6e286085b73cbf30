//! Tells the linker where the proved library is: in the folder that CHOUGHBELL_LIBRARY names; else where `make library` puts it, if this
//! stands in the repository; else where `make install` or the package put it. Installed it is called libchoughbell.a, and else
//! libexported.a, which is the name that the crate links.
use std::env;
use std::fs;
use std::path::{Path, PathBuf};
use std::process::{self, Command};

/// The names of the library, of which the first is linked.
const NAMES: [&str; 2] = ["libexported.a", "libchoughbell.a"];

fn main() {
    println!("cargo:rerun-if-env-changed=CHOUGHBELL_LIBRARY");
    let named = env::var_os("CHOUGHBELL_LIBRARY").map(PathBuf::from);
    let folders = named.map_or_else(usual, |folder| vec![folder]);
    let paths = folders.iter().flat_map(|folder| NAMES.map(|name| folder.join(name)));
    match paths.clone().find(|path| path.exists()) {
        Some(path) => link(&path),
        None => {
            let paths: Vec<String> = paths.map(|path| path.display().to_string()).collect();
            eprintln!("missing: the library, as one of {}.", paths.join(", "));
            eprintln!("`make library` makes it, `make install` installs it, and CHOUGHBELL_LIBRARY names another folder.");
            process::exit(1);
        }
    }
}

/// The folders in which the library is looked for.
fn usual() -> Vec<PathBuf> {
    let here = PathBuf::from(env::var_os("CARGO_MANIFEST_DIR").expect("cargo names the folder of the package"));
    let asked = Command::new("pkg-config").args(["--variable=libdir", "choughbell"]).output();
    let said = asked.map_or(String::new(), |output| String::from_utf8_lossy(&output.stdout).trim().to_string());
    let installed = [said.as_str(), "/usr/local/lib", "/usr/lib"].into_iter().filter(|folder| !folder.is_empty());
    std::iter::once(here.join("../target/native")).chain(installed.map(PathBuf::from)).collect()
}

/// Links the library at a path. By its other name it is linked from a copy.
fn link(path: &Path) {
    println!("cargo:rerun-if-changed={}", path.display());
    let mut folder = path.parent().unwrap_or(Path::new(".")).to_path_buf();
    if !path.ends_with(NAMES[0]) {
        folder = PathBuf::from(env::var_os("OUT_DIR").expect("cargo names a folder for what is made"));
        fs::copy(path, folder.join(NAMES[0])).expect("the library can be copied");
    }
    println!("cargo:rustc-link-search=native={}", folder.display());
}
