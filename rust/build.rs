//! Links the static library that c/library.sh makes, and has it made where it is missing.

use std::path::Path;
use std::process::{exit, Command};

fn main() {
    let root = Path::new(env!("CARGO_MANIFEST_DIR")).join("..");
    let folder = root.join("target/staticlib");
    let library = folder.join("libpuvolamie_c.a");
    if !library.exists() {
        if let Err(why) = make_library(&root) {
            eprintln!("{why}");
            exit(1);
        }
    }
    println!("cargo:rustc-link-search=native={}", folder.display());
    println!("cargo:rustc-link-lib=static=puvolamie_c");
    println!("cargo:rerun-if-changed={}", library.display());
}

/// Proves the library's crates and builds it, which takes some minutes the first time; or says why not.
fn make_library(root: &Path) -> Result<(), String> {
    let place = root.canonicalize().unwrap_or_default();
    let place = place.display();
    match Command::new(root.join("c/library.sh")).output() {
        Ok(said) if said.status.success() => Ok(()),
        Ok(said) => Err(format!(
            "{}{}`c/library.sh` failed in {place}.",
            String::from_utf8_lossy(&said.stdout),
            String::from_utf8_lossy(&said.stderr)
        )),
        Err(e) => Err(format!("`c/library.sh` could not be run in {place}: {e}.")),
    }
}
