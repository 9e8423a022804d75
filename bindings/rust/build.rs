//! Names the proved archive, libbracket.a, to the linker. BRACKET_ARCHIVES is the folder that holds it, from the root; unset, it's where
//! bindings/archive writes.

use std::env;
use std::path::{Path, PathBuf};

/// The folders to look in. What stands there is for x86-64 alone, as the kit is.
fn folders(root: &Path) -> Vec<PathBuf> {
    if let Some(named) = env::var_os("BRACKET_ARCHIVES") {
        return vec![root.join(named)];
    }
    vec![root.join("target/staticlib")]
}

/// A word in place of the linker's.
fn stop(root: &Path, folders: &[PathBuf]) -> ! {
    eprintln!("The proved code isn't there yet. Run this one command first; it proves the code, which takes about six minutes on two cores:");
    eprintln!("\n    {}\n", root.join("bindings/archive").display());
    for folder in folders {
        eprintln!("There is no libbracket.a in {}.", folder.display());
    }
    if env::var_os("BRACKET_ARCHIVES").is_some() {
        eprintln!("BRACKET_ARCHIVES names that folder: unset it to use what the command makes.");
    }
    std::process::exit(1)
}

fn main() {
    println!("cargo::rerun-if-env-changed=BRACKET_ARCHIVES");
    let package = PathBuf::from(env::var_os("CARGO_MANIFEST_DIR").unwrap_or_default());
    let root = package.ancestors().nth(2).unwrap_or(&package);
    let folders = folders(root);
    let found = folders.iter().find(|f| f.join("libbracket.a").exists());
    let folder = found.unwrap_or_else(|| stop(root, &folders)).display();
    println!("cargo::rustc-link-search=native={folder}");
    println!("cargo::rustc-link-lib=static=bracket");
    println!("cargo::rerun-if-changed={folder}/libbracket.a");
}
