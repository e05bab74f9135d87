//! Links the proved library, libexports.a: from the folder that RUTKSMELN_LIB names, or else from target/staticlib of the repository.

use std::path::{self, Component, Path, PathBuf};
use std::{env, process};

fn main() {
    println!("cargo:rerun-if-env-changed=RUTKSMELN_LIB");
    let folder = archive_folder();
    let archive = folder.join("libexports.a");
    println!("cargo:rerun-if-changed={}", archive.display());
    if !archive.is_file() {
        eprintln!("There is no {}.", archive.display());
        eprintln!("Run `./archive` in {},", repository().display());
        eprintln!("or name the folder of the archive in RUTKSMELN_LIB.");
        process::exit(1);
    }
    println!("cargo:rustc-link-search=native={}", folder.display());
    println!("cargo:rustc-link-lib=static=exports");
}

fn archive_folder() -> PathBuf {
    match env::var_os("RUTKSMELN_LIB") {
        Some(named) => spelled_out(Path::new(&named)),
        None => repository().join("target/staticlib"),
    }
}

/// The folder above this crate's.
fn repository() -> PathBuf {
    let manifest = env::var_os("CARGO_MANIFEST_DIR").expect("cargo names it");
    spelled_out(&Path::new(&manifest).join(".."))
}

/// The path from the root on, without `..`, also of what is not there.
fn spelled_out(path: &Path) -> PathBuf {
    if let Ok(there) = path.canonicalize() {
        return there;
    }
    let mut plain = PathBuf::new();
    for part in path::absolute(path).unwrap_or_else(|_| path.into()).components() {
        match part {
            Component::ParentDir => {
                plain.pop();
            }
            part => plain.push(part),
        }
    }
    plain
}
