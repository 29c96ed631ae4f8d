// Names libesfenruk.a to the linker: in the folder that ESFENRUK_DIR names or, without it, where the repository has it.
use std::path::{Path, PathBuf};
use std::{env, process};

const NAMED_BY: &str = "ESFENRUK_DIR";
const ARCHIVE: &str = "libesfenruk.a";

fn main() {
    let (folder, since) = folder();
    let archive = folder.join(ARCHIVE);
    if !archive.is_file() {
        end(&format!(
            "there is no {ARCHIVE} in {}, {since}.\n\
             To build it in target/staticlib, run at the top of the repository of esfenruk\n    \
             bash .ci/run           (proves and tests everything)\n    \
             tools/library.py       (quicker, where `rt ci` has run)\n\
             or set {NAMED_BY} to the folder of {ARCHIVE}.",
            folder.display()
        ));
    }
    println!("cargo:rerun-if-changed=build.rs");
    println!("cargo:rerun-if-env-changed={NAMED_BY}");
    println!("cargo:rerun-if-changed={}", archive.display());
    println!("cargo:rustc-link-search=native={}", folder.display());
    println!("cargo:rustc-link-lib=static=esfenruk");
    // DEP_ESFENRUK_LIB for the build scripts of the crates that depend on this one.
    println!("cargo:lib={}", folder.display());
}

/// The folder of the archive, and why it is that one. A relative path would be taken from this crate's folder, where nobody looks.
fn folder() -> (PathBuf, &'static str) {
    match env::var_os(NAMED_BY).filter(|named| !named.is_empty()).map(PathBuf::from) {
        Some(folder) if folder.is_absolute() => (folder, "which ESFENRUK_DIR names"),
        Some(folder) => end(&format!("{NAMED_BY} is not an absolute path: {folder:?}")),
        None => (repository().join("target/staticlib"), "as ESFENRUK_DIR is not set"),
    }
}

/// Two folders above this crate's.
fn repository() -> PathBuf {
    let crate_folder = env::var_os("CARGO_MANIFEST_DIR").map(PathBuf::from).unwrap_or_default();
    crate_folder.ancestors().nth(2).unwrap_or(Path::new("/")).to_path_buf()
}

/// Ends the build with a message.
fn end(message: &str) -> ! {
    eprintln!("esfenruk: {message}");
    process::exit(1)
}
