//! Says where libglintstring.a is to be looked for when something is linked: in the folder that GLINTSTRING_LIB_DIR names, or else where
//! `packaging/library` writes it. Only with the feature `prove` is it proved and built here, by `rt lib` in `crates/glintstring_c`. A check and a
//! documentation link nothing, so a library that is missing is no error of this script.

use std::env;
use std::fs::{self, OpenOptions};
use std::io::Write;
use std::path::{Path, PathBuf};
use std::process::{exit, Command};
use std::time::Instant;

const VARIABLE: &str = "GLINTSTRING_LIB_DIR";
const ARCHIVE: &str = "libglintstring.a";

fn main() {
    for variable in [VARIABLE, "DOCS_RS"] {
        println!("cargo:rerun-if-env-changed={variable}");
    }
    // Set where a service builds documentation: nothing is linked there, and nobody is to be warned.
    if env::var_os("DOCS_RS").is_some() {
        return;
    }
    let folder = match env::var_os(VARIABLE) {
        Some(folder) if !folder.is_empty() => Some(given(Path::new(&folder))),
        _ if env::var_os("CARGO_FEATURE_PROVE").is_some() => Some(proved()),
        _ => expected(),
    };
    println!("cargo:rustc-link-lib=static=glintstring");
    if let Some(folder) = folder {
        println!("cargo:rustc-link-search=native={}", folder.display());
    }
}

fn fail(why: String) -> ! {
    eprintln!("glintstring: {why}");
    exit(1)
}

/// A line that cargo prints once this script has ended.
fn warn(what: String) {
    println!("cargo:warning={what}");
}

fn missing(what: String) {
    warn(format!("{what}. `cargo check` and `cargo doc` do without it, and linking fails"));
}

/// Whether the folder has the library. This script runs again when it comes, and when it changes.
fn has_library(folder: &Path) -> bool {
    let archive = folder.join(ARCHIVE);
    println!("cargo:rerun-if-changed={}", archive.display());
    archive.is_file()
}

/// The folder that the variable names.
fn given(folder: &Path) -> PathBuf {
    let name = folder.display();
    if !folder.is_absolute() {
        fail(format!("{VARIABLE} is to be a folder from the root on (/...), and is '{name}'"));
    }
    if !has_library(folder) {
        missing(format!("{VARIABLE} is '{name}', and that folder has no {ARCHIVE}"));
    }
    folder.to_path_buf()
}

/// The top of the repository.
fn root() -> PathBuf {
    let root = Path::new(env!("CARGO_MANIFEST_DIR")).join("../..");
    root.canonicalize().unwrap_or(root)
}

/// Why the toolchain can't write a library for the target, where that is so.
fn no_library() -> Option<String> {
    let target = |part| env::var(part).unwrap_or_default();
    let machine = target("CARGO_CFG_TARGET_ARCH");
    let system = target("CARGO_CFG_TARGET_OS");
    (machine != "x86_64" || system != "linux").then(|| {
        format!(
            "there is no {ARCHIVE} for {machine} {system}: the proved library is for x86-64 Linux. Set {VARIABLE} to a folder that has one; \
             in the repository `{VARIABLE}=$(tests/helpers/library)` compiles the sources as they stand for the machine at hand, unproved"
        )
    })
}

/// The folder in which the proved library is left, whether it has been or not.
fn expected() -> Option<PathBuf> {
    if let Some(why) = no_library() {
        missing(why);
        return None;
    }
    let folder = root().join("target/staticlib");
    if !has_library(&folder) {
        missing(format!(
            "there is no {ARCHIVE} in {}. `packaging/library` proves and writes it, in {}; the feature `prove` has the build do so; \
             {VARIABLE} names another folder",
            folder.display(),
            root().display()
        ));
    }
    Some(folder)
}

/// The same folder, with the library proved and built there.
fn proved() -> PathBuf {
    if let Some(why) = no_library() {
        fail(why);
    }
    let root = root();
    // The library is written while this script runs, so what is looked at for changes is what it is made of.
    for sources in ["crates", "crates.txt"] {
        println!("cargo:rerun-if-changed={}", root.join(sources).display());
    }
    let waiting = "waiting for `rt lib` in crates/glintstring_c, which proves and builds the library: minutes, unless that has been done";
    warn(waiting.to_string());
    // Cargo holds warnings back until this script has ended, and takes its standard error.
    if let Ok(mut terminal) = OpenOptions::new().write(true).open("/dev/tty") {
        _ = writeln!(terminal, "\rglintstring: {waiting}\x1b[K");
    }
    let since = Instant::now();
    let sources = root.join("crates/glintstring_c");
    let status = Command::new("rt").args(["lib", "--cpu", "x86-64"]).current_dir(&sources).status();
    let instead = format!("Set {VARIABLE} to a folder that has {ARCHIVE} to do without it");
    match status {
        Err(error) => fail(format!("`rt`, the Rattle toolchain, cannot be run ({error}). {instead}")),
        Ok(status) if !status.success() => fail(format!("`rt lib` failed in crates/glintstring_c ({status}). {instead}")),
        Ok(_) => warn(format!("the library is proved and built ({} s)", since.elapsed().as_secs())),
    }
    // An archive is named by its crate there, and here by what is linked.
    let built = sources.join("out/libglintstring_c.a");
    if !built.is_file() {
        fail("`rt lib` left no libglintstring_c.a in crates/glintstring_c/out".to_string());
    }
    let folder = root.join("target/staticlib");
    if let Err(error) = fs::create_dir_all(&folder).and_then(|()| fs::copy(&built, folder.join(ARCHIVE))) {
        fail(format!("{ARCHIVE} cannot be written to {} ({error}). {instead}", folder.display()));
    }
    folder
}
