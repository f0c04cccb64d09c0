//! Finds libthawribbon.a: in the folder that THAWRIBBON_LIBRARY names, or where ./library at the top of the repository
//! writes it. Where it is not there, or is of another version than this crate, the build ends with a line that says what
//! to do.
//!
//! The functions of another version may take other parameters, which no linker sees. So the header that is written or
//! installed with the archive has to say this crate's version.
use std::env;
use std::fs;
use std::path::{Path, PathBuf};

const NAMED_BY: &str = "THAWRIBBON_LIBRARY";
const VERSION: &str = env!("CARGO_PKG_VERSION");

fn main() {
    println!("cargo::rerun-if-env-changed={NAMED_BY}");
    let found = archive_folder().and_then(|folder| of_this_version(&folder).map(|()| folder));
    match found {
        Ok(folder) => {
            println!("cargo::rustc-link-search=native={}", folder.display());
            println!("cargo::rustc-link-lib=static=thawribbon");
        }
        Err(why) => println!("cargo::error={why}"),
    }
}

/// The folder that has the archive, or why there is none.
fn archive_folder() -> Result<PathBuf, String> {
    let (folder, advice) = match env::var_os(NAMED_BY).map(PathBuf::from) {
        // This script and the linker start in different folders, so a relative path would name two places.
        Some(named) if !named.is_absolute() => {
            let shown = named.display();
            return Err(format!("{NAMED_BY} is '{shown}', which is not an absolute path"));
        }
        Some(named) => (named, "THAWRIBBON_LIBRARY must name the folder that has it"),
        None => (
            package().join("../../target/library"),
            "run ./library at the top of the repository first, or name the folder that has it by THAWRIBBON_LIBRARY",
        ),
    };
    let archive = folder.join("libthawribbon.a");
    // Cargo asks again when the archive comes, goes or changes.
    println!("cargo::rerun-if-changed={}", archive.display());
    if archive.is_file() {
        Ok(folder)
    } else {
        Err(format!("there is no {}: {advice}", archive.display()))
    }
}

/// The archive is of this crate's version, by the header that came with it: beside it, or in a prefix's include folder.
fn of_this_version(folder: &Path) -> Result<(), String> {
    let archive = folder.join("libthawribbon.a");
    let places = ["thawribbon.h", "../include/thawribbon.h", "../../include/thawribbon.h"];
    let headers = places.map(|place| folder.join(place));
    let Some(header) = headers.iter().find(|header| header.is_file()) else {
        return Err(format!(
            "there is no thawribbon.h beside {}, or in the include folder of its prefix, to say its version",
            archive.display()
        ));
    };
    println!("cargo::rerun-if-changed={}", header.display());
    let text = fs::read_to_string(header).map_err(|error| format!("{}: {error}", header.display()))?;
    match version_in(&text) {
        Some(VERSION) => Ok(()),
        version => Err(format!(
            "{} is of version {}, by {}, and this crate is of version {VERSION}: run ./library again",
            archive.display(),
            version.unwrap_or("unknown"),
            header.display()
        )),
    }
}

/// What `#define THAWRIBBON_VERSION` gives.
fn version_in(header: &str) -> Option<&str> {
    let defined = header
        .lines()
        .find_map(|line| line.strip_prefix("#define THAWRIBBON_VERSION "))?;
    defined.strip_prefix('"')?.strip_suffix('"')
}

/// The folder of this package.
fn package() -> PathBuf {
    PathBuf::from(env::var_os("CARGO_MANIFEST_DIR").expect("cargo sets CARGO_MANIFEST_DIR"))
}
