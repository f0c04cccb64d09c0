//! Compiles peer.c with `cc -O3` to a static library, finds those of the crate `trials` and of look.c, and tells the program
//! which compilers built it.
use std::env;
use std::path::Path;
use std::process::Command;

fn main() {
    println!("cargo::rerun-if-changed=peer.c");
    let folder = env::var("OUT_DIR").expect("cargo sets OUT_DIR");
    let object = Path::new(&folder).join("peer.o");
    let archive = Path::new(&folder).join("libpeer.a");
    run(Command::new("cc")
        .args(["-std=c99", "-O3", "-Wall", "-Wextra", "-c", "peer.c", "-o"])
        .arg(&object));
    run(Command::new("ar").arg("crs").arg(&archive).arg(&object));
    println!("cargo::rustc-link-search=native={folder}");
    println!("cargo::rustc-link-lib=static=peer");
    link_built("trials");
    // After peer.c, which calls it.
    link_built("look");
    let rustc = env::var("RUSTC").expect("cargo sets RUSTC");
    println!("cargo::rustc-env=SPEED_RUSTC={}", version(&rustc));
    println!("cargo::rustc-env=SPEED_CC={}", version("cc"));
}

/// Links an archive that `./benchmark --build` makes.
fn link_built(name: &str) {
    let package = env::var("CARGO_MANIFEST_DIR").expect("cargo sets CARGO_MANIFEST_DIR");
    let built = Path::new(&package).join("../../target/staticlib");
    let archive = built.join(format!("lib{name}.a"));
    println!("cargo::rerun-if-changed={}", archive.display());
    if archive.is_file() {
        println!("cargo::rustc-link-search=native={}", built.display());
        println!("cargo::rustc-link-lib=static={name}");
    } else {
        let missing = archive.display();
        println!("cargo::error=there is no {missing}: run ./benchmark --build at the top of the repository first");
    }
}

/// Runs a command to its end, and stops the build where it fails.
fn run(command: &mut Command) {
    let status = command
        .status()
        .unwrap_or_else(|error| panic!("{command:?} did not start: {error}"));
    assert!(status.success(), "{command:?} failed: {status}");
}

/// The first line of what a compiler says of its version.
fn version(compiler: &str) -> String {
    let output = Command::new(compiler).arg("--version").output();
    let text = output
        .map(|output| String::from_utf8_lossy(&output.stdout).into_owned())
        .unwrap_or_default();
    text.lines().next().unwrap_or("unknown").to_string()
}
