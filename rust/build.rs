//! Links libmudcanvas.a from the folder that MUDCANVAS_LIB_DIR names. If it is not set, and the package is in its repository, archive.sh builds the
//! archive if the sources have changed, and it is linked from target/staticlib there.
use std::env;
use std::fs::read_dir;
use std::path::{Path, PathBuf};
use std::process::{Command, exit};

const OTHER: &str = "set MUDCANVAS_LIB_DIR to the full path of a folder that has libmudcanvas.a to link that one";

fn main() {
    println!("cargo::rerun-if-env-changed=MUDCANVAS_LIB_DIR");
    let folder = env::var_os("MUDCANVAS_LIB_DIR").map_or_else(built, PathBuf::from);
    let archive = folder.join("libmudcanvas.a");
    if !archive.is_file() {
        fail(&format!("there is no {}: set MUDCANVAS_LIB_DIR to the full path of the folder that has libmudcanvas.a", archive.display()));
    }
    println!("cargo::rerun-if-changed={}", archive.display());
    println!("cargo::rustc-link-search=native={}", folder.display());
    println!("cargo::rustc-link-lib=static=mudcanvas");
}

/// The folder of the archive in the repository, with the archive built again if the sources have changed.
fn built() -> PathBuf {
    let package = PathBuf::from(env::var_os("CARGO_MANIFEST_DIR").expect("cargo sets it"));
    let repository = package.parent().unwrap_or(Path::new("/"));
    let script = repository.join("archive.sh");
    if !script.is_file() {
        fail("this package links libmudcanvas.a: set MUDCANVAS_LIB_DIR to the full path of the folder that has it");
    }
    let crates = read_dir(repository.join("crates")).into_iter().flatten().flatten();
    // not the folder `out` of a crate, which holds what is proved of it
    let sources = crates.flat_map(|krate| ["src", "specs", "proofs"].map(|folder| krate.path().join(folder)));
    for source in ["archive.sh", "crates.txt"].map(|file| repository.join(file)).into_iter().chain(sources.filter(|folder| folder.is_dir())) {
        println!("cargo::rerun-if-changed={}", source.display());
    }
    match Command::new(&script).output() {
        Ok(output) if output.status.success() => {}
        Ok(output) => fail(&format!("{}{OTHER}", String::from_utf8_lossy(&output.stderr))),
        Err(error) => fail(&format!("{}: {error}\n{OTHER}", script.display())),
    }
    repository.join("target/staticlib")
}

fn fail(message: &str) -> ! {
    for line in message.lines() {
        println!("cargo::error={line}");
    }
    exit(1)
}
