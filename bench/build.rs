//! Links the library's archive, in the folder MUDCANVAS_LIB_DIR or in target/staticlib, that of crate bench_search beside it, and with the feature `peers` CRoaring and sdsl.
use std::path::{Path, PathBuf};
use std::process::Command;

fn main() {
    let here = std::env::var("CARGO_MANIFEST_DIR").expect("cargo sets it");
    let archive = std::env::var_os("MUDCANVAS_LIB_DIR").map_or_else(|| Path::new(&here).join("../target/staticlib"), PathBuf::from);
    println!("cargo:rerun-if-env-changed=MUDCANVAS_LIB_DIR");
    if !archive.join("libmudcanvas.a").is_file() {
        eprintln!("{} is missing: archive.sh writes it", archive.join("libmudcanvas.a").display());
        std::process::exit(1);
    }
    println!("cargo:rerun-if-changed={}", archive.join("libmudcanvas.a").display());
    println!("cargo:rustc-link-search=native={}", archive.display());
    println!("cargo:rustc-link-lib=static=mudcanvas");
    println!("cargo:rerun-if-changed={}", archive.join("libbench_search.a").display());
    println!("cargo:rustc-link-lib=static=bench_search");
    if std::env::var_os("CARGO_FEATURE_PEERS").is_some() {
        peers();
    }
}

fn peers() {
    let out = std::env::var("OUT_DIR").expect("cargo sets it");
    let object = format!("{out}/peers.o");
    let compiled = Command::new("g++").args(["-O3", "-std=c++14", "-w", "-c", "src/peers.cc", "-o", &object]).status();
    let archived = Command::new("ar").args(["rcs", &format!("{out}/libpeers.a"), &object]).status();
    if !(compiled.is_ok_and(|s| s.success()) && archived.is_ok_and(|s| s.success())) {
        eprintln!("src/peers.cc is not compiled: it needs g++, libsdsl-dev and libroaring-dev");
        std::process::exit(1);
    }
    println!("cargo:rerun-if-changed=src/peers.cc");
    println!("cargo:rustc-link-search=native={out}");
    println!("cargo:rustc-link-lib=static=peers");
    println!("cargo:rustc-link-lib=sdsl");
    println!("cargo:rustc-link-lib=roaring");
    println!("cargo:rustc-link-lib=stdc++");
}
