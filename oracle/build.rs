//! Finds the original's source. This repository holds no copy of it.
use std::path::Path;

const FILES: [&str; 6] = ["indexes/bitmap.rs", "indexes/rank_select.rs", "encoding/presence.rs", "file/bytes.rs", "file/error.rs", "error.rs"];

fn main() {
    println!("cargo:rerun-if-env-changed=OPEN_EVENT_SRC");
    let Ok(given) = std::env::var("OPEN_EVENT_SRC") else {
        stop("OPEN_EVENT_SRC is not set: set it to the folder `src` of open-event-format, the one with indexes/bitmap.rs");
    };
    let Ok(folder) = Path::new(&given).canonicalize() else {
        stop(&format!("OPEN_EVENT_SRC is {given}, which is no folder"));
    };
    for file in FILES {
        let path = folder.join(file);
        if !path.is_file() {
            stop(&format!("OPEN_EVENT_SRC is {given}, which has no file {file}"));
        }
        println!("cargo:rerun-if-changed={}", path.display());
    }
    println!("cargo:rustc-env=ORIGINAL={}", folder.display());
}

fn stop(why: &str) -> ! {
    eprintln!("{why}");
    std::process::exit(1);
}
