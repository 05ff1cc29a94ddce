//! Links the library's archive, which compare.sh has brought up to date.
fn main() {
    let folder = format!("{}/../target/staticlib", env!("CARGO_MANIFEST_DIR"));
    println!("cargo:rustc-link-search=native={folder}");
    println!("cargo:rustc-link-lib=static=mudcanvas");
    println!("cargo:rerun-if-changed={folder}/libmudcanvas.a");
}
