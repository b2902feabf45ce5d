//! Links the archive that `rust/library` writes.

fn main() {
    let archive = concat!(env!("CARGO_MANIFEST_DIR"), "/../../target/staticlib");
    println!("cargo:rerun-if-changed={archive}/libcarve.a");
    println!("cargo:rustc-link-search=native={archive}");
    println!("cargo:rustc-link-lib=static=carve");
}
