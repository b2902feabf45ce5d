//! Links Debian's cmark.

fn main() {
    println!("cargo:rustc-link-lib=dylib=cmark");
}
