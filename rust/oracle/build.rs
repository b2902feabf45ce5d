// Puts the original into a module with `access.rs` behind it, since its functions are private. Nothing in it is changed but the names that the
// functions in `STOOD_IN` are defined under.
use std::{env, fs, path::Path};

/// The functions that a caller's rule may stand in for: each is defined as `original_..`, and its callers find the one of that name in `access.rs`.
const STOOD_IN: &[&str] = &["format_attribution_with_losses"];

fn main() {
    let original = "../../docs/src/src/bbcode_migrate.rs";
    let access = "src/access.rs";
    println!("cargo:rerun-if-changed={original}");
    println!("cargo:rerun-if-changed={access}");
    let read = |path: &str| fs::read_to_string(path).unwrap_or_else(|e| panic!("{path}: {e}"));
    let renamed = STOOD_IN.iter().fold(read(original), |source, name| {
        let definition = format!("fn {name}(");
        assert_eq!(source.matches(&definition).count(), 1, "{name} is defined once");
        source.replace(&definition, &format!("fn original_{name}("))
    });
    let module = format!("#[allow(dead_code)]\npub mod bbcode_migrate {{\n{renamed}\n{}}}\n", read(access));
    let out = env::var("OUT_DIR").expect("cargo sets OUT_DIR");
    fs::write(Path::new(&out).join("original.rs"), module).expect("OUT_DIR takes a file");
}
