//! Writes the two `mod` lines that bring in word.rs and shift.rs from the folder that BINIUS64 names.

use std::{env, fs, path::Path};

fn main() {
    println!("cargo::rerun-if-env-changed=BINIUS64");
    let folder = env::var("BINIUS64").expect("BINIUS64 names the folder with the seven files: use harness/build");
    bring(&folder, "word", "crates/core/src/word.rs");
    bring(&folder, "shift", "crates/core/src/constraint_system/shift.rs");
}

fn bring(folder: &str, name: &str, path: &str) {
    let file = Path::new(folder).join(path);
    println!("cargo::rerun-if-changed={}", file.display());
    let line = format!("#[path = {:?}]\npub mod {name};\n", file.display().to_string());
    let out = env::var("OUT_DIR").expect("cargo sets OUT_DIR");
    fs::write(Path::new(&out).join(format!("{name}.in")), line).expect("OUT_DIR is writable");
}
