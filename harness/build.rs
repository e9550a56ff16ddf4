//! With the feature `ours`: where the project's static library is. TIWZERAND_LIB names its folder; without it, it is where
//! `bindings/archive` writes it.

use std::{env, path::Path};

fn main() {
    println!("cargo::rerun-if-changed=build.rs");
    println!("cargo::rerun-if-env-changed=TIWZERAND_LIB");
    if env::var_os("CARGO_FEATURE_OURS").is_none() {
        return;
    }
    let harness = env::var("CARGO_MANIFEST_DIR").expect("cargo tells it");
    let folder = env::var("TIWZERAND_LIB").unwrap_or_else(|_| "../target/staticlib".into());
    let folder = Path::new(&harness).join(folder);
    println!("cargo::rerun-if-changed={}", folder.join("libtiwzerand.a").display());
    println!("cargo::rustc-link-search=native={}", folder.display());
    println!("cargo::rustc-link-lib=static=tiwzerand");
}
