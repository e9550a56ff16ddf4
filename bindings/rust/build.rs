//! Links libtiwzerand.a: that of the repository, or the one in the folder that TIWZERAND_LIB names.
use std::{env, path::PathBuf, process::exit};

fn main() {
    println!("cargo:rerun-if-env-changed=TIWZERAND_LIB");
    println!("cargo:rerun-if-changed=build.rs");
    let target =
        (env::var("CARGO_CFG_TARGET_ARCH").unwrap_or_default(), env::var("CARGO_CFG_TARGET_OS").unwrap_or_default());
    if target != ("x86_64".into(), "linux".into()) {
        eprintln!("tiwzerand: the proved library is for x86-64 Linux, and this builds for {} {}", target.0, target.1);
        exit(1);
    }
    let folder = match env::var_os("TIWZERAND_LIB") {
        Some(folder) => PathBuf::from(folder),
        None => PathBuf::from(env!("CARGO_MANIFEST_DIR")).join("../../target/staticlib"),
    };
    let archive = folder.join("libtiwzerand.a");
    println!("cargo:rerun-if-changed={}", archive.display());
    if !archive.is_file() {
        eprintln!(
            "tiwzerand: {} is not there.\nRun `bindings/archive` in the folder of the repository, which proves the library and writes it,\nor set TIWZERAND_LIB to a folder that has libtiwzerand.a.",
            archive.display()
        );
        exit(1);
    }
    println!("cargo:rustc-link-search=native={}", folder.display());
    println!("cargo:rustc-link-lib=static=tiwzerand");
}
