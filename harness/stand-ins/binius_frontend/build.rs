//! Brings in the five files of the frontend from the folder that BINIUS64 names.
//!
//! lower/mod.rs looks for its modules beside itself. So a folder is laid out with links: to the unchanged mod.rs and operand.rs, and to
//! the stand-ins for constraint.rs and expr.rs, also where the folder handed in is a checkout that has its own.

use std::{
    env, fs,
    os::unix::fs::symlink,
    path::{Path, PathBuf},
};

fn main() {
    println!("cargo::rerun-if-env-changed=BINIUS64");
    println!("cargo::rerun-if-changed=stand-in");
    let folder =
        PathBuf::from(env::var("BINIUS64").expect("BINIUS64 names the folder with the seven files: use harness/build"));
    let source = folder.join("crates/frontend/src");
    let out = PathBuf::from(env::var("OUT_DIR").expect("cargo sets OUT_DIR"));
    lay_out_lower(&source, &out);
    bring(&out, "lower", &out.join("lower/mod.rs"));
    for name in ["legraph", "commit_set", "patch"] {
        bring(&out, name, &source.join(format!("pass/fusion/{name}.rs")));
    }
}

fn lay_out_lower(source: &Path, out: &Path) {
    let here = PathBuf::from(env::var("CARGO_MANIFEST_DIR").expect("cargo sets CARGO_MANIFEST_DIR"));
    let lower = out.join("lower");
    fs::create_dir_all(&lower).expect("OUT_DIR is writable");
    for name in ["mod.rs", "operand.rs"] {
        link(&source.join("lower").join(name), &lower.join(name));
    }
    for name in ["constraint.rs", "expr.rs"] {
        link(&here.join("stand-in").join(name), &lower.join(name));
    }
}

fn link(target: &Path, name: &Path) {
    println!("cargo::rerun-if-changed={}", target.display());
    let _ = fs::remove_file(name);
    symlink(target, name).expect("OUT_DIR is writable");
}

fn bring(out: &Path, name: &str, file: &Path) {
    println!("cargo::rerun-if-changed={}", file.display());
    let line = format!("#[path = {:?}]\npub mod {name};\n", file.display().to_string());
    fs::write(out.join(format!("{name}.in")), line).expect("OUT_DIR is writable");
}
