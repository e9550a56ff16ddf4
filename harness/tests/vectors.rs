//! The files that are committed for replay programs are those that the harness makes, and the rules agree with them.

use std::{env, fs, path::Path};

use harness::{memory, replay, vectors};

/// Files that a command writes to a folder of its own are, byte for byte, those that are committed.
fn same_files(name: &str, write: fn(&Path) -> std::io::Result<String>, committed: &str, files: &[&str]) {
    let made = env::temp_dir().join(format!("{name}-{}", std::process::id()));
    fs::create_dir_all(&made).expect("a folder can be made");
    write(&made).expect("the folder can be written");
    let committed = Path::new(env!("CARGO_MANIFEST_DIR")).join(committed);
    for file in files {
        let read = |folder: &Path| fs::read(folder.join(file)).expect("the file is there");
        assert!(read(&made) == read(&committed), "{file}");
    }
    fs::remove_dir_all(made).expect("the folder can be removed");
}

#[test]
fn committed_vectors_are_made_anew() {
    same_files(
        "vectors",
        vectors::write,
        "vectors",
        &["house.bin", "house.txt", "decision.bin", "decision.txt", "fuse.bin", "fuse.txt"],
    );
}

#[test]
fn committed_vectors_are_answered_by_the_rules() {
    let replayed =
        replay::replay(&Path::new(env!("CARGO_MANIFEST_DIR")).join("vectors")).expect("the files can be read");
    assert_eq!(replayed, replay::Replayed { vectors: 1379, mismatches: 0 });
}

#[test]
fn committed_checks_in_memory_are_made_anew() {
    same_files("memory", memory::write, "../crates/replay_lower", &["stdin", "stdout"]);
}
