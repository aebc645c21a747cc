//! The examples at the repository's top, composed by its composer, have the logs beside them.

use independent::session;
use std::fs;
use std::path::{Path, PathBuf};
use std::process::Command;

fn top() -> PathBuf {
    Path::new(env!("CARGO_MANIFEST_DIR")).join("../..")
}

fn scripts() -> Vec<PathBuf> {
    let entries = fs::read_dir(top().join("examples")).expect("there are examples");
    let paths = entries.map(|entry| entry.unwrap().path());
    paths.filter(|path| path.extension().is_some_and(|extension| extension == "txt")).collect()
}

#[test]
fn every_example_has_its_log() {
    let composer = top().join("target/compose/compose");
    if !composer.exists() {
        println!("skipped: {} is not built; ./session-log builds it", composer.display());
        return;
    }
    let scripts = scripts();
    assert!(!scripts.is_empty());
    for script in scripts {
        let composed = Command::new(&composer).arg(&script).output().expect("the composer runs");
        assert!(composed.status.success(), "{} cannot be composed", script.display());
        let expected = fs::read(script.with_extension("log")).expect("a log stands beside it");
        assert!(session::log(&composed.stdout) == expected, "{} differs", script.display());
    }
}

#[test]
fn the_session_of_the_program_has_its_log() {
    let folder = top().join("crates/session_log");
    let given = fs::read(folder.join("stdin")).expect("there is a session");
    let expected = fs::read(folder.join("stdout")).expect("there is a log");
    assert_eq!(session::log(&given), expected);
}
