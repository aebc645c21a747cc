//! The crates that make replies and all that they call, by crates.txt.

use std::collections::{BTreeMap, BTreeSet};
use std::fs;
use std::io;
use std::path::{Path, PathBuf};

/// The crate that writes replies.
const REPLIES: &str = "replies";

/// The names on the line of each crate in crates.txt, with the number of the line.
type Lines = BTreeMap<String, (usize, Vec<String>)>;

/// A crate, its line in crates.txt, and the libraries there that are no crates of the repository.
pub struct Used {
    pub name: String,
    pub line: usize,
    pub libraries: Vec<String>,
}

/// The crate that writes replies, every library above it, and all crates that these call. A program
/// is no maker of replies: it lends the message and the space, as whoever calls the book does.
pub fn crates_that_make_replies(root: &Path) -> io::Result<Vec<Used>> {
    let lines = lines(&fs::read_to_string(root.join("crates.txt"))?);
    if !lines.contains_key(REPLIES) {
        return Err(io::Error::other(format!("crates.txt has no crate {REPLIES}")));
    }
    let makes_replies = |name: &&String| {
        called(&lines, vec![name.to_string()]).contains(REPLIES) && !is_program(root, name)
    };
    let makers = lines.keys().filter(makes_replies).cloned().collect();
    Ok(called(&lines, makers).into_iter().map(|name| used(&lines, name)).collect())
}

fn lines(text: &str) -> Lines {
    let mut lines = Lines::new();
    for (index, line) in text.lines().enumerate() {
        let line = line.split('#').next().unwrap_or("");
        if let Some((name, needs)) = line.split_once(':') {
            // Behind the name it may say that the crate is a static library.
            let name = name.split_whitespace().next().unwrap_or("");
            let needs = needs.split_whitespace().map(str::to_string).collect();
            lines.insert(name.to_string(), (index + 1, needs));
        }
    }
    lines
}

fn is_program(root: &Path, name: &str) -> bool {
    root.join("crates").join(name).join("src/main.rt").exists()
}

/// The crates and all crates of this repository that they call, also through others.
fn called(lines: &Lines, mut open: Vec<String>) -> BTreeSet<String> {
    let mut called = BTreeSet::new();
    while let Some(name) = open.pop() {
        if called.insert(name.clone()) {
            let needs = lines[&name].1.iter();
            open.extend(needs.filter(|needed| lines.contains_key(*needed)).cloned());
        }
    }
    called
}

fn used(lines: &Lines, name: String) -> Used {
    let (line, needs) = &lines[&name];
    let is_library = |needed: &&String| !lines.contains_key(*needed);
    let libraries = needs.iter().filter(is_library).cloned().collect();
    Used { line: *line, libraries, name }
}

/// All sources below a folder, in the order of their names.
pub fn sources_below(folder: &Path) -> io::Result<Vec<PathBuf>> {
    let mut entries = Vec::new();
    for entry in fs::read_dir(folder)? {
        entries.push(entry?.path());
    }
    entries.sort();
    let mut sources = Vec::new();
    for path in entries {
        if path.is_dir() {
            sources.extend(sources_below(&path)?);
        } else if path.extension().is_some_and(|extension| extension == "rt") {
            sources.push(path);
        }
    }
    Ok(sources)
}
