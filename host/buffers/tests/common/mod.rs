//! Copies of the sources, in which something is planted. Each test uses a part of this.

#![allow(dead_code)]

use std::fs;
use std::os::unix::fs::symlink;
use std::path::{Path, PathBuf};
use std::process::Command;
use std::sync::atomic::{AtomicUsize, Ordering};

/// Where most is planted.
pub const REPLIES: &str = "crates/replies/src/internal.rt";

static COPIES: AtomicUsize = AtomicUsize::new(0);

pub fn repository() -> PathBuf {
    Path::new(env!("CARGO_MANIFEST_DIR")).join("../..")
}

/// A copy of the repository's crates.txt and crates. Those that stay as they are stand in it as links.
pub struct SourceCopy {
    root: PathBuf,
}

impl SourceCopy {
    pub fn new() -> SourceCopy {
        let number = COPIES.fetch_add(1, Ordering::Relaxed);
        let name = format!("buffers-{}-{number}", std::process::id());
        let root = std::env::temp_dir().join(name);
        fs::create_dir_all(root.join("crates")).unwrap();
        fs::copy(repository().join("crates.txt"), root.join("crates.txt")).unwrap();
        for entry in fs::read_dir(repository().join("crates")).unwrap() {
            let folder = entry.unwrap();
            symlink(folder.path(), root.join("crates").join(folder.file_name())).unwrap();
        }
        SourceCopy { root }
    }

    /// Writes a file, in a crate that from then on is no link.
    fn write(&self, path: &str, text: &str) {
        let file = self.root.join(path);
        let folder: PathBuf = Path::new(path).iter().take(2).collect();
        let link = self.root.join(folder);
        if link.is_symlink() {
            let original = fs::read_link(&link).unwrap();
            fs::remove_file(&link).unwrap();
            copy_folder(&original.join("src"), &link.join("src"));
        }
        fs::create_dir_all(file.parent().unwrap()).unwrap();
        fs::write(file, text).unwrap();
    }

    /// Puts another text in place of one that stands once in a file.
    pub fn replace(self, path: &str, old: &str, new: &str) -> SourceCopy {
        let text = fs::read_to_string(self.root.join(path)).unwrap();
        assert_eq!(text.matches(old).count(), 1, "'{old}' in {path}");
        self.write(path, &text.replace(old, new));
        self
    }

    /// Puts a text at the end of a file, which need not be there yet.
    pub fn append(self, path: &str, text: &str) -> SourceCopy {
        let before = fs::read_to_string(self.root.join(path)).unwrap_or_default();
        self.write(path, &format!("{before}{text}\n"));
        self
    }

    /// Adds a crate with one source, and its line at the end of crates.txt.
    pub fn add_crate(self, name: &str, needs: &str, source: &str, text: &str) -> SourceCopy {
        self.write(&format!("crates/{name}/src/{source}"), text);
        self.append("crates.txt", &format!("{name}: {needs}"))
    }

    /// The status of the program on this copy, and what it says.
    fn run(&self) -> (Option<i32>, String) {
        let program = env!("CARGO_BIN_EXE_buffers");
        let output = Command::new(program).arg(&self.root).output().unwrap();
        let said = [output.stdout, output.stderr].concat();
        (output.status.code(), String::from_utf8(said).unwrap())
    }

    pub fn status(&self) -> Option<i32> {
        self.run().0
    }

    pub fn passes(&self) {
        let (status, said) = self.run();
        assert_eq!(status, Some(0), "{said}");
    }

    /// It is refused, by a line that has this text. Gives all that is said.
    pub fn is_refused(&self, text: &str) -> String {
        let (status, said) = self.run();
        assert_eq!(status, Some(1), "'{text}' is not refused");
        assert!(said.lines().any(|line| line.contains(text)), "'{text}' is not in\n{said}");
        said
    }

    /// It is read whole and refused by lines that all speak of one file, from this line on, and of
    /// which one has this text.
    pub fn is_refused_in(&self, path: &str, first_line: usize, text: &str) {
        for said in self.is_refused(&format!(": {text}")).lines() {
            let at_path = said.strip_prefix(&format!("buffers: {path}:"));
            let line = at_path.and_then(|rest| rest.split(':').next()).map(str::parse::<usize>);
            assert!(matches!(line, Some(Ok(line)) if line >= first_line), "{said}");
            assert!(!said.contains("cannot be read"), "{said}");
        }
    }

    /// How many lines a file has.
    pub fn lines(&self, path: &str) -> usize {
        fs::read_to_string(self.root.join(path)).unwrap_or_default().lines().count()
    }
}

fn copy_folder(from: &Path, to: &Path) {
    fs::create_dir_all(to).unwrap();
    for entry in fs::read_dir(from).unwrap() {
        let entry = entry.unwrap();
        let copy = to.join(entry.file_name());
        if entry.path().is_dir() {
            copy_folder(&entry.path(), &copy);
        } else {
            fs::copy(entry.path(), copy).unwrap();
        }
    }
}

impl Drop for SourceCopy {
    fn drop(&mut self) {
        let _ = fs::remove_dir_all(&self.root);
    }
}

/// The text at the end of a file is refused there for this reason.
pub fn refused_at(copy: SourceCopy, path: &str, text: &str, reason: &str) {
    let lines = copy.lines(path);
    copy.append(path, text).is_refused_in(path, lines + 1, reason);
}

/// The text at the end of the sources of `replies` is refused there for this reason.
pub fn refused(text: &str, reason: &str) {
    refused_at(SourceCopy::new(), REPLIES, text, reason);
}

pub fn passes(text: &str) {
    SourceCopy::new().append(REPLIES, text).passes();
}

/// The text as the statements of a function.
pub fn in_function(statements: &str) -> String {
    format!("fn planted(space: &mut [u8], m: &[u8]) {{ {statements} }}")
}
