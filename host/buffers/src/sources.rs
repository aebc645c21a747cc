//! The sources that are looked through, and which item a path names in one of them.

use std::cell::RefCell;
use std::collections::{BTreeMap, BTreeSet};
use std::fs;
use std::io;
use std::path::Path;

use crate::crates::{crates_that_make_replies, sources_below};
use crate::items::{read_items, Import, Item};
use crate::remark::{Finding, Read, Remark};
use crate::tokens::{tokens, Token};
use crate::types::is_of_language;

pub struct Source {
    pub path: String,
    /// The crate and the modules in it that lead to this one.
    pub module: Vec<String>,
    pub imports: Vec<Import>,
    pub tokens: Vec<Token>,
}

impl Source {
    pub fn finding(&self, remark: Remark) -> Finding {
        Finding { path: self.path.clone(), remark }
    }
}

/// A name is passed on by fewer modules than this.
const MOST_IMPORTS: usize = 16;

#[derive(Default)]
pub struct Sources {
    pub crates: BTreeSet<String>,
    pub files: Vec<Source>,
    pub items: Vec<Item>,
    pub findings: Vec<Finding>,
    /// The bytes of structs and enums and the values of constants, once they are worked out.
    pub known: RefCell<BTreeMap<usize, u64>>,
}

impl Sources {
    pub fn read(root: &Path) -> io::Result<Sources> {
        let mut sources = Sources::default();
        for used in crates_that_make_replies(root)? {
            for library in used.libraries {
                let text =
                    format!("{} uses {library}, which is no crate of this repository", used.name);
                let remark = Remark { line: used.line, text };
                sources.findings.push(Finding { path: "crates.txt".to_string(), remark });
            }
            let folder = root.join("crates").join(&used.name).join("src");
            for file in sources_below(&folder)? {
                let path = file.strip_prefix(root).unwrap_or(&file).to_string_lossy().into_owned();
                let module = module_of(&used.name, file.strip_prefix(&folder).unwrap_or(&file));
                let text = fs::read_to_string(&file)?;
                if let Err(fault) = sources.read_source(&path, module, &text) {
                    sources.findings.push(Finding { path, remark: fault.unread() });
                }
            }
            sources.crates.insert(used.name);
        }
        Ok(sources)
    }

    fn read_source(&mut self, path: &str, module: Vec<String>, text: &str) -> Read<()> {
        let tokens = tokens(text)?;
        let (items, imports) = read_items(self.files.len(), &tokens)?;
        self.items.extend(items);
        self.files.push(Source { path: path.to_string(), module, imports, tokens });
        Ok(())
    }

    /// The item that a path names in a file.
    pub fn named(&self, file: usize, path: &[String]) -> Option<usize> {
        self.named_through(file, path, MOST_IMPORTS)
    }

    /// The item that a path names through at most so many modules that pass it on.
    fn named_through(&self, file: usize, path: &[String], most: usize) -> Option<usize> {
        let whole = self.whole_path(file, path);
        let (name, module) = whole.split_last()?;
        let stands_there = |item: &Item| {
            item.name == *name && item.owner.is_none() && self.files[item.file].module == *module
        };
        self.items.iter().position(stands_there).or_else(|| {
            // The module may pass on what it imports itself.
            let imports_it =
                |source: &Source| source.imports.iter().any(|import| import.name == *name);
            let passes_on = |source: &Source| source.module == *module && imports_it(source);
            let other = self.files.iter().position(passes_on)?;
            self.named_through(other, std::slice::from_ref(name), most.checked_sub(1)?)
        })
    }

    /// A path from its crate on.
    pub fn whole_path(&self, file: usize, path: &[String]) -> Vec<String> {
        let source = &self.files[file];
        let import = source.imports.iter().find(|import| Some(&import.name) == path.first());
        let (start, rest) = match import {
            Some(import) => (&import.path[..], &path[1..]),
            None => (path, &path[..0]),
        };
        let module = &source.module[..];
        let (before, start) = match start[0].as_str() {
            "crate" => (&module[..1], &start[1..]),
            "self" if start.len() > 1 => (module, &start[1..]),
            "super" => (&module[..module.len() - 1], &start[1..]),
            first if start.len() > 1 && self.is_crate(first) => (&module[..0], start),
            _ => (module, start),
        };
        [before, start, rest].concat()
    }

    fn is_crate(&self, name: &str) -> bool {
        name == "std" || self.crates.contains(name)
    }

    /// Modules that have the name of a crate or of a type of the language: a path that begins with
    /// it could lead to either.
    pub fn modules_named_twice(&self) -> impl Iterator<Item = Finding> + '_ {
        let is_taken = |name: &String| self.is_crate(name) || is_of_language(name);
        let files = self.files.iter().filter(move |file| file.module[1..].iter().any(is_taken));
        files.map(|file| {
            let text = "a module with the name of a crate or a type".to_string();
            file.finding(Remark { line: 1, text })
        })
    }

    /// The function or constant of a name in an `impl` of a type, wherever that stands. Of several of
    /// one name, which traits may give it, it is not known which is meant.
    pub fn own_item(&self, of: usize, name: &str) -> Option<usize> {
        let is_own = |index: &usize| {
            let Item { name: own_name, owner: Some(owner), file, .. } = &self.items[*index] else {
                return false;
            };
            own_name == name && self.named(*file, std::slice::from_ref(owner)) == Some(of)
        };
        let mut found = (0..self.items.len()).filter(is_own);
        found.next().filter(|_| found.next().is_none())
    }
}

/// The module of a file: that of the crate for lib.rt, that of its folder for mod.rt, or else one
/// below the folder.
fn module_of(crate_name: &str, file: &Path) -> Vec<String> {
    let is_folder = file == Path::new("lib.rt") || file.ends_with("mod.rt");
    let below = if is_folder { file.with_file_name("") } else { file.with_extension("") };
    let parts = below.iter().map(|part| part.to_string_lossy().into_owned());
    [crate_name.to_string()].into_iter().chain(parts).collect()
}
