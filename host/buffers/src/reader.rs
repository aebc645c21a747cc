//! Reads an item of the sources.

use crate::cursor::Cursor;
use crate::items::{Item, Kind};
use crate::remark::{Read, Remark};
use crate::sources::Sources;
use crate::types::Type;
use crate::waiting::Waiting;

/// What stands in one another deeper than this is not read: it may stand in itself.
const DEEPEST: u32 = 200;

/// A loop, by its label if it has one: the type that it has at its place, and what it breaks with.
pub struct Loop {
    pub label: Option<String>,
    pub wanted: Type,
    pub of: Type,
}

/// Reads an item, and finds what is as long as a 6G1 in it.
pub struct Reader<'a> {
    pub sources: &'a Sources,
    pub item: &'a Item,
    pub cursor: Cursor<'a>,
    pub found: Vec<Remark>,
    /// How deep what is read stands in other things.
    depth: u32,
    /// The locals in scope.
    pub locals: Vec<(String, Type)>,
    /// The bytes of all locals, in scope or not, and of what is made without a name.
    pub held: u64,
    /// The loops around.
    pub loops: Vec<Loop>,
    /// What the function gives.
    pub result: Type,
    /// The type parameters of the function.
    pub generics: Vec<(String, Type)>,
    /// Where the last array of numbers whose type nothing said yet began and ended.
    pub untyped_array: Option<(usize, usize)>,
    /// The locals that such an array was given to.
    pub waiting: Vec<Waiting>,
    /// In a closure, how many locals stand around it.
    pub closure_from: Option<usize>,
    /// Whether a brace after a path begins the fields of a struct.
    pub takes_fields: bool,
}

impl<'a> Reader<'a> {
    pub fn new(sources: &'a Sources, item: &'a Item) -> Reader<'a> {
        Reader {
            sources,
            item,
            cursor: Cursor::new(&sources.files[item.file].tokens, item.at),
            found: Vec::new(),
            depth: 0,
            locals: Vec::new(),
            held: 0,
            loops: Vec::new(),
            result: Type::Never,
            generics: Vec::new(),
            untyped_array: None,
            waiting: Vec::new(),
            closure_from: None,
            takes_fields: true,
        }
    }

    pub fn judge(&mut self, line: usize, what: &str, bytes: u64) {
        if bytes >= crate::SHORTEST_6G1 {
            self.found.push(Remark { line, text: format!("{what} {bytes} bytes") });
        }
    }

    /// Reads what stands one deeper.
    pub fn deeper<T>(&mut self, read: impl FnOnce(&mut Self) -> Read<T>) -> Read<T> {
        if self.depth > DEEPEST {
            return self.cursor.fault("what stands too deep in other things, or in itself");
        }
        self.depth += 1;
        let read = read(self);
        self.depth -= 1;
        read
    }

    pub fn nothing_says<T>(&self, path: &[String]) -> Read<T> {
        self.cursor.fault(format!("nothing says what {} is", path.join("::")))
    }

    /// The item that a path names.
    pub fn named(&self, path: &[String]) -> Option<usize> {
        let owner = self.item.owner.as_ref().filter(|_| path == ["Self"]);
        self.sources.named(self.item.file, owner.map_or(path, std::slice::from_ref))
    }

    /// A reader of another item, for what it declares.
    pub fn reader_of(&self, item: usize) -> Reader<'a> {
        let reader = Reader::new(self.sources, &self.sources.items[item]);
        Reader { depth: self.depth + 1, ..reader }
    }

    pub fn kind_of(&self, item: usize) -> Kind {
        self.sources.items[item].kind
    }

    /// A number that another item has, which is worked out once.
    pub fn known(
        &self,
        item: usize,
        work_out: impl FnOnce(&mut Reader<'a>) -> Read<u64>,
    ) -> Read<u64> {
        if let Some(number) = self.sources.known.borrow().get(&item) {
            return Ok(*number);
        }
        let number = self.reader_of(item).deeper(work_out)?;
        self.sources.known.borrow_mut().insert(item, number);
        Ok(number)
    }
}
