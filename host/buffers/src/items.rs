//! What a source declares and imports.

use crate::cursor::Cursor;
use crate::remark::Read;
use crate::tokens::{Token, Word};
use crate::types::is_of_language;

#[derive(Clone, Copy, PartialEq)]
pub enum Kind {
    Struct,
    Enum,
    Alias,
    Constant,
    Function,
}

/// An item and where it stands: from the token after its name to the one after it, in the file of
/// this index.
pub struct Item {
    pub kind: Kind,
    pub name: String,
    pub file: usize,
    pub at: usize,
    pub end: usize,
    /// The type whose `impl` it stands in.
    pub owner: Option<String>,
}

/// A path that a source imports, and the name that it has there.
pub struct Import {
    pub name: String,
    pub path: Vec<String>,
}

/// The items of the file of this index, and what it imports.
pub fn read_items(file: usize, tokens: &[Token]) -> Read<(Vec<Item>, Vec<Import>)> {
    let cursor = Cursor::new(tokens, 0);
    let mut list = List { cursor, file, items: Vec::new(), imports: Vec::new() };
    while *list.cursor.word() != Word::End {
        list.item(None)?;
    }
    Ok((list.items, list.imports))
}

struct List<'a> {
    cursor: Cursor<'a>,
    file: usize,
    items: Vec<Item>,
    imports: Vec<Import>,
}

impl List<'_> {
    /// Reads one item; `owner` is the type whose `impl` it stands in.
    fn item(&mut self, owner: Option<&String>) -> Read<()> {
        if self.cursor.skip_if("#") {
            self.cursor.skip_if("!");
            return self.cursor.skip_brackets();
        }
        let is_public = self.cursor.is("pub");
        self.cursor.skip_visibility()?;
        if self.cursor.skip_if("use") {
            return self.import(is_public);
        }
        if self.cursor.skip_if("mod") {
            self.cursor.name()?;
            return self.cursor.expect(";");
        }
        if self.cursor.skip_if("impl") {
            return self.owned_items();
        }
        if self.cursor.skip_if("extern") {
            self.cursor.step();
            if !self.cursor.is("fn") {
                return self.cursor.fault("foreign functions, whose sources are not here");
            }
        }
        self.declared(owner)
    }

    /// Reads an import of one path, or of names in braces behind one. Only a path that is passed on
    /// is given another name, so that within a source a name stands for one thing.
    fn import(&mut self, is_public: bool) -> Read<()> {
        let path = self.cursor.path()?;
        if *self.cursor.ahead(1) != Word::Sign("{") {
            let renamed = is_public && self.cursor.skip_if("as");
            let name = if renamed { Some(self.cursor.name()?) } else { None };
            self.imported(path, name)?;
            return self.cursor.expect(";");
        }
        self.cursor.expect("::")?;
        self.cursor.expect("{")?;
        while !self.cursor.skip_if("}") {
            let path = [&path[..], &[self.cursor.name()?]].concat();
            self.imported(path, None)?;
            if !self.cursor.is("}") {
                self.cursor.expect(",")?;
            }
        }
        self.cursor.expect(";")
    }

    /// Takes in an import under its last name or another one.
    fn imported(&mut self, path: Vec<String>, renamed: Option<String>) -> Read<()> {
        let Some(name) = renamed.or(path.last().cloned()) else {
            return self.cursor.fault("an import of nothing");
        };
        self.own_name(&name)?;
        self.imports.push(Import { name, path });
        Ok(())
    }

    /// A name that a source gives to something is none of the language.
    fn own_name(&self, name: &str) -> Read<()> {
        if is_of_language(name) {
            return self.cursor.fault(format!("another {name} than that of the language"));
        }
        Ok(())
    }

    /// The functions of a type, also those by which it is made from another. Of the traits that is
    /// the only one: others change what operators, `for` and calls of methods come to.
    fn owned_items(&mut self) -> Read<()> {
        self.cursor.skip_lifetimes()?;
        let mut owner = self.cursor.name()?;
        self.cursor.skip_lifetimes()?;
        if owner == "From" {
            self.cursor.expect("<")?;
            self.cursor.path()?;
            self.cursor.skip_lifetimes()?;
            self.cursor.close_angle()?;
            self.cursor.expect("for")?;
            owner = self.cursor.name()?;
            self.cursor.skip_lifetimes()?;
        }
        self.cursor.expect("{")?;
        while !self.cursor.skip_if("}") {
            self.item(Some(&owner))?;
        }
        Ok(())
    }

    /// A struct, enum, alias, constant or function, up to its end.
    fn declared(&mut self, owner: Option<&String>) -> Read<()> {
        let Some(kind) = kind_of(self.cursor.word()) else {
            return self.cursor.fault("no item that is known begins here");
        };
        self.cursor.step();
        let name = self.cursor.name()?;
        self.own_name(&name)?;
        let at = self.cursor.at;
        let has_value = matches!(kind, Kind::Constant | Kind::Alias);
        self.cursor.skip_to(if has_value { &[";"] } else { &[";", "{"] })?;
        if !self.cursor.skip_if(";") {
            self.cursor.skip_brackets()?;
        }
        let (file, end, owner) = (self.file, self.cursor.at, owner.cloned());
        self.items.push(Item { kind, name, file, at, end, owner });
        Ok(())
    }
}

fn kind_of(word: &Word) -> Option<Kind> {
    let Word::Name(keyword) = word else { return None };
    match keyword.as_str() {
        "struct" => Some(Kind::Struct),
        "enum" => Some(Kind::Enum),
        "type" => Some(Kind::Alias),
        "const" => Some(Kind::Constant),
        "fn" => Some(Kind::Function),
        _ => None,
    }
}
