//! Patterns, and the locals that they bind.

use crate::choices::choice_named;
use crate::items::Kind;
use crate::reader::Reader;
use crate::remark::Read;
use crate::tokens::Word;
use crate::types::Type;

impl Reader<'_> {
    /// Binds the locals of the pattern at a token that was stepped over.
    pub fn pattern_at(&mut self, at: usize, of: &Type) -> Read<bool> {
        let next = std::mem::replace(&mut self.cursor.at, at);
        let takes_all = self.pattern(of)?;
        self.cursor.at = next;
        Ok(takes_all)
    }

    /// Binds the locals of a pattern for a value of the type, and tells whether one local takes all
    /// of it. Of several patterns for the same locals the one that holds the most counts.
    pub fn pattern(&mut self, of: &Type) -> Read<bool> {
        let (held, in_scope) = (self.held, self.locals.len());
        let takes_all = self.deeper(|reader| reader.one_pattern(of))?;
        let mut most = self.held;
        while self.cursor.skip_if("|") {
            self.held = held;
            self.locals.truncate(in_scope);
            self.deeper(|reader| reader.one_pattern(of))?;
            most = most.max(self.held);
        }
        self.held = most;
        Ok(takes_all)
    }

    pub fn one_pattern(&mut self, of: &Type) -> Read<bool> {
        if self.cursor.skip_if("&") {
            let Type::Lent(of) = of else {
                return self.cursor.fault("what is no reference is followed");
            };
            return self.one_pattern(of);
        }
        if self.cursor.skip_if("(") {
            return self.tuple_pattern(of);
        }
        self.cursor.skip_if("mut");
        if !matches!(self.cursor.word(), Word::Name(_)) {
            return self.numbers_pattern();
        }
        if self.cursor.is("ref") {
            return self.cursor.fault("a pattern that lends what it binds");
        }
        let path = self.cursor.path()?;
        if let Some(name) = choice_named(&path) {
            return self.choice_pattern(name, of);
        }
        if self.cursor.is_any(&["(", "{"]) {
            self.parts(&path, references_of(of))?;
            return Ok(false);
        }
        if self.cursor.is_any(&["..", "..="]) {
            return self.numbers_pattern();
        }
        let is_local = self.is_new_local(&path)?;
        if is_local {
            self.bind(path[0].clone(), of.clone())?;
        }
        Ok(is_local)
    }

    /// The patterns between parentheses: none, one, or those of the parts of a tuple.
    fn tuple_pattern(&mut self, of: &Type) -> Read<bool> {
        if self.cursor.skip_if(")") {
            return Ok(false);
        }
        let mut first_end = self.cursor.clone();
        first_end.skip_to(&[",", ")"])?;
        if first_end.is(")") {
            let takes_all = self.pattern(of)?;
            self.cursor.expect(")")?;
            return Ok(takes_all);
        }
        let Type::Tuple(parts) = of.behind() else {
            return self.cursor.fault("what is no tuple is taken apart");
        };
        for part in parts {
            self.pattern(&part.clone().lent(references_of(of)))?;
            if !self.cursor.is(")") {
                self.cursor.expect(",")?;
            }
        }
        self.cursor.expect(")")?;
        Ok(false)
    }

    /// What stands behind `Some`, `Ok` or `Err`, and nothing behind `None`.
    fn choice_pattern(&mut self, name: &str, of: &Type) -> Read<bool> {
        let contents = match (name, of.behind()) {
            ("None", Type::Option(_)) => return Ok(false),
            ("Some", Type::Option(contents)) => contents,
            ("Ok", Type::Result(contents, _)) => contents,
            ("Err", Type::Result(_, contents)) => contents,
            _ => return self.nothing_says(&[name.to_string()]),
        };
        self.cursor.expect("(")?;
        self.pattern(&contents.as_ref().clone().lent(references_of(of)))?;
        self.cursor.skip_if(",");
        self.cursor.expect(")")?;
        Ok(false)
    }

    /// Whether a path in a pattern is the name of a local, which a constant and a struct without
    /// fields are not.
    fn is_new_local(&self, path: &[String]) -> Read<bool> {
        if path.len() > 1 || path[0] == "_" {
            return Ok(false);
        }
        let Some(item) = self.named(path) else { return Ok(true) };
        match self.kind_of(item) {
            Kind::Constant => Ok(false),
            Kind::Struct => Ok(!self.shapes(item)?[0].fields.is_empty()),
            _ => Ok(true),
        }
    }

    /// A number, or two with a range between them: nothing is bound.
    fn numbers_pattern(&mut self) -> Read<bool> {
        let start = self.cursor.at;
        while !self.cursor.is("if")
            && (matches!(self.cursor.word(), Word::Number(..) | Word::Byte | Word::Name(_))
                || self.cursor.is_any(&["-", "..", "..=", "::"]))
        {
            self.cursor.step();
        }
        if self.cursor.at == start {
            return self.cursor.fault("a pattern is expected here");
        }
        Ok(false)
    }

    /// The patterns of the fields of a struct or a variant, which may be lent.
    fn parts(&mut self, path: &[String], references: usize) -> Read<()> {
        let (_, shape) = self.shape_named(path)?;
        let named = self.cursor.is("{");
        let mut fields = 0;
        self.cursor.step();
        let close = if named { "}" } else { ")" };
        while !self.cursor.skip_if(close) {
            if self.cursor.skip_if("..") {
                return self.cursor.expect(close);
            }
            let name = if named { self.cursor.name()? } else { fields.to_string() };
            let field = shape.fields.iter().find(|field| field.0 == name);
            let of = field.map_or(Type::Untyped, |field| field.1.clone()).lent(references);
            if named && !self.cursor.skip_if(":") {
                self.bind(name, of)?;
            } else {
                self.pattern(&of)?;
            }
            self.cursor.skip_if(",");
            fields += 1;
        }
        Ok(())
    }
}

/// How often the parts of what is lent are lent.
fn references_of(of: &Type) -> usize {
    usize::from(matches!(of, Type::Lent(_)))
}
