//! Types, and the bytes that a value of each holds.

use crate::generics::Signature;
use crate::items::Kind;
use crate::reader::Reader;
use crate::remark::Read;
use crate::tokens::Word;

#[derive(Clone, Debug, PartialEq)]
pub enum Type {
    Byte,
    /// A number that is no byte, a bool, or nothing.
    Other,
    /// A type parameter of this name. It stands for what holds one byte at most, which each call
    /// sees to.
    Parameter(String),
    /// A number whose type is not written with it.
    Untyped,
    /// A local that has no value yet.
    Unset,
    /// A range of such numbers.
    Range(Box<Type>),
    /// What does not come to a value, as a return.
    Never,
    Lent(Box<Type>),
    Slice(Box<Type>),
    Array(Box<Type>, u64),
    Tuple(Vec<Type>),
    Option(Box<Type>),
    Result(Box<Type>, Box<Type>),
    /// What goes through such items, which it does not hold itself.
    Iterator(Box<Type>),
    /// A function or a closure of such parameters that gives such a result.
    Function(Vec<Type>, Box<Type>),
    /// The struct or the enum at this index of the items.
    Declared(usize),
}

/// The names and types of the fields of a struct, or of the variant of an enum.
pub struct Shape {
    pub variant: String,
    pub fields: Vec<(String, Type)>,
}

impl Type {
    /// What an array, a slice or a reference to one has as elements.
    pub fn element(&self) -> Option<&Type> {
        match self.behind() {
            Type::Array(element, _) | Type::Slice(element) => Some(element),
            _ => None,
        }
    }

    /// A reference to it, so many times.
    pub fn lent(self, references: usize) -> Type {
        (0..references).fold(self, |of, _| Type::Lent(Box::new(of)))
    }

    /// How many types it is made of.
    fn parts(&self) -> usize {
        let all = |list: &[Type]| list.iter().map(Type::parts).sum::<usize>();
        1 + match self {
            Type::Lent(of) | Type::Slice(of) | Type::Range(of) => of.parts(),
            Type::Iterator(of) | Type::Option(of) | Type::Array(of, _) => of.parts(),
            Type::Result(of, error) => of.parts() + error.parts(),
            Type::Tuple(parts) => all(parts),
            Type::Function(parameters, of) => all(parameters) + of.parts(),
            Type::Byte | Type::Other | Type::Parameter(_) | Type::Declared(_) => 0,
            Type::Untyped | Type::Unset | Type::Never => 0,
        }
    }

    /// Whether it may hold several values.
    pub fn has_parts(&self) -> bool {
        let is_choice = matches!(self, Type::Option(_) | Type::Result(..));
        is_choice || matches!(self, Type::Array(..) | Type::Declared(_) | Type::Tuple(_))
    }

    pub fn behind(&self) -> &Type {
        match self {
            Type::Lent(lent) => lent.behind(),
            _ => self,
        }
    }
}

/// A type has no more parts than this.
const MOST_PARTS: usize = 500;

/// The type of this name that the language has by itself.
pub fn built_in(name: &str) -> Option<Type> {
    match name {
        "u8" | "i8" => Some(Type::Byte),
        "u16" | "u32" | "u64" | "usize" | "i16" | "i32" | "i64" | "isize" | "f32" | "f64"
        | "bool" => Some(Type::Other),
        _ => None,
    }
}

/// The names, besides those types, that stand for what the language has by itself.
const NAMES: [&str; 9] = ["Option", "Some", "None", "Result", "Ok", "Err", "Copy", "Fn", "From"];

pub fn is_of_language(name: &str) -> bool {
    built_in(name).is_some() || NAMES.contains(&name)
}

impl Reader<'_> {
    pub fn read_type(&mut self) -> Read<Type> {
        let of = self.deeper(Self::read_type_here)?;
        self.few_parts(&of)?;
        Ok(of)
    }

    /// Each type could have twice the parts of another one, so that they would have no end.
    pub fn few_parts(&self, of: &Type) -> Read<()> {
        if of.parts() > MOST_PARTS {
            return self.cursor.fault("a type of too many parts");
        }
        Ok(())
    }

    fn read_type_here(&mut self) -> Read<Type> {
        let line = self.cursor.line();
        let references = self.cursor.skip_references();
        if references > 0 {
            self.cursor.skip_lifetime();
            self.cursor.skip_if("mut");
            return Ok(self.read_type()?.lent(references));
        }
        if self.cursor.skip_if("(") {
            return self.tuple_type(line);
        }
        if !self.cursor.skip_if("[") {
            return self.path_type();
        }
        let element = Box::new(self.read_type()?);
        if self.cursor.skip_if("]") {
            return Ok(Type::Slice(element));
        }
        self.cursor.expect(";")?;
        let array = Type::Array(element, self.number()?);
        self.cursor.expect("]")?;
        let bytes = self.bytes_of(&array)?;
        self.judge(line, "the type of an array of", bytes);
        Ok(array)
    }

    /// The types between parentheses: nothing, one type, or a tuple.
    fn tuple_type(&mut self, line: usize) -> Read<Type> {
        let mut parts = Vec::new();
        let mut is_tuple = false;
        while !self.cursor.skip_if(")") {
            parts.push(self.read_type()?);
            if !self.cursor.is(")") {
                self.cursor.expect(",")?;
                is_tuple = true;
            }
        }
        match parts.pop() {
            None => Ok(Type::Other),
            Some(only) if !is_tuple => Ok(only),
            Some(last) => {
                parts.push(last);
                let tuple = Type::Tuple(parts);
                let bytes = self.bytes_of(&tuple)?;
                self.judge(line, "the type of a tuple of", bytes);
                Ok(tuple)
            }
        }
    }

    /// A type by its name, with what it holds in angle brackets.
    fn path_type(&mut self) -> Read<Type> {
        let path = self.cursor.path()?;
        self.cursor.skip_lifetimes()?;
        if let [name] = &path[..] {
            if let Some((_, of)) = self.generics.iter().find(|generic| generic.0 == *name) {
                return Ok(of.clone());
            }
            if name == "Option" || name == "Result" {
                return self.choice_type(name);
            }
        }
        self.type_named(&path)
    }

    fn choice_type(&mut self, name: &str) -> Read<Type> {
        self.cursor.expect("<")?;
        let contents = Box::new(self.read_type()?);
        let of = if name == "Option" {
            Type::Option(contents)
        } else {
            self.cursor.expect(",")?;
            Type::Result(contents, Box::new(self.read_type()?))
        };
        self.cursor.close_angle()?;
        Ok(of)
    }

    fn type_named(&self, path: &[String]) -> Read<Type> {
        match built_in(&path[0]).or(self.declared(path)?) {
            Some(found) => Ok(found),
            None => self.nothing_says(path),
        }
    }

    /// The type that a path names, if it names one.
    fn declared(&self, path: &[String]) -> Read<Option<Type>> {
        let Some(item) = self.named(path) else { return Ok(None) };
        match self.kind_of(item) {
            Kind::Struct | Kind::Enum => Ok(Some(Type::Declared(item))),
            Kind::Alias => Ok(Some(self.reader_of(item).alias()?)),
            _ => Ok(None),
        }
    }

    pub fn alias(&mut self) -> Read<Type> {
        self.cursor.expect("=")?;
        self.read_type()
    }

    /// Reads the type and the value of a constant.
    pub fn constant(&mut self) -> Read<()> {
        let of = self.constant_type()?;
        self.expression(&of)?;
        Ok(())
    }

    /// The bytes that a value of the type holds itself: behind a reference it holds none.
    pub fn bytes_of(&self, of: &Type) -> Read<u64> {
        match of {
            Type::Byte | Type::Parameter(_) => Ok(1),
            Type::Array(element, length) => Ok(self.bytes_of(element)?.saturating_mul(*length)),
            Type::Declared(item) => self.known(*item, |reader| reader.bytes_of_fields()),
            Type::Tuple(parts) => self.bytes_of_all(parts.iter()),
            Type::Option(of) => self.bytes_of(of),
            Type::Result(of, error) => Ok(self.bytes_of(of)?.max(self.bytes_of(error)?)),
            // From one item to another one.
            Type::Range(item) | Type::Iterator(item) => Ok(self.bytes_of(item)?.saturating_mul(2)),
            Type::Other | Type::Untyped | Type::Unset | Type::Never => Ok(0),
            // What a closure takes in is no bytes.
            Type::Lent(_) | Type::Slice(_) | Type::Function(..) => Ok(0),
        }
    }

    fn bytes_of_all<'t>(&self, parts: impl Iterator<Item = &'t Type>) -> Read<u64> {
        let mut sum: u64 = 0;
        for part in parts {
            sum = sum.saturating_add(self.bytes_of(part)?);
        }
        Ok(sum)
    }

    /// The bytes of the fields of this struct, or of the longest variant of this enum.
    fn bytes_of_fields(&mut self) -> Read<u64> {
        let mut most = 0;
        for shape in self.fields_or_variants()? {
            most = most.max(self.bytes_of_all(shape.fields.iter().map(|field| &field.1))?);
        }
        Ok(most)
    }

    /// The shape of a struct, or those of the variants of an enum.
    pub fn shapes(&self, item: usize) -> Read<Vec<Shape>> {
        self.reader_of(item).fields_or_variants()
    }

    pub fn fields_or_variants(&mut self) -> Read<Vec<Shape>> {
        if self.item.kind == Kind::Enum {
            return self.variants();
        }
        Ok(vec![self.shape(String::new())?])
    }

    fn variants(&mut self) -> Read<Vec<Shape>> {
        let mut variants = Vec::new();
        self.cursor.expect("{")?;
        while !self.cursor.skip_if("}") {
            let name = self.cursor.name()?;
            variants.push(self.shape(name)?);
            if self.cursor.skip_if("=") {
                self.number()?;
            }
            self.cursor.skip_if(",");
        }
        Ok(variants)
    }

    /// The fields in braces or in parentheses, or none.
    fn shape(&mut self, variant: String) -> Read<Shape> {
        let mut fields = Vec::new();
        self.cursor.skip_lifetimes()?;
        let named = self.cursor.is("{");
        if named || self.cursor.is("(") {
            self.cursor.step();
            while !self.cursor.skip_if(if named { "}" } else { ")" }) {
                self.cursor.skip_visibility()?;
                let name = if named { self.cursor.name()? } else { fields.len().to_string() };
                if named {
                    self.cursor.expect(":")?;
                }
                fields.push((name, self.read_type()?));
                self.cursor.skip_if(",");
            }
        }
        Ok(Shape { variant, fields })
    }

    /// The type before the last name of a path, if it has one.
    pub fn owner_in(&self, path: &[String]) -> Read<Option<Type>> {
        let before = &path[..path.len() - 1];
        if before.is_empty() {
            return Ok(None);
        }
        Ok(built_in(&before[0]).or(self.declared(before)?))
    }

    /// The struct or the variant that a path names, with its type.
    pub fn shape_named(&self, path: &[String]) -> Read<(Type, Shape)> {
        let candidates =
            [(self.declared(path)?, ""), (self.owner_in(path)?, &path[path.len() - 1])];
        for (of, variant) in candidates {
            let Some(Type::Declared(item)) = of else { continue };
            let mut shapes = self.shapes(item)?.into_iter();
            if let Some(shape) = shapes.find(|shape| shape.variant == variant) {
                return Ok((Type::Declared(item), shape));
            }
        }
        self.nothing_says(path)
    }

    /// Reads the type of a constant, up to its value.
    pub fn constant_type(&mut self) -> Read<Type> {
        self.cursor.expect(":")?;
        let of = self.read_type()?;
        self.cursor.expect("=")?;
        Ok(of)
    }

    /// Reads the parameters of a function with their names, and its result.
    pub fn signature(&mut self) -> Read<Signature> {
        let mut parameters = Vec::new();
        self.type_parameters()?;
        self.cursor.expect("(")?;
        while !self.cursor.skip_if(")") {
            let lent = self.cursor.skip_if("&");
            self.cursor.skip_lifetime();
            self.cursor.skip_if("mut");
            let name = self.cursor.name()?;
            let of = if self.cursor.skip_if(":") {
                self.read_type()?
            } else {
                self.type_named(&["Self".to_string()])?
            };
            parameters.push((name, if lent { Type::Lent(Box::new(of)) } else { of }));
            self.cursor.skip_if(",");
        }
        let result = if self.cursor.skip_if("->") { self.read_type()? } else { Type::Other };
        Ok(Signature { parameters, result })
    }
}

/// The type that a number is written with, if any.
pub fn number_type(word: &Word) -> Type {
    match word {
        Word::Byte => Type::Byte,
        Word::Number(_, of) => built_in(of).unwrap_or(Type::Untyped),
        _ => Type::Untyped,
    }
}
