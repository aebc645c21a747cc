//! Expressions, and the type that each comes to.

use crate::bodies::{made, placed, Value};
use crate::choices::choice_named;
use crate::generics::{Meant, Signature};
use crate::items::Kind;
use crate::reader::Reader;
use crate::remark::Read;
use crate::tokens::Word;
use crate::types::{built_in, number_type, Type};

/// Where a range may end without a number.
const ENDS: [&str; 6] = [";", "}", ",", ")", "]", "{"];

/// What branches and loops begin with.
pub const CONTROLS: [&str; 5] = ["if", "match", "while", "loop", "for"];

/// What goes on from a value.
const TAKES_ON: [&str; 3] = [".", "[", "?"];

/// The type of two numbers together, or of two ways to one value.
pub fn joined(left: Type, right: Type) -> Type {
    match left {
        Type::Untyped | Type::Unset | Type::Never => right,
        _ => left,
    }
}

/// The type of a value that nothing else tells more of than a hint: a number is a byte then.
pub fn counted(of: Type, hint: &Type) -> Type {
    if of == Type::Never {
        return of;
    }
    joined(joined(of, hint.clone()), Type::Byte)
}

impl Reader<'_> {
    /// An expression; `wanted` is the type that a value has at its place, where that is written.
    pub fn expression(&mut self, wanted: &Type) -> Read<Value> {
        let mut value = self.arithmetic(wanted)?;
        while let Word::Sign(sign) = *self.cursor.word() {
            value = match sign {
                "==" | "!=" | "<" | ">" | "<=" | ">=" | "&&" | "||" => {
                    self.cursor.step();
                    self.arithmetic(&Type::Untyped)?;
                    made(Type::Other)
                }
                ".." | "..=" => self.range(value.of)?,
                _ if sign.ends_with('=') => self.assigned(&value)?,
                _ => return Ok(value),
            };
        }
        Ok(value)
    }

    /// Numbers joined by operators that give a number.
    fn arithmetic(&mut self, wanted: &Type) -> Read<Value> {
        let mut value = self.operand(wanted)?;
        loop {
            let is_shift = self.cursor.is_any(&["<<", ">>"]);
            if !is_shift && !self.cursor.is_any(&["+", "-", "*", "/", "%", "^", "|", "&"]) {
                return Ok(value);
            }
            self.cursor.step();
            let right = self.operand(&Type::Untyped)?.of;
            value = made(if is_shift { value.of } else { joined(value.of, right) });
        }
    }

    fn assigned(&mut self, to: &Value) -> Read<Value> {
        // The locals in it would get a type that is not seen.
        if to.made && to.of.has_parts() {
            return self.cursor.fault("what is made of parts is assigned to");
        }
        self.cursor.step();
        let value = self.deeper(|reader| reader.expression(&to.of))?;
        if let Some(local) = to.local {
            self.settle(local, value.of)?;
        }
        Ok(made(Type::Other))
    }

    /// A range from a number on, to another one or without an end.
    fn range(&mut self, from: Type) -> Read<Value> {
        self.cursor.step();
        let mut of = from;
        if !self.cursor.is_any(&ENDS) {
            of = joined(of, self.arithmetic(&Type::Untyped)?.of);
        }
        Ok(made(Type::Range(Box::new(of))))
    }

    /// A value, with the type that it is turned into.
    fn operand(&mut self, wanted: &Type) -> Read<Value> {
        let mut value = self.deeper(|reader| reader.unary(wanted))?;
        while self.cursor.skip_if("as") {
            value = made(self.read_type()?);
        }
        Ok(value)
    }

    fn unary(&mut self, wanted: &Type) -> Read<Value> {
        let references = self.cursor.skip_references();
        if references > 0 {
            self.cursor.skip_if("mut");
            let lent = self.deeper(|reader| reader.unary(wanted.behind()))?;
            self.hold_unnamed(&lent)?;
            return Ok(made(lent.of.lent(references)));
        }
        if self.cursor.skip_if("*") {
            return match self.deeper(|reader| reader.unary(&Type::Untyped))?.of {
                Type::Lent(of) => Ok(placed(*of)),
                _ => self.cursor.fault("what is no reference is followed"),
            };
        }
        if self.cursor.skip_if("!") || self.cursor.skip_if("-") {
            return Ok(made(self.deeper(|reader| reader.unary(wanted))?.of));
        }
        // Of what a part is taken, or a method is called, the type is another one than the wanted.
        let wanted = if self.is_taken_on() { &Type::Untyped } else { wanted };
        let is_control = self.cursor.is_any(&CONTROLS);
        let mut value = self.primary(wanted)?;
        if is_control && self.cursor.is_any(&TAKES_ON) {
            return self.cursor.fault("parentheses are expected around what ends here");
        }
        loop {
            if self.cursor.skip_if(".") {
                value = self.member(&value)?;
            } else if self.cursor.skip_if("[") {
                value = self.element(&value)?;
            } else if self.cursor.skip_if("?") {
                value = self.contents(&value)?;
            } else {
                return Ok(value);
            }
        }
    }

    /// Whether the value that begins here is followed by what takes a part of it or calls a method.
    fn is_taken_on(&self) -> bool {
        let mut cursor = self.cursor.clone();
        if cursor.is_any(&CONTROLS) {
            return false;
        }
        let mut begins_brackets = cursor.is_any(&["(", "[", "{"]);
        if let Word::Name(_) = cursor.word() {
            if cursor.path().is_err() {
                return false;
            }
            begins_brackets = cursor.is("(") || self.takes_fields && cursor.is("{");
        } else if !begins_brackets {
            cursor.step();
        }
        let is_read = !begins_brackets || cursor.skip_brackets().is_ok();
        is_read && cursor.is_any(&TAKES_ON)
    }

    /// An element of a value, or a part of its elements.
    fn element(&mut self, value: &Value) -> Read<Value> {
        let index = self.inside(|reader| reader.expression(&Type::Untyped))?;
        self.cursor.expect("]")?;
        self.hold_unnamed(value)?;
        match value.of.element().cloned() {
            Some(element) if matches!(index.of, Type::Range(_)) => {
                Ok(placed(Type::Slice(Box::new(element))))
            }
            Some(element) => Ok(placed(element)),
            None => self.cursor.fault("what has no elements is indexed"),
        }
    }

    /// A field of a value, or a call of one of its functions.
    fn member(&mut self, value: &Value) -> Read<Value> {
        let name = match self.cursor.word() {
            Word::Number(index, _) => index.to_string(),
            Word::Name(name) => name.clone(),
            _ => return self.cursor.fault("a field is expected here"),
        };
        self.cursor.step();
        self.hold_unnamed(value)?;
        let of = value.of.behind();
        if self.cursor.is("(") {
            return self.method(of, &name);
        }
        if let (Type::Tuple(parts), Ok(index)) = (of, name.parse::<usize>()) {
            if let Some(part) = parts.get(index) {
                return Ok(placed(part.clone()));
            }
        }
        if let Type::Declared(item) = of {
            let mut fields = self.shapes(*item)?.into_iter().flat_map(|shape| shape.fields);
            if let Some((_, field)) = fields.find(|field| field.0 == name) {
                return Ok(placed(field));
            }
        }
        self.nothing_says(&[name])
    }

    /// The values between parentheses: passed to a function, or made the fields of a value. What the
    /// type parameters stand for is told by them.
    pub fn arguments(
        &mut self,
        parameters: &[(String, Type)],
        passed: bool,
        meant: &mut Meant,
    ) -> Read<()> {
        let mut parameters = parameters.iter().map(|parameter| &parameter.1);
        self.cursor.expect("(")?;
        while !self.cursor.skip_if(")") {
            let parameter = parameters.next().unwrap_or(&Type::Untyped);
            let wanted = parameter.replaced(meant);
            let argument = self.inside(|reader| reader.expression(&wanted))?;
            if passed {
                self.hold_unnamed(&argument)?;
            }
            self.meet(parameter, &argument.of, meant)?;
            self.cursor.skip_if(",");
        }
        Ok(())
    }

    /// A call of a function, or a struct or a variant from its fields.
    fn called(&mut self, path: &[String], wanted: &Type) -> Read<Value> {
        if let Some(name) = choice_named(path) {
            return self.choice(name, wanted);
        }
        if let Some(signature) = self.local_function(path) {
            return self.call(&signature, 0);
        }
        if self.sources.whole_path(self.item.file, path) == ["std", "array", "from_fn"] {
            return self.array_from_function(wanted);
        }
        if let Some(number) = self.number_function(path)? {
            self.arguments(&[], true, &mut Meant::new())?;
            return Ok(made(number));
        }
        if let Some(item) = self.function_named(path)? {
            let signature = self.reader_of(item).signature()?;
            return self.call(&signature, 0);
        }
        let (of, shape) = self.shape_named(path)?;
        self.arguments(&shape.fields, false, &mut Meant::new())?;
        Ok(made(of))
    }

    /// A call of a function, of whose parameters so many come before the parentheses.
    pub fn call(&mut self, signature: &Signature, before: usize) -> Read<Value> {
        let mut meant = Meant::new();
        let parameters = signature.parameters.get(before..).unwrap_or(&[]);
        self.arguments(parameters, true, &mut meant)?;
        let result = signature.result.replaced(&meant);
        if result.is_open() {
            return self.cursor.fault("nothing says what a type parameter stands for");
        }
        Ok(made(result))
    }

    /// The function that a path names, by itself or as a type's own.
    pub fn function_named(&self, path: &[String]) -> Read<Option<usize>> {
        let function = match self.owner_in(path)? {
            Some(Type::Declared(of)) => self.own_function(of, &path[path.len() - 1])?,
            _ => self.named(path),
        };
        Ok(function.filter(|item| self.kind_of(*item) == Kind::Function))
    }

    /// The function of a type, where no variant has its name.
    fn own_function(&self, of: usize, name: &str) -> Read<Option<usize>> {
        let is_variant = self.shapes(of)?.iter().any(|shape| shape.variant == name);
        Ok(self.sources.own_item(of, name).filter(|_| !is_variant))
    }

    /// What a function of the language gives, which is on numbers: its path goes through their type,
    /// or is `std::num` and a name that ends with it.
    pub fn number_function(&self, path: &[String]) -> Read<Option<Type>> {
        match &self.sources.whole_path(self.item.file, path)[..] {
            [first, second, name] if first == "std" && second == "num" => {
                let number = name.rsplit('_').next().and_then(built_in);
                Ok(number.filter(|_| gives_number(name)))
            }
            _ => {
                let is_number = |of: &Type| matches!(of, Type::Byte | Type::Other);
                let gives = path.last().is_some_and(|name| gives_number(name));
                Ok(self.owner_in(path)?.filter(|of| gives && is_number(of)))
            }
        }
    }

    pub fn primary(&mut self, wanted: &Type) -> Read<Value> {
        let line = self.cursor.line();
        let word = self.cursor.word();
        match word {
            Word::Sign("[") => return self.array(wanted),
            Word::Sign("{") => return self.block(wanted),
            Word::Sign("(") => return self.parenthesized(wanted),
            Word::Sign(".." | "..=") => return self.range(Type::Untyped),
            Word::Sign("|" | "||") => return self.closure(wanted),
            Word::Name(name) => return self.name_or_keyword(name, wanted),
            Word::Sign(_) | Word::Text | Word::End => {
                return self.cursor.fault("a value is expected here");
            }
            _ => self.cursor.step(),
        }
        match word {
            Word::Bytes(count) => {
                self.judge(line, "a byte string of", *count);
                let bytes = Type::Array(Box::new(Type::Byte), *count);
                Ok(made(Type::Lent(Box::new(bytes))))
            }
            Word::Lifetime(name) => {
                self.cursor.expect(":")?;
                self.control(Some(name), wanted)
            }
            _ => Ok(made(number_type(word))),
        }
    }

    /// Nothing, a value in parentheses, or a tuple.
    fn parenthesized(&mut self, wanted: &Type) -> Read<Value> {
        let line = self.cursor.line();
        self.cursor.expect("(")?;
        if self.cursor.skip_if(")") {
            return Ok(made(Type::Other));
        }
        let mut first_end = self.cursor.clone();
        first_end.skip_to(&[",", ")"])?;
        // A closure may have a comma between its parameters.
        if first_end.is(",") && !self.cursor.is("|") {
            return self.tuple(line, wanted);
        }
        let value = self.inside(|reader| reader.expression(wanted))?;
        self.cursor.expect(")")?;
        Ok(value)
    }

    /// The parts of a tuple. Numbers whose type nothing says are counted as bytes.
    fn tuple(&mut self, line: usize, wanted: &Type) -> Read<Value> {
        let hints = if let Type::Tuple(parts) = wanted { &parts[..] } else { &[] };
        let mut parts = Vec::new();
        while !self.cursor.skip_if(")") {
            let hint = hints.get(parts.len()).unwrap_or(&Type::Untyped);
            let part = self.inside(|reader| reader.expression(hint))?.of;
            parts.push(counted(part, hint));
            if !self.cursor.is(")") {
                self.cursor.expect(",")?;
            }
        }
        if parts.contains(&Type::Never) {
            return Ok(made(Type::Never));
        }
        let tuple = Type::Tuple(parts);
        let bytes = self.bytes_of(&tuple)?;
        self.judge(line, "a tuple of", bytes);
        Ok(made(tuple))
    }

    /// The elements of an array. Numbers whose type nothing says are counted as bytes.
    fn array(&mut self, wanted: &Type) -> Read<Value> {
        let (line, at) = (self.cursor.line(), self.cursor.at);
        self.cursor.expect("[")?;
        let hint = wanted.element().cloned().unwrap_or(Type::Untyped);
        let mut element = Type::Untyped;
        let mut length = 0;
        while !self.cursor.skip_if("]") {
            element = joined(element, self.inside(|reader| reader.expression(&hint))?.of);
            length += 1;
            if self.cursor.skip_if(";") {
                length = self.number()?;
            }
            self.cursor.skip_if(",");
        }
        if joined(element.clone(), hint.clone()) == Type::Untyped {
            self.untyped_array = Some((at, self.cursor.at));
        }
        self.array_of(line, counted(element, &hint), length)
    }

    /// An array that is made.
    pub fn array_of(&mut self, line: usize, element: Type, length: u64) -> Read<Value> {
        if element == Type::Never {
            return Ok(made(Type::Never));
        }
        let array = Type::Array(Box::new(element), length);
        let bytes = self.bytes_of(&array)?;
        self.judge(line, "an array of", bytes);
        Ok(made(array))
    }

    fn name_or_keyword(&mut self, name: &str, wanted: &Type) -> Read<Value> {
        match name {
            name if CONTROLS.contains(&name) => self.control(None, wanted),
            "return" | "break" | "continue" => self.jump(name),
            "true" | "false" => {
                self.cursor.step();
                Ok(made(Type::Other))
            }
            _ => self.path_value(wanted),
        }
    }

    fn path_value(&mut self, wanted: &Type) -> Read<Value> {
        let path = self.cursor.path()?;
        if self.cursor.is("(") {
            return self.called(&path, wanted);
        }
        if path == ["None"] {
            return self.none(wanted);
        }
        if self.takes_fields && self.cursor.is("{") {
            return self.fields(&path);
        }
        match self.locals.iter().rposition(|local| path == [local.0.as_str()]) {
            Some(local) => {
                self.taken_in(local)?;
                self.told(local, wanted);
                let of = self.locals[local].1.clone();
                Ok(Value { local: Some(local), ..placed(of) })
            }
            None => self.constant_value(&path),
        }
    }

    /// A struct or a variant from its fields.
    fn fields(&mut self, path: &[String]) -> Read<Value> {
        let (of, shape) = self.shape_named(path)?;
        self.cursor.expect("{")?;
        while !self.cursor.skip_if("}") {
            if self.cursor.skip_if("..") {
                let rest = self.expression(&of)?;
                self.hold_unnamed(&rest)?;
                continue;
            }
            let name = self.cursor.name()?;
            let field = shape.fields.iter().find(|field| field.0 == name);
            if self.cursor.skip_if(":") {
                self.expression(field.map_or(&Type::Untyped, |field| &field.1))?;
            } else if let Some(local) = self.locals.iter().rposition(|local| local.0 == name) {
                self.taken_in(local)?;
                self.told(local, field.map_or(&Type::Untyped, |field| &field.1));
            }
            self.cursor.skip_if(",");
        }
        Ok(made(of))
    }

    /// A constant, a function, or a variant or struct, which is a function where it has fields.
    fn constant_value(&self, path: &[String]) -> Read<Value> {
        if let Some(item) = self.constant_named(path)? {
            return Ok(made(self.reader_of(item).constant_type()?));
        }
        if let Some(function) = self.function_value(path)? {
            return Ok(made(function));
        }
        if let Some(of) = built_in(&path[0]) {
            return Ok(made(of));
        }
        let (of, shape) = self.shape_named(path)?;
        if shape.fields.is_empty() {
            return Ok(made(of));
        }
        let fields = shape.fields.into_iter().map(|field| field.1).collect();
        Ok(made(Type::Function(fields, Box::new(of))))
    }
}

/// Whether a function of a number's type gives such a number, by its name.
pub fn gives_number(name: &str) -> bool {
    let starts = ["wrapping_", "saturating_"];
    ["from", "leading_zeros", "min", "max"].contains(&name)
        || starts.iter().any(|start| name.starts_with(start))
}
