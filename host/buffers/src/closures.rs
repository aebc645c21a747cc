//! Closures, and functions that are passed as values.

use crate::bodies::{made, Value};
use crate::expressions::counted;
use crate::generics::Signature;
use crate::reader::Reader;
use crate::remark::Read;
use crate::types::Type;

impl Reader<'_> {
    /// A closure; its locals are counted with those of the function around it.
    pub fn closure(&mut self, wanted: &Type) -> Read<Value> {
        let in_scope = self.locals.len();
        let around = self.closure_from.replace(in_scope);
        let loops = std::mem::take(&mut self.loops);
        let of = self.deeper(|reader| reader.closure_here(wanted))?;
        self.loops = loops;
        self.closure_from = around;
        self.leave_scope(in_scope);
        Ok(made(of))
    }

    fn closure_here(&mut self, wanted: &Type) -> Read<Type> {
        let (expected, mut result) = match wanted {
            Type::Function(parameters, result) => (&parameters[..], result.as_ref().clone()),
            _ => (&[][..], Type::Untyped),
        };
        let mut parameters = Vec::new();
        if !self.cursor.skip_if("||") {
            self.cursor.expect("|")?;
            while !self.cursor.skip_if("|") {
                let of = self.closure_parameter(expected.get(parameters.len()))?;
                parameters.push(of);
                if !self.cursor.is("|") {
                    self.cursor.expect(",")?;
                }
            }
        }
        if self.cursor.skip_if("->") {
            result = self.read_type()?;
        }
        let of = match self.expression(&result)?.of {
            Type::Never if result.is_open() => {
                return self.cursor.fault("nothing says what a closure gives");
            }
            Type::Never => result.clone(),
            of => of,
        };
        Ok(Type::Function(parameters, Box::new(counted(of, &result))))
    }

    /// The pattern of a parameter, with its type or the one that is expected there.
    fn closure_parameter(&mut self, expected: Option<&Type>) -> Read<Type> {
        let pattern_at = self.cursor.at;
        self.cursor.skip_to(&[":", ",", "|"])?;
        let of = match expected {
            _ if self.cursor.skip_if(":") => self.read_type()?,
            Some(of) if !of.is_open() => of.clone(),
            _ => return self.cursor.fault("nothing says what a closure takes"),
        };
        let next = std::mem::replace(&mut self.cursor.at, pattern_at);
        self.deeper(|reader| reader.one_pattern(&of))?;
        self.cursor.at = next;
        Ok(of)
    }

    /// A local that is named in a closure and stands outside of it. It may be moved into the
    /// closure, which has no size here; a byte is only lent.
    pub fn taken_in(&self, local: usize) -> Read<()> {
        let (name, of) = &self.locals[local];
        let is_outside = self.closure_from.is_some_and(|from| local < from);
        if is_outside && *of != Type::Byte && self.bytes_of(of)? > 0 {
            return self.cursor.fault(format!("a closure takes in the bytes of {name}"));
        }
        Ok(())
    }

    /// The function that a local is.
    pub fn local_function(&self, path: &[String]) -> Option<Signature> {
        let local = self.locals.iter().rfind(|local| path == [local.0.as_str()])?;
        let Type::Function(parameters, result) = &local.1 else { return None };
        let unnamed = |of: &Type| (String::new(), of.clone());
        let parameters = parameters.iter().map(unnamed).collect();
        Some(Signature { parameters, result: result.as_ref().clone() })
    }

    /// The function that a path names where it is not called.
    pub fn function_value(&self, path: &[String]) -> Read<Option<Type>> {
        if let Some(number) = self.number_function(path)? {
            return Ok(Some(Type::Function(vec![Type::Untyped], Box::new(number))));
        }
        let Some(item) = self.function_named(path)? else { return Ok(None) };
        let mut reader = self.reader_of(item);
        let Signature { parameters, result } = reader.signature()?;
        if !reader.generics.is_empty() {
            return self.cursor.fault("a function with type parameters that is not called");
        }
        let parameters = parameters.into_iter().map(|parameter| parameter.1).collect();
        Ok(Some(Type::Function(parameters, Box::new(result))))
    }
}
