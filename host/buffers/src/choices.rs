//! Values that are there or not: `Some` and `None`, `Ok` and `Err`.

use crate::bodies::{made, Value};
use crate::expressions::counted;
use crate::reader::Reader;
use crate::remark::Read;
use crate::types::Type;

/// The name of one of them, where a path is that.
pub fn choice_named(path: &[String]) -> Option<&str> {
    match path {
        [name] if ["Some", "None", "Ok", "Err"].contains(&name.as_str()) => Some(name),
        _ => None,
    }
}

impl Reader<'_> {
    /// `Some`, `Ok` or `Err` with its contents. Of a result the other contents could be anything
    /// where nothing says its type.
    pub fn choice(&mut self, name: &str, wanted: &Type) -> Read<Value> {
        let hint = match (name, wanted) {
            ("Some", Type::Option(of)) => of.as_ref().clone(),
            ("Some", _) => Type::Untyped,
            ("Ok", Type::Result(of, _)) | ("Err", Type::Result(_, of)) => of.as_ref().clone(),
            _ => return self.nothing_says(&[name.to_string()]),
        };
        self.cursor.expect("(")?;
        let of = self.inside(|reader| reader.expression(&hint))?.of;
        self.cursor.skip_if(",");
        self.cursor.expect(")")?;
        match name {
            _ if of == Type::Never => Ok(made(Type::Never)),
            "Some" => Ok(made(Type::Option(Box::new(counted(of, &hint))))),
            _ => Ok(made(wanted.clone())),
        }
    }

    pub fn none(&self, wanted: &Type) -> Read<Value> {
        match wanted {
            Type::Option(_) => Ok(made(wanted.clone())),
            _ => self.nothing_says(&["None".to_string()]),
        }
    }

    /// What `?` goes on with.
    pub fn contents(&mut self, value: &Value) -> Read<Value> {
        if self.closure_from.is_some() {
            return self.cursor.fault("a return in a closure");
        }
        self.hold_unnamed(value)?;
        match &value.of {
            Type::Option(of) | Type::Result(of, _) => Ok(made(of.as_ref().clone())),
            _ => self.cursor.fault("what is neither an Option nor a Result has no contents"),
        }
    }
}
