//! The type parameters of functions, and what they stand for in a call.

use std::collections::BTreeMap;

use crate::reader::Reader;
use crate::remark::Read;
use crate::types::{is_of_language, Type};

/// The parameters of a function with their names, and what it gives.
pub struct Signature {
    pub parameters: Vec<(String, Type)>,
    pub result: Type,
}

/// What each type parameter stands for.
pub type Meant = BTreeMap<String, Type>;

impl Type {
    /// The type with what its type parameters stand for in their places, so far as that is known.
    pub fn replaced(&self, meant: &Meant) -> Type {
        let boxed = |of: &Type| Box::new(of.replaced(meant));
        let all = |list: &[Type]| list.iter().map(|of| of.replaced(meant)).collect();
        match self {
            Type::Parameter(name) => meant.get(name).cloned().unwrap_or(Type::Untyped),
            Type::Lent(of) => Type::Lent(boxed(of)),
            Type::Slice(of) => Type::Slice(boxed(of)),
            Type::Range(of) => Type::Range(boxed(of)),
            Type::Iterator(of) => Type::Iterator(boxed(of)),
            Type::Option(of) => Type::Option(boxed(of)),
            Type::Result(of, error) => Type::Result(boxed(of), boxed(error)),
            Type::Array(of, length) => Type::Array(boxed(of), *length),
            Type::Tuple(parts) => Type::Tuple(all(parts)),
            Type::Function(parameters, of) => Type::Function(all(parameters), boxed(of)),
            Type::Byte | Type::Other | Type::Declared(_) => self.clone(),
            Type::Untyped | Type::Unset | Type::Never => self.clone(),
        }
    }

    /// Whether a part of it is not known.
    pub fn is_open(&self) -> bool {
        match self {
            Type::Untyped | Type::Unset => true,
            Type::Lent(of) | Type::Slice(of) | Type::Range(of) => of.is_open(),
            Type::Iterator(of) | Type::Option(of) | Type::Array(of, _) => of.is_open(),
            Type::Result(of, error) => of.is_open() || error.is_open(),
            Type::Tuple(parts) => parts.iter().any(Type::is_open),
            Type::Function(parameters, of) => of.is_open() || parameters.iter().any(Type::is_open),
            Type::Byte | Type::Other | Type::Parameter(_) => false,
            Type::Declared(_) | Type::Never => false,
        }
    }

    fn has_parameters(&self) -> bool {
        self.replaced(&Meant::new()) != *self
    }
}

impl Reader<'_> {
    /// Reads the lifetimes and type parameters of a function where they stand here.
    pub fn type_parameters(&mut self) -> Read<()> {
        if !self.cursor.skip_if("<") {
            return Ok(());
        }
        loop {
            if !self.cursor.skip_lifetime() {
                let name = self.cursor.name()?;
                if is_of_language(&name) {
                    return self.cursor.fault(format!("another {name} than that of the language"));
                }
                let of = self.bound(&name)?;
                self.generics.push((name, of));
            }
            if !self.cursor.skip_if(",") {
                return self.cursor.close_angle();
            }
        }
    }

    /// What a type parameter is bound to: nothing, to be copied, or to be a function. By another
    /// bound it could give what it holds.
    fn bound(&mut self, name: &str) -> Read<Type> {
        if !self.cursor.skip_if(":") || self.cursor.skip_if("Copy") {
            return Ok(Type::Parameter(name.to_string()));
        }
        if !self.cursor.skip_if("Fn") {
            return self.cursor.fault("a bound that is neither Copy nor Fn");
        }
        let mut parameters = Vec::new();
        self.cursor.expect("(")?;
        while !self.cursor.skip_if(")") {
            parameters.push(self.read_type()?);
            self.cursor.skip_if(",");
        }
        let result = if self.cursor.skip_if("->") { self.read_type()? } else { Type::Other };
        Ok(Type::Function(parameters, Box::new(result)))
    }

    /// Takes in what the type parameters in the type of a parameter stand for, by the type of an
    /// argument. Each holds one byte at most, since the function counts one.
    pub fn meet(&self, parameter: &Type, of: &Type, meant: &mut Meant) -> Read<()> {
        match (parameter, of) {
            (_, Type::Never) => Ok(()),
            (Type::Parameter(name), _) => self.stands_for(name, of, meant),
            (Type::Lent(parameter), Type::Lent(of)) => self.meet(parameter, of, meant),
            (
                Type::Slice(parameter) | Type::Array(parameter, _),
                Type::Slice(of) | Type::Array(of, _),
            ) => self.meet(parameter, of, meant),
            (Type::Option(parameter), Type::Option(of)) => self.meet(parameter, of, meant),
            (Type::Function(parameters, result), Type::Function(taken, given)) => {
                for (parameter, of) in parameters.iter().zip(taken) {
                    if *of != Type::Untyped {
                        self.meet(parameter, of, meant)?;
                    }
                }
                self.meet(result, given, meant)
            }
            (Type::Function(..), _) => self.cursor.fault("a function is expected before this"),
            _ if parameter.has_parameters() => {
                self.cursor.fault("nothing says what a type parameter stands for")
            }
            _ => Ok(()),
        }
    }

    fn stands_for(&self, name: &str, of: &Type, meant: &mut Meant) -> Read<()> {
        let bytes = self.bytes_of(of)?;
        if bytes > 1 {
            return self.cursor.fault(format!("{name} stands for {bytes} bytes"));
        }
        let is_number = matches!(of, Type::Untyped | Type::Unset);
        let of = if is_number { Type::Byte } else { of.clone() };
        meant.entry(name.to_string()).or_insert(of);
        Ok(())
    }
}
