//! The methods of values, and what goes through items.

use crate::bodies::{made, Value};
use crate::expressions::{counted, gives_number};
use crate::generics::Meant;
use crate::reader::Reader;
use crate::remark::Read;
use crate::types::Type;

impl Reader<'_> {
    /// A call of a function of a value's type: its own one, or one that the language has. Another
    /// one is refused, since it could give anything.
    pub fn method(&mut self, of: &Type, name: &str) -> Read<Value> {
        let found = match of {
            Type::Declared(item) => return self.own_method(*item, name),
            Type::Array(element, length) if name == "map" => {
                return self.mapped(of, element, *length);
            }
            Type::Array(element, _) | Type::Slice(element) => self.of_elements(element, name)?,
            Type::Byte | Type::Other | Type::Untyped => self.of_number(of, name)?,
            Type::Option(contents) | Type::Result(contents, _) => self.of_choice(contents, name)?,
            Type::Range(item) | Type::Iterator(item) => self.of_items(item, name)?,
            _ => None,
        };
        match found {
            Some(of) => Ok(made(of)),
            None => self.nothing_says(&[name.to_string()]),
        }
    }

    fn own_method(&mut self, of: usize, name: &str) -> Read<Value> {
        let Some(method) = self.sources.own_item(of, name) else {
            return self.nothing_says(&[name.to_string()]);
        };
        let signature = self.reader_of(method).signature()?;
        // The first is the value itself.
        self.call(&signature, 1)
    }

    /// The values between parentheses, all of one type.
    fn passed(&mut self, of: &Type) -> Read<()> {
        self.arguments(&[(String::new(), of.clone())], true, &mut Meant::new())
    }

    /// The one value between parentheses.
    fn passed_alone(&mut self, wanted: &Type) -> Read<Type> {
        self.cursor.expect("(")?;
        let argument = self.inside(|reader| reader.expression(wanted))?;
        self.hold_unnamed(&argument)?;
        self.cursor.skip_if(",");
        self.cursor.expect(")")?;
        Ok(argument.of)
    }

    /// What the function between parentheses gives, which takes this.
    fn passed_function(&mut self, taken: Type) -> Read<Type> {
        let wanted = Type::Function(vec![taken], Box::new(Type::Untyped));
        match self.passed_alone(&wanted)? {
            Type::Function(_, given) => Ok(counted(*given, &Type::Byte)),
            _ => self.cursor.fault("a function is expected before this"),
        }
    }

    /// What a function makes of each element of an array. The array itself is passed as well.
    fn mapped(&mut self, array: &Type, element: &Type, length: u64) -> Read<Value> {
        let line = self.cursor.line();
        self.hold(array)?;
        let given = self.passed_function(element.clone())?;
        self.array_of(line, given, length)
    }

    /// An array of what a function gives for each index, as long as is written at its place.
    pub fn array_from_function(&mut self, wanted: &Type) -> Read<Value> {
        let line = self.cursor.line();
        let Type::Array(_, length) = wanted else {
            return self.cursor.fault("nothing says how long this array is");
        };
        let given = self.passed_function(Type::Other)?;
        self.array_of(line, given, *length)
    }

    /// What a method of an array or a slice gives.
    fn of_elements(&mut self, element: &Type, name: &str) -> Read<Option<Type>> {
        let slice = Type::Lent(Box::new(Type::Slice(Box::new(element.clone()))));
        let (passed, given) = match name {
            "len" | "is_empty" | "is_sorted" => (Type::Untyped, Type::Other),
            "iter" | "iter_mut" => (Type::Untyped, items(element.clone().lent(1))),
            "chunks_exact" => (Type::Other, items(slice)),
            "copy_from_slice" => (slice, Type::Other),
            "fill" => (element.clone(), Type::Other),
            _ => return Ok(None),
        };
        self.passed(&passed)?;
        Ok(Some(given))
    }

    /// What a method of a number gives: another such number, or whether it is one of some.
    fn of_number(&mut self, of: &Type, name: &str) -> Read<Option<Type>> {
        if name == "is_ascii_digit" {
            self.passed(&Type::Untyped)?;
            return Ok(Some(Type::Other));
        }
        if !gives_number(name) {
            return Ok(None);
        }
        self.passed(of)?;
        Ok(Some(of.clone()))
    }

    /// What a method of a value that is there or not gives.
    fn of_choice(&mut self, contents: &Type, name: &str) -> Read<Option<Type>> {
        let given = match name {
            "unwrap_or" => contents.clone(),
            "is_some" | "is_none" | "is_ok" | "is_err" => Type::Other,
            _ => return Ok(None),
        };
        self.passed(contents)?;
        Ok(Some(given))
    }

    /// What a method of what goes through such items gives.
    fn of_items(&mut self, item: &Type, name: &str) -> Read<Option<Type>> {
        let item = counted(item.clone(), &Type::Byte);
        let given = match name {
            "position" => {
                self.passed_function(item)?;
                return Ok(Some(Type::Option(Box::new(Type::Other))));
            }
            "zip" => {
                let other = self.passed_alone(&Type::Untyped)?;
                if self.bytes_of(&other)? > 0 && other.has_parts() {
                    return self.cursor.fault("bytes that are moved to go through them");
                }
                let other = counted(self.item_of(&other)?, &Type::Byte);
                return Ok(Some(items(Type::Tuple(vec![item, other]))));
            }
            "fold" => return self.folded(item).map(Some),
            "rev" => item,
            "enumerate" => Type::Tuple(vec![Type::Other, item]),
            _ => return Ok(None),
        };
        self.passed(&Type::Untyped)?;
        Ok(Some(items(given)))
    }

    /// What a function makes of a first value and all items. It has that value's type.
    fn folded(&mut self, item: Type) -> Read<Type> {
        self.cursor.expect("(")?;
        let first = self.inside(|reader| reader.expression(&Type::Untyped))?;
        self.hold_unnamed(&first)?;
        self.cursor.expect(",")?;
        let wanted = Type::Function(vec![first.of.clone(), item], Box::new(first.of.clone()));
        let function = self.inside(|reader| reader.expression(&wanted))?;
        self.cursor.skip_if(",");
        self.cursor.expect(")")?;
        match function.of {
            Type::Function(_, given) => Ok(counted(*given, &first.of)),
            _ => self.cursor.fault("a function is expected before this"),
        }
    }

    /// What a value of this type goes through.
    pub fn item_of(&self, of: &Type) -> Read<Type> {
        match of {
            Type::Range(item) | Type::Iterator(item) => Ok(item.as_ref().clone()),
            Type::Array(element, _) => Ok(element.as_ref().clone()),
            Type::Lent(lent) => match lent.as_ref() {
                Type::Array(element, _) | Type::Slice(element) => {
                    Ok(element.as_ref().clone().lent(1))
                }
                _ => self.cursor.fault("what has no items is gone through"),
            },
            _ => self.cursor.fault("what has no items is gone through"),
        }
    }
}

fn items(item: Type) -> Type {
    Type::Iterator(Box::new(item))
}
