//! The body of a function: its locals, and what it makes without a name.

use crate::generics::Signature;
use crate::reader::Reader;
use crate::remark::Read;
use crate::tokens::Word;
use crate::types::Type;

/// What an expression comes to.
pub struct Value {
    pub of: Type,
    /// What is made has no place yet, and takes one where it is lent, passed, taken apart, tested or
    /// dropped.
    pub made: bool,
    /// The index of the local that it names.
    pub local: Option<usize>,
}

pub fn made(of: Type) -> Value {
    Value { of, made: true, local: None }
}

pub fn placed(of: Type) -> Value {
    Value { of, made: false, local: None }
}

impl Reader<'_> {
    /// Reads a function, and judges its locals.
    pub fn function(&mut self) -> Read<()> {
        let line = self.cursor.line();
        let Signature { parameters, result } = self.signature()?;
        for (name, of) in parameters {
            self.bind(name, of)?;
        }
        self.result = result.clone();
        self.block(&result)?;
        self.judge(line, &format!("fn {} has locals of", self.item.name), self.held);
        Ok(())
    }

    pub fn bind(&mut self, name: String, of: Type) -> Read<()> {
        self.hold(&of)?;
        self.locals.push((name, of));
        Ok(())
    }

    pub fn hold(&mut self, of: &Type) -> Read<()> {
        self.few_parts(of)?;
        self.held = self.held.saturating_add(self.bytes_of(of)?);
        Ok(())
    }

    /// Counts what has no name and is made of several parts, or may be.
    pub fn hold_unnamed(&mut self, value: &Value) -> Read<()> {
        if value.made && value.of.has_parts() {
            self.hold(&value.of)?;
        }
        Ok(())
    }

    /// Gives a local whose type is not known yet that of a value.
    pub fn settle(&mut self, local: usize, of: Type) -> Read<()> {
        let is_open = matches!(self.locals[local].1, Type::Unset | Type::Untyped);
        if is_open && of != Type::Never {
            self.hold(&of)?;
            self.locals[local].1 = of;
        }
        Ok(())
    }

    /// What is read inside brackets or braces, where a brace after a path begins fields again.
    pub fn inside<T>(&mut self, read: impl FnOnce(&mut Self) -> Read<T>) -> Read<T> {
        let took_fields = std::mem::replace(&mut self.takes_fields, true);
        let read = self.deeper(read);
        self.takes_fields = took_fields;
        read
    }

    /// The statements between braces; the value is that of the last one.
    pub fn block(&mut self, wanted: &Type) -> Read<Value> {
        let in_scope = self.locals.len();
        self.cursor.expect("{")?;
        let mut last = Type::Other;
        let mut ends = false;
        while !self.cursor.skip_if("}") {
            let wanted = if self.is_last_statement() { wanted } else { &Type::Untyped };
            last = self.inside(|reader| reader.statement(wanted))?.of;
            ends |= last == Type::Never;
        }
        self.leave_scope(in_scope);
        Ok(made(if ends { Type::Never } else { last }))
    }

    /// Whether no statement ends before the block does.
    fn is_last_statement(&self) -> bool {
        let mut cursor = self.cursor.clone();
        cursor.skip_to(&[";", "}"]).is_ok() && cursor.is("}")
    }

    fn statement(&mut self, wanted: &Type) -> Read<Value> {
        if self.cursor.skip_if("let") {
            self.let_statement()?;
            return Ok(made(Type::Other));
        }
        let ends_itself = self.cursor.is_any(&["if", "match", "while", "loop", "for", "{"])
            || matches!(self.cursor.word(), Word::Lifetime(_));
        let value = if ends_itself { self.primary(wanted)? } else { self.expression(wanted)? };
        if !self.cursor.skip_if(";") || value.of == Type::Never {
            return Ok(value);
        }
        self.hold_unnamed(&value)?;
        Ok(made(Type::Other))
    }

    fn let_statement(&mut self) -> Read<()> {
        let pattern_at = self.cursor.at;
        self.cursor.skip_to(&[":", "=", ";"])?;
        let mut of = Type::Unset;
        if self.cursor.skip_if(":") {
            of = self.read_type()?;
        }
        let mut value = placed(Type::Unset);
        let mut value_at = self.cursor.at;
        if self.cursor.skip_if("=") {
            value_at = self.cursor.at;
            value = self.expression(&of)?;
            if of == Type::Unset {
                of = value.of.clone();
            }
        }
        if self.cursor.skip_if("else") {
            self.block(&Type::Never)?;
        }
        let is_untyped = self.untyped_array == Some((value_at, self.cursor.at));
        self.cursor.expect(";")?;
        let held = self.held;
        let takes_all = self.pattern_at(pattern_at, &of)?;
        if takes_all && is_untyped {
            self.wait_for_type(held, &of)?;
        }
        if !takes_all {
            self.hold_unnamed(&value)?;
        }
        Ok(())
    }

    /// The test of a branch or a loop; the locals of its pattern come into scope.
    pub fn condition(&mut self) -> Read<()> {
        if !self.cursor.skip_if("let") {
            self.tested()?;
            return Ok(());
        }
        let pattern_at = self.cursor.at;
        self.cursor.skip_to(&["="])?;
        self.cursor.expect("=")?;
        let of = self.tested()?.of;
        self.pattern_at(pattern_at, &of)?;
        Ok(())
    }

    /// A value before a block, where a brace never begins fields.
    pub fn tested(&mut self) -> Read<Value> {
        let took_fields = std::mem::replace(&mut self.takes_fields, false);
        let value = self.expression(&Type::Untyped)?;
        self.takes_fields = took_fields;
        self.hold_unnamed(&value)?;
        Ok(value)
    }
}
