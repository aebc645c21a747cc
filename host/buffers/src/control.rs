//! Branches and loops, and the value that each comes to.

use crate::bodies::{made, Value};
use crate::expressions::joined;
use crate::reader::{Loop, Reader};
use crate::remark::Read;
use crate::tokens::Word;
use crate::types::Type;

impl Reader<'_> {
    /// A branch, or a loop with a label or none.
    pub fn control(&mut self, label: Option<&String>, wanted: &Type) -> Read<Value> {
        let in_scope = self.locals.len();
        let keyword = self.cursor.name()?;
        let of = self.deeper(|reader| match keyword.as_str() {
            "if" => reader.branches(wanted),
            "match" => reader.arms(wanted),
            "loop" => reader.repeated(label, wanted),
            "while" => {
                reader.condition()?;
                reader.repeated(label, wanted).and(Ok(Type::Other))
            }
            "for" => {
                reader.counted()?;
                reader.repeated(label, wanted).and(Ok(Type::Other))
            }
            _ => reader.cursor.fault("a loop is expected here"),
        })?;
        self.leave_scope(in_scope);
        Ok(made(of))
    }

    /// The pattern of a `for` and what it goes through. An array is moved to go through it.
    fn counted(&mut self) -> Read<()> {
        let pattern_at = self.cursor.at;
        self.cursor.skip_to(&["in"])?;
        self.cursor.expect("in")?;
        let through = self.tested()?;
        if !through.made && through.of.has_parts() {
            self.hold(&through.of)?;
        }
        let item = self.item_of(&through.of)?;
        self.pattern_at(pattern_at, &item)?;
        Ok(())
    }

    fn branches(&mut self, wanted: &Type) -> Read<Type> {
        let in_scope = self.locals.len();
        self.condition()?;
        let taken = self.block(wanted)?.of;
        self.leave_scope(in_scope);
        if !self.cursor.skip_if("else") {
            return Ok(Type::Other);
        }
        let other = self.primary(wanted)?.of;
        Ok(joined(taken, other))
    }

    fn arms(&mut self, wanted: &Type) -> Read<Type> {
        let matched = self.tested()?.of;
        let mut of = Type::Never;
        self.cursor.expect("{")?;
        while !self.cursor.skip_if("}") {
            let in_scope = self.locals.len();
            self.pattern(&matched)?;
            if self.cursor.skip_if("if") {
                self.condition()?;
            }
            self.cursor.expect("=>")?;
            let arm = self.inside(|reader| reader.arm(wanted))?;
            of = joined(of, arm.of);
            self.leave_scope(in_scope);
            self.cursor.skip_if(",");
        }
        Ok(of)
    }

    /// What an arm comes to. A block ends the arm, whatever stands after it.
    fn arm(&mut self, wanted: &Type) -> Read<Value> {
        if self.cursor.is("{") {
            return self.block(wanted);
        }
        self.expression(wanted)
    }

    /// The block of a loop, and what the loop breaks with.
    fn repeated(&mut self, label: Option<&String>, wanted: &Type) -> Read<Type> {
        let (label, wanted) = (label.cloned(), wanted.clone());
        self.loops.push(Loop { label, wanted, of: Type::Never });
        self.block(&Type::Untyped)?;
        Ok(self.loops.pop().map_or(Type::Never, |ended| ended.of))
    }

    /// A return, break or continue, with the value that it carries or none.
    pub fn jump(&mut self, keyword: &str) -> Read<Value> {
        if keyword == "return" && self.closure_from.is_some() {
            return self.cursor.fault("a return in a closure");
        }
        self.cursor.step();
        let index = self.loop_named()?;
        let wanted = match (keyword, index) {
            ("break", Some(index)) => self.loops[index].wanted.clone(),
            _ => self.result.clone(),
        };
        let mut of = Type::Other;
        if !self.cursor.is_any(&[";", "}", ",", ")", "]"]) {
            of = self.expression(&wanted)?.of;
        }
        if let ("break", Some(index)) = (keyword, index) {
            let ended = &mut self.loops[index];
            ended.of = joined(ended.of.clone(), of);
        }
        Ok(made(Type::Never))
    }

    /// The loop around that has the label that stands here, or the innermost one without a label.
    fn loop_named(&mut self) -> Read<Option<usize>> {
        let Word::Lifetime(label) = self.cursor.word() else {
            return Ok(self.loops.len().checked_sub(1));
        };
        self.cursor.step();
        match self.loops.iter().rposition(|around| around.label.as_ref() == Some(label)) {
            Some(index) => Ok(Some(index)),
            None => self.cursor.fault("no loop around has this label"),
        }
    }
}
