//! Locals whose numbers have a type that only their use tells, as in `let mut a = [0; 640];`.

use crate::reader::Reader;
use crate::remark::{Read, Remark};
use crate::types::Type;

/// A local that counts as an array of bytes unless its use tells otherwise before its scope ends.
pub struct Waiting {
    local: usize,
    bytes: u64,
    remark: Option<Remark>,
}

impl Reader<'_> {
    /// The last local was given such an array; so many bytes were held before.
    pub fn wait_for_type(&mut self, held: u64, of: &Type) -> Read<()> {
        let bytes = self.bytes_of(of)?;
        let is_found = bytes >= crate::SHORTEST_6G1;
        // What was found last is the array itself.
        let remark = if is_found { self.found.pop() } else { None };
        self.held = held;
        self.waiting.push(Waiting { local: self.locals.len() - 1, bytes, remark });
        Ok(())
    }

    /// A local stands where a value of this type is wanted, which tells that its numbers are no
    /// bytes where those of the type are none.
    pub fn told(&mut self, local: usize, wanted: &Type) {
        let Some(index) = self.waiting.iter().position(|waiting| waiting.local == local) else {
            return;
        };
        if let (Some(Type::Other), Type::Array(_, length)) =
            (wanted.element(), &self.locals[local].1)
        {
            self.locals[local].1 = Type::Array(Box::new(Type::Other), *length);
            self.waiting.remove(index);
        }
    }

    /// Leaves the scope of all locals but the first ones. Those that still wait hold bytes.
    pub fn leave_scope(&mut self, first: usize) {
        self.locals.truncate(first);
        while let Some(index) = self.waiting.iter().position(|waiting| waiting.local >= first) {
            let waiting = self.waiting.remove(index);
            self.held = self.held.saturating_add(waiting.bytes);
            self.found.extend(waiting.remark);
        }
    }
}
