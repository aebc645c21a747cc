//! The numbers that stand as the lengths of arrays and the values of constants.

use crate::items::Kind;
use crate::reader::Reader;
use crate::remark::Read;
use crate::tokens::Word;
use crate::types::Type;

/// The operators in groups, those that bind least first.
const OPERATORS: [&[&str]; 6] =
    [&["|"], &["^"], &["&"], &["<<", ">>"], &["+", "-"], &["*", "/", "%"]];

impl Reader<'_> {
    pub fn number(&mut self) -> Read<u64> {
        self.joined_by(0)
    }

    /// Numbers joined by the operators of one group and of those that bind more.
    fn joined_by(&mut self, group: usize) -> Read<u64> {
        let Some(operators) = OPERATORS.get(group) else {
            return self.factor();
        };
        let mut value = self.joined_by(group + 1)?;
        while let Word::Sign(sign) = self.cursor.word() {
            if !operators.contains(sign) {
                break;
            }
            self.cursor.step();
            let right = self.joined_by(group + 1)?;
            value = match applied(sign, value, right) {
                Some(value) => value,
                None => return self.cursor.fault("a number that leaves 64 bits"),
            };
        }
        Ok(value)
    }

    fn factor(&mut self) -> Read<u64> {
        if let Word::Number(value, of) = self.cursor.word() {
            if !of.is_empty() && of != "usize" {
                return self.cursor.fault("a length is a usize");
            }
            self.cursor.step();
            return Ok(*value);
        }
        if self.cursor.skip_if("(") {
            let value = self.deeper(Self::number)?;
            self.cursor.expect(")")?;
            return Ok(value);
        }
        let path = self.cursor.path()?;
        match self.constant_named(&path)? {
            Some(item) => self.known(item, |reader| reader.length_constant()),
            None => self.nothing_says(&path),
        }
    }

    /// The value of this constant, which is a length.
    fn length_constant(&mut self) -> Read<u64> {
        self.cursor.expect(":")?;
        self.cursor.expect("usize")?;
        self.cursor.expect("=")?;
        let value = self.number()?;
        self.cursor.expect(";")?;
        Ok(value)
    }

    /// The constant that a path names, by itself or as a type's own.
    pub fn constant_named(&self, path: &[String]) -> Read<Option<usize>> {
        let mut found = self.named(path);
        if let (None, Some(Type::Declared(of))) = (found, self.owner_in(path)?) {
            found = self.sources.own_item(of, &path[path.len() - 1]);
        }
        Ok(found.filter(|item| self.kind_of(*item) == Kind::Constant))
    }
}

fn applied(sign: &str, left: u64, right: u64) -> Option<u64> {
    match sign {
        "|" => Some(left | right),
        "^" => Some(left ^ right),
        "&" => Some(left & right),
        "<<" => left.checked_mul(2u64.checked_pow(u32::try_from(right).ok()?)?),
        ">>" => left.checked_shr(u32::try_from(right).ok()?),
        "+" => left.checked_add(right),
        "-" => left.checked_sub(right),
        "*" => left.checked_mul(right),
        "/" => left.checked_div(right),
        _ => left.checked_rem(right),
    }
}
