//! A place among the tokens of a source.

use crate::remark::{Read, Remark};
use crate::tokens::{Token, Word};

#[derive(Clone)]
pub struct Cursor<'a> {
    tokens: &'a [Token],
    pub at: usize,
    /// Whether the first half of the `>>` that stands here was stepped over.
    half: bool,
}

impl<'a> Cursor<'a> {
    /// The last of the tokens is the end.
    pub fn new(tokens: &'a [Token], at: usize) -> Cursor<'a> {
        Cursor { tokens, at, half: false }
    }

    pub fn word(&self) -> &'a Word {
        self.ahead(0)
    }

    pub fn ahead(&self, count: usize) -> &'a Word {
        &self.tokens[(self.at + count).min(self.tokens.len() - 1)].word
    }

    pub fn line(&self) -> usize {
        self.tokens[self.at].line
    }

    pub fn fault<T>(&self, text: impl Into<String>) -> Read<T> {
        Err(Remark { line: self.line(), text: text.into() })
    }

    pub fn step(&mut self) {
        self.at = (self.at + 1).min(self.tokens.len() - 1);
    }

    /// Whether this name or sign stands here.
    pub fn is(&self, text: &str) -> bool {
        is(self.word(), text)
    }

    pub fn is_any(&self, texts: &[&str]) -> bool {
        texts.iter().any(|text| self.is(text))
    }

    /// Steps over this name or sign where it stands here, and gives whether it does.
    pub fn skip_if(&mut self, text: &str) -> bool {
        let found = self.is(text);
        if found {
            self.step();
        }
        found
    }

    pub fn expect(&mut self, text: &str) -> Read<()> {
        if self.skip_if(text) {
            return Ok(());
        }
        self.fault(format!("'{text}' is expected here"))
    }

    pub fn name(&mut self) -> Read<String> {
        let Word::Name(name) = self.word() else {
            return self.fault("a name is expected here");
        };
        self.step();
        Ok(name.clone())
    }

    /// Names joined by `::`.
    pub fn path(&mut self) -> Read<Vec<String>> {
        let mut path = vec![self.name()?];
        while self.is("::") && matches!(self.ahead(1), Word::Name(_)) {
            self.step();
            path.push(self.name()?);
        }
        Ok(path)
    }

    /// Steps over the signs of references that stand here, and gives how many they are.
    pub fn skip_references(&mut self) -> usize {
        if self.skip_if("&&") {
            return 2;
        }
        usize::from(self.skip_if("&"))
    }

    /// Steps over a lifetime where one stands here, and gives whether it does.
    pub fn skip_lifetime(&mut self) -> bool {
        let found = matches!(self.word(), Word::Lifetime(_));
        if found {
            self.step();
        }
        found
    }

    /// Steps over the lifetimes in angle brackets where they stand here.
    pub fn skip_lifetimes(&mut self) -> Read<()> {
        if !self.is("<") || !matches!(self.ahead(1), Word::Lifetime(_)) {
            return Ok(());
        }
        self.step();
        while self.skip_lifetime() {
            self.skip_if(",");
        }
        self.close_angle()
    }

    /// Steps over one `>`, which may be half of a `>>`.
    pub fn close_angle(&mut self) -> Read<()> {
        if !self.is(">>") {
            return self.expect(">");
        }
        self.half = !self.half;
        if !self.half {
            self.step();
        }
        Ok(())
    }

    /// Steps over `pub` where it stands here, with what it may have in parentheses.
    pub fn skip_visibility(&mut self) -> Read<()> {
        if self.skip_if("pub") && self.is("(") && is(self.ahead(1), "crate") {
            self.skip_brackets()?;
        }
        Ok(())
    }

    /// Steps on to the first of these signs that stands in no bracket.
    pub fn skip_to(&mut self, signs: &[&str]) -> Read<()> {
        while !self.is_any(signs) {
            if self.is_any(&["(", "[", "{"]) {
                self.skip_brackets()?;
            } else if self.is_any(&[")", "]", "}"]) || *self.word() == Word::End {
                return self.fault(format!("'{}' is expected here", signs[0]));
            } else {
                self.step();
            }
        }
        Ok(())
    }

    /// Steps over what stands between this bracket and the one that closes it, with both.
    pub fn skip_brackets(&mut self) -> Read<()> {
        let mut open = 0;
        loop {
            if self.is_any(&["(", "[", "{"]) {
                open += 1;
            } else if self.is_any(&[")", "]", "}"]) {
                open -= 1;
            } else if *self.word() == Word::End {
                return self.fault("a bracket is not closed");
            }
            self.step();
            if open == 0 {
                return Ok(());
            }
        }
    }
}

fn is(word: &Word, text: &str) -> bool {
    match word {
        Word::Name(name) => name == text,
        Word::Sign(sign) => *sign == text,
        _ => false,
    }
}
