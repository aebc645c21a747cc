//! The tokens of a Rattle source: its comments, contracts and ghost lines are left out.

use crate::remark::{Read, Remark};
use crate::types::built_in;

#[derive(Clone, Debug, PartialEq)]
pub enum Word {
    Name(String),
    /// A number and the type written behind it, which may be empty.
    Number(u64, String),
    /// One byte in quotes.
    Byte,
    /// A byte string of so many bytes.
    Bytes(u64),
    /// A text that is no bytes, as after `extern`.
    Text,
    Lifetime(String),
    Sign(&'static str),
    End,
}

#[derive(Clone, Debug)]
pub struct Token {
    pub word: Word,
    pub line: usize,
}

/// The signs of the language; of two that begin alike the longer stands first.
const SIGNS: [&str; 47] = [
    "<<=", ">>=", "..=", "::", "->", "=>", "==", "!=", "<=", ">=", "&&", "||", "+=", "-=", "*=",
    "/=", "%=", "^=", "&=", "|=", "<<", ">>", "..", "+", "-", "*", "/", "%", "^", "&", "|", "!",
    "=", "<", ">", "(", ")", "[", "]", "{", "}", ",", ";", ":", ".", "#", "?",
];

struct Lexer<'a> {
    text: &'a [u8],
    at: usize,
    line: usize,
}

pub fn tokens(text: &str) -> Read<Vec<Token>> {
    let mut lexer = Lexer { text: text.as_bytes(), at: 0, line: 1 };
    let mut tokens: Vec<Token> = Vec::new();
    let public = Word::Name("pub".to_string());
    loop {
        lexer.skip_space()?;
        let line = lexer.line;
        let word = lexer.word()?;
        match &word {
            Word::End => {
                tokens.push(Token { word, line });
                return Ok(tokens);
            }
            Word::Name(name) if ["requires", "ensures"].contains(&name.as_str()) => {
                lexer.skip_space()?;
                lexer.name(); // Of several clauses each has one.
                lexer.skip_space()?;
                lexer.skip_clause()?;
            }
            Word::Name(name) if name == "ghost" => {
                let is_public = tokens.last().is_some_and(|last| last.word == public);
                if lexer.skip_ghost()? && is_public {
                    tokens.pop(); // What it makes public is left out.
                }
            }
            _ => tokens.push(Token { word, line }),
        }
    }
}

fn begins_name(byte: u8) -> bool {
    byte.is_ascii_alphabetic() || byte == b'_'
}

fn continues_name(byte: u8) -> bool {
    begins_name(byte) || byte.is_ascii_digit()
}

impl Lexer<'_> {
    fn fault<T>(&self, text: &str) -> Read<T> {
        Err(Remark { line: self.line, text: text.to_string() })
    }

    /// The byte so far ahead, or zero past the end.
    fn ahead(&self, count: usize) -> u8 {
        self.text.get(self.at + count).copied().unwrap_or(0)
    }

    fn starts_with(&self, text: &str) -> bool {
        self.text[self.at..].starts_with(text.as_bytes())
    }

    fn step(&mut self) -> Read<u8> {
        let Some(&byte) = self.text.get(self.at) else {
            return self.fault("the source ends too early");
        };
        self.at += 1;
        self.line += usize::from(byte == b'\n');
        Ok(byte)
    }

    fn skip_past(&mut self, last: u8) -> Read<()> {
        while self.step()? != last {}
        Ok(())
    }

    fn skip_space(&mut self) -> Read<()> {
        loop {
            if self.ahead(0).is_ascii_whitespace() {
                self.step()?;
            } else if self.starts_with("//") {
                while self.at < self.text.len() && self.ahead(0) != b'\n' {
                    self.step()?;
                }
            } else if self.starts_with("/*") {
                self.skip_comment()?;
            } else {
                return Ok(());
            }
        }
    }

    /// Skips a comment, with the comments in it.
    fn skip_comment(&mut self) -> Read<()> {
        let mut open = 0;
        loop {
            if self.starts_with("/*") {
                open += 1;
                self.at += 2;
            } else if self.starts_with("*/") {
                open -= 1;
                self.at += 2;
            } else {
                self.step()?;
            }
            if open == 0 {
                return Ok(());
            }
        }
    }

    /// Skips a ghost clause, a ghost line up to its end, or a ghost field or member, which is a name
    /// and a clause. Gives whether it is one that may be public.
    fn skip_ghost(&mut self) -> Read<bool> {
        self.skip_space()?;
        if self.ahead(0) == b'{' {
            return self.skip_clause().and(Ok(false));
        }
        if self.name() == "use" {
            while self.text_of_logic()? != b';' {}
            return Ok(true);
        }
        self.skip_space()?;
        let end = match self.ahead(0) {
            b':' => b',',
            b'=' => b';',
            _ => return self.fault("a ghost that is no clause and no import"),
        };
        self.step()?;
        self.skip_space()?;
        self.skip_clause()?;
        self.skip_space()?;
        if self.ahead(0) == end {
            self.step()?;
        }
        Ok(true)
    }

    /// Skips the braces of a clause.
    fn skip_clause(&mut self) -> Read<()> {
        let mut open = 0;
        loop {
            match self.text_of_logic()? {
                b'{' => open += 1,
                b'}' => open -= 1,
                _ if open == 0 => return self.fault("a clause without braces"),
                _ => (),
            }
            if open == 0 {
                return Ok(());
            }
        }
    }

    /// Steps over one byte of what is written in the language of proofs, or over a text in quotes
    /// there. Its comments are refused, since they could hide where it ends.
    fn text_of_logic(&mut self) -> Read<u8> {
        if self.starts_with("--") || self.starts_with("{-") {
            return self.fault("a comment in a clause or a ghost line");
        }
        let byte = self.step()?;
        if byte == b'"' {
            while self.ahead(0) != b'"' {
                self.escaped()?;
            }
            self.step()?;
        }
        Ok(byte)
    }

    fn word(&mut self) -> Read<Word> {
        let byte = self.ahead(0);
        if self.at == self.text.len() {
            return Ok(Word::End);
        }
        if self.starts_with("b'") {
            return self.byte();
        }
        if self.starts_with("b\"") || self.starts_with("\"") {
            return self.string();
        }
        if begins_name(byte) {
            return Ok(Word::Name(self.name()));
        }
        if byte.is_ascii_digit() {
            return self.number();
        }
        if byte == b'\'' {
            self.step()?;
            return Ok(Word::Lifetime(self.name()));
        }
        self.sign()
    }

    fn name(&mut self) -> String {
        let start = self.at;
        while continues_name(self.ahead(0)) {
            self.at += 1;
        }
        String::from_utf8_lossy(&self.text[start..self.at]).into_owned()
    }

    fn sign(&mut self) -> Read<Word> {
        let Some(sign) = SIGNS.iter().find(|sign| self.starts_with(sign)) else {
            return self.fault("a sign that is none of the language");
        };
        self.at += sign.len();
        Ok(Word::Sign(sign))
    }

    /// A number in any base, with underscores and a type behind it or not.
    fn number(&mut self) -> Read<Word> {
        let text = self.name().replace('_', "");
        let (base, digits) = match text.get(..2) {
            Some("0x") => (16, &text[2..]),
            Some("0o") => (8, &text[2..]),
            Some("0b") => (2, &text[2..]),
            _ => (10, &text[..]),
        };
        let end = digits.find(|c: char| !c.is_digit(base)).unwrap_or(digits.len());
        let of = &digits[end..];
        match u64::from_str_radix(&digits[..end], base) {
            Ok(value) if of.is_empty() || built_in(of).is_some() => {
                Ok(Word::Number(value, of.to_string()))
            }
            _ => self.fault("a number that cannot be read"),
        }
    }

    /// Steps over one byte of a literal, and gives whether it stands for one: a line that is
    /// broken off stands for none, and neither does the space that begins the next.
    fn escaped(&mut self) -> Read<bool> {
        if self.step()? != b'\\' {
            return Ok(true);
        }
        match self.step()? {
            b'x' => self.at += 2,
            b'\n' => {
                while self.ahead(0).is_ascii_whitespace() {
                    self.step()?;
                }
                return Ok(false);
            }
            _ => (),
        }
        Ok(true)
    }

    fn byte(&mut self) -> Read<Word> {
        self.at += 2;
        self.escaped()?;
        self.skip_past(b'\'')?;
        Ok(Word::Byte)
    }

    fn string(&mut self) -> Read<Word> {
        let of_bytes = self.ahead(0) == b'b';
        self.skip_past(b'"')?;
        let mut count = 0;
        while self.ahead(0) != b'"' {
            count += u64::from(self.escaped()?);
        }
        self.step()?;
        Ok(if of_bytes { Word::Bytes(count) } else { Word::Text })
    }
}
