//! The words of a line.

/// A word, or a text in double quotes.
#[derive(Clone, Debug, PartialEq, Eq)]
pub struct Word {
    pub text: String,
    pub quoted: bool,
}

impl Word {
    /// Whether this is the word, and not a text of the same letters.
    pub fn is(&self, name: &str) -> bool {
        !self.quoted && self.text == name
    }

    pub fn number<T: std::str::FromStr>(&self) -> Result<T, String> {
        let digits = !self.quoted && self.text.bytes().all(|byte| byte.is_ascii_digit());
        let number = self.text.parse().ok().filter(|_| digits);
        number.ok_or_else(|| format!("{} is not a number", self.text))
    }
}

/// The words of a line, none for a comment.
pub fn words(line: &str) -> Result<Vec<Word>, String> {
    let mut words = Vec::new();
    let mut rest = line.trim_start();
    if rest.starts_with('#') {
        return Ok(words);
    }
    while !rest.is_empty() {
        let (word, after) = first_word(rest)?;
        words.push(word);
        rest = after.trim_start();
    }
    Ok(words)
}

fn first_word(line: &str) -> Result<(Word, &str), String> {
    if let Some(text) = line.strip_prefix('"') {
        let (text, after) = text.split_once('"').ok_or("a text has no end")?;
        return Ok((Word { text: text.to_string(), quoted: true }, after));
    }
    let end = line.find([' ', '\t', '"']).unwrap_or(line.len());
    Ok((Word { text: line[..end].to_string(), quoted: false }, &line[end..]))
}

/// The words that are left of a line.
pub struct Words<'a> {
    left: &'a [Word],
}

impl<'a> Words<'a> {
    pub fn new(words: &'a [Word]) -> Words<'a> {
        Words { left: words }
    }

    pub fn peek(&self) -> Option<&'a Word> {
        self.left.first()
    }

    pub fn next(&mut self) -> Option<&'a Word> {
        let (first, rest) = self.left.split_first()?;
        self.left = rest;
        Some(first)
    }

    /// The next number, which is called so where it is missing.
    pub fn number<T: std::str::FromStr>(&mut self, name: &str) -> Result<T, String> {
        self.next().ok_or_else(|| format!("{name} is needed"))?.number()
    }
}
