//! What is said of a line of a source.

#[derive(Clone, Debug, PartialEq, Eq, PartialOrd, Ord)]
pub struct Remark {
    pub line: usize,
    pub text: String,
}

/// What was read, or why it cannot be.
pub type Read<T> = Result<T, Remark>;

/// What may not stand in a file.
#[derive(Clone, Debug, PartialEq, Eq, PartialOrd, Ord)]
pub struct Finding {
    pub path: String,
    pub remark: Remark,
}

impl Remark {
    /// What cannot be read may hold anything, so it may not stand there either.
    pub fn unread(self) -> Remark {
        Remark { text: format!("this cannot be read: {}", self.text), ..self }
    }
}
