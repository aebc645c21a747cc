//! Looks through all sources.

use std::io;
use std::path::Path;

use crate::items::Kind;
use crate::reader::Reader;
use crate::remark::{Finding, Read, Remark};
use crate::sources::{Source, Sources};
use crate::tokens::Word;
use crate::types::Type;

/// The libraries of the kit for input and output.
const INPUT_AND_OUTPUT: [&str; 3] = ["io", "libc", "os"];

/// The crates that were looked through, how many functions they have, and what may not stand there.
pub struct Report {
    pub crates: Vec<String>,
    pub functions: usize,
    pub findings: Vec<Finding>,
}

pub fn look(root: &Path) -> io::Result<Report> {
    let sources = Sources::read(root)?;
    // Where a source cannot be read, what others have from it is not known.
    if !sources.findings.is_empty() {
        return Ok(report(&sources, sources.findings.clone()));
    }
    let mut findings = Vec::new();
    for index in 0..sources.items.len() {
        let file = &sources.files[sources.items[index].file];
        let remarks = read_item(&sources, index).unwrap_or_else(|fault| vec![fault.unread()]);
        findings.extend(remarks.into_iter().map(|remark| file.finding(remark)));
    }
    for file in &sources.files {
        let remarks = input_and_output_in(file);
        findings.extend(remarks.into_iter().map(|remark| file.finding(remark)));
    }
    findings.extend(sources.modules_named_twice());
    Ok(report(&sources, findings))
}

fn report(sources: &Sources, mut findings: Vec<Finding>) -> Report {
    findings.sort();
    findings.dedup();
    let functions = sources.items.iter().filter(|item| item.kind == Kind::Function).count();
    Report { crates: sources.crates.iter().cloned().collect(), functions, findings }
}

/// What may not stand in an item.
fn read_item(sources: &Sources, index: usize) -> Read<Vec<Remark>> {
    let item = &sources.items[index];
    let mut reader = Reader::new(sources, item);
    let line = reader.cursor.line();
    match item.kind {
        Kind::Function => reader.function()?,
        Kind::Constant => reader.constant()?,
        Kind::Alias => _ = reader.alias()?,
        Kind::Struct | Kind::Enum => {
            reader.fields_or_variants()?;
            let bytes = reader.bytes_of(&Type::Declared(index))?;
            reader.judge(line, &format!("{} holds", item.name), bytes);
        }
    }
    reader.cursor.skip_if(";");
    if reader.cursor.at != item.end {
        return reader.cursor.fault("the item does not end here");
    }
    Ok(reader.found)
}

/// Uses of the libraries for input and output.
fn input_and_output_in(source: &Source) -> Vec<Remark> {
    let mut found = Vec::new();
    for (index, token) in source.tokens.iter().enumerate() {
        let Word::Name(name) = &token.word else { continue };
        let begins_path = source.tokens[index + 1].word == Word::Sign("::");
        let before = index.checked_sub(1).map(|before| &source.tokens[before].word);
        let is_import = before == Some(&Word::Name("use".to_string()));
        if INPUT_AND_OUTPUT.contains(&name.as_str()) && (begins_path || is_import) {
            found.push(Remark { line: token.line, text: format!("{name} is used") });
        }
    }
    found
}
