//! The functions' contracts as text, so that a comparison of two revisions shows which promises
//! changed.

use crate::edits::sources::{Kind, Sources};
use std::collections::BTreeMap;

/// A block for each function, sorted by crate and path: its name, then a line for each clause. The
/// last line counts.
pub fn contracts(crates: &BTreeMap<String, Sources>) -> Vec<String> {
    let blocks: BTreeMap<(&str, &str), Vec<String>> =
        crates.iter().flat_map(|(name, sources)| blocks(name, sources)).collect();
    let count = |word: &str| {
        let clauses = blocks.values().flatten();
        clauses.filter(|clause| clause.split(' ').next() == Some(word)).count()
    };
    let (functions, requires, ensures) = (blocks.len(), count("requires"), count("ensures"));
    let mut lines = Vec::new();
    for ((name, path), clauses) in blocks {
        lines.push(format!("{name}::{path}"));
        lines.extend(clauses.iter().map(|clause| format!("    {clause}")));
    }
    lines.push(format!("contracts: {functions} functions, {requires} requires, {ensures} ensures"));
    lines
}

/// The functions of a crate, with the clauses of each.
fn blocks<'a>(
    name: &'a str,
    sources: &'a Sources,
) -> impl Iterator<Item = ((&'a str, &'a str), Vec<String>)> {
    let functions = sources.items.iter().filter(|item| item.kind == Kind::Function);
    functions.map(move |item| ((name, &item.path[..]), sources.clauses(item)))
}
