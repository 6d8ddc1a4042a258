//! That a crate's sources are of the layout in which functions and constants are found: nothing of
//! another kind may stand beside them, where it would not be searched.

use super::reading::{divides, without_ghost};
use super::tokens::tokens;
use crate::edits::sources::{Item, Sources};
use std::collections::BTreeSet;

/// What a line that stands outside of functions and constants may start with; where it ends in a
/// semicolon, too, it may bring in names or modules. What copies a value divides nothing.
const STARTS: [&str; 12] = [
    "//",
    "ghost ",
    "struct ",
    "enum ",
    "impl ",
    "impl<",
    "}",
    "#![tactic(auto)]",
    "#[unsafe(no_mangle)]",
    "#[repr(C)]",
    "#[derive(Clone, Copy)]",
    "#[derive(Drop)]",
];
const STARTS_OF_ONE_LINE: [&str; 2] = ["use ", "mod "];

/// What in a crate is not of that layout.
pub fn faults(name: &str, sources: &Sources) -> Vec<String> {
    let mut found = Vec::new();
    if sources.files.is_empty() {
        found.push(format!("{name}: it has no sources"));
    }
    let mut paths = BTreeSet::new();
    let twice = sources.items.iter().filter(|item| !paths.insert(&item.path));
    found.extend(twice.map(|item| format!("{name}::{}: it is there twice", item.path)));
    for (file, text) in &sources.files {
        let items: Vec<&Item> = sources.items.iter().filter(|item| item.file == *file).collect();
        let run_on = items.windows(2).filter(|pair| pair[1].whole.start < pair[0].whole.end);
        found.extend(run_on.map(|pair| format!("{name}::{}: its end is not found", pair[0].path)));
        let outside = outside(text, &items);
        let strange = outside.lines().filter(|line| !allowed(line));
        found.extend(strange.map(|line| format!("{name}: {file}: `{line}`: an unknown item")));
        let divided = tokens(&outside).map(|all| all.iter().any(divides));
        if divided.unwrap_or(true) {
            found.push(format!("{name}: {file}: a division outside of functions and constants"));
        }
    }
    found
}

/// What of a file stands outside of its functions and constants, without `ghost` lines.
fn outside(text: &str, items: &[&Item]) -> String {
    let (mut all, mut at) = (String::new(), 0);
    for item in items {
        all += text.get(at..item.whole.start).unwrap_or_default();
        at = item.whole.end;
    }
    all += text.get(at..).unwrap_or_default();
    without_ghost(&all)
}

fn allowed(line: &str) -> bool {
    let words = line.strip_prefix("pub(crate) ").or(line.strip_prefix("pub ")).unwrap_or(line);
    let starts = |all: &[&str]| all.iter().any(|start| words.starts_with(start));
    let one = starts(&STARTS_OF_ONE_LINE) && words.ends_with(';');
    line.is_empty() || line.starts_with(' ') || starts(&STARTS) || one
}
