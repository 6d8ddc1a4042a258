//! Must-fail edits that are tried together: a file of `crates/NAME/must-fail/` with `edit:` lines
//! is a round of several edits, each in another function, and the prover is asked for the whole
//! round, then for those of which it has not said yet what becomes of them. That each is refused in
//! the function that it changes is read from what the prover said; that it changes an answer, from a
//! run of the edited code.

pub mod report;
pub mod rounds;
pub mod sources;
pub mod translation;
pub mod trying;

use report::Verdict;
use rounds::Edit;
use sources::{code, Item, Kind, Sources};
use std::collections::BTreeSet;
use trying::{last, Try};

/// An edit of a crate that the run tries: the paths of the item that it changes and of the public
/// function that guards it.
#[derive(Clone, Debug)]
pub struct Trial {
    pub library: String,
    pub edit: Edit,
    pub item: String,
    pub contract: String,
}

impl Trial {
    /// The edit's name in the notes of the run.
    pub fn name(&self) -> String {
        format!("{}/{}", self.library, self.edit.label)
    }

    /// A text with the edit.
    pub fn applied(&self, text: &str) -> String {
        applied(&self.edit, text)
    }
}

fn applied(edit: &Edit, text: &str) -> String {
    edit.replaced.iter().fold(text.to_string(), |text, (old, new)| text.replacen(old, new, 1))
}

/// What the run of the edited code noted: the edits that were tried, and those that changed an
/// answer or something lent.
#[derive(Debug, Default, PartialEq, Eq)]
pub struct Run {
    pub tried: BTreeSet<String>,
    pub changed: BTreeSet<String>,
}

impl Run {
    pub fn read(notes: &str) -> Self {
        let with = |head: &str| {
            notes.lines().filter_map(|line| line.strip_prefix(head)).map(String::from).collect()
        };
        Self { tried: with("tried "), changed: with("changed ") }
    }
}

/// The item that an edit changes and the public function that guards it, or what is wrong: every
/// text that it replaces is in the item's body, once, and it changes more than comments. A function
/// is guarded by one that calls it.
pub fn resolved<'a>(edit: &Edit, sources: &'a Sources) -> Result<(&'a Item, &'a Item), String> {
    let text = sources.files.get(&edit.file).ok_or("no such file")?;
    let item = sources.named(&edit.file, &edit.item).ok_or("there is no item of that name")?;
    for (old, _) in &edit.replaced {
        let places: Vec<usize> = text.match_indices(&old[..]).map(|(at, _)| at).collect();
        let inside = |at: usize| item.body.start <= at && at + old.len() <= item.body.end;
        if item.file != edit.file || places.len() != 1 || !inside(places[0]) {
            return Err("it does not change the body of the item that it names, or not only that"
                .to_string());
        }
    }
    let body = sources.body(item);
    if code(&applied(edit, body)) == code(body) {
        return Err("it changes no code".to_string());
    }
    let guard = sources.named(&edit.file, &edit.contract);
    let guard = guard.filter(|guard| guard.kind == Kind::Function);
    let guard = guard.ok_or("there is no function that it could be for")?;
    match item.kind {
        Kind::Function if guard.public && sources.reaches(&guard.path, &item.path) => {}
        Kind::Constant if sources.body(guard).contains(item.name()) => {}
        Kind::Function => {
            return Err("it is not for a public function that calls the changed one".to_string())
        }
        Kind::Constant => return Err("it is not for a function that uses the constant".to_string()),
    }
    Ok((item, guard))
}

/// What is wrong with a round of a crate, given the crate's sources, the tries of the round, and the
/// notes of the run where there was one.
pub fn faults(
    name: &str,
    edits: &[Edit],
    sources: &Sources,
    tries: &[Try],
    run: Option<&Run>,
) -> Vec<String> {
    let mut found = Vec::new();
    let mut changed = BTreeSet::new();
    for edit in edits {
        let mut say = |what: &str| found.push(format!("{name}/{}: {what}", edit.label));
        match resolved(edit, sources) {
            Ok((item, _)) if changed.insert(&item.path) => {}
            Ok(_) => say("another edit of the round changes the same item"),
            Err(what) => {
                say(&what);
                continue;
            }
        }
        let tried = last(tries, edit).map(|one| one.verdict(name, edit, sources));
        match tried.unwrap_or(Verdict::NotRefused) {
            Verdict::Refused => {}
            Verdict::Misfit => say("no fact refuses it: its proof only no longer fits"),
            Verdict::NotRefused => say("no fact of its own refuses it"),
            Verdict::Unknown(words) => say(&format!("unknown words of the prover: {words}")),
        }
        let label = format!("{name}/{}", edit.label);
        if let Some(what) = run.and_then(|run| unchanged(run, &label, edit.unseen.is_some())) {
            say(what);
        }
    }
    found
}

/// What the run says against an edit, of which it may be said that no run can see it.
fn unchanged(run: &Run, name: &str, unseen: bool) -> Option<&'static str> {
    match (run.tried.contains(name), run.changed.contains(name)) {
        (_, true) if unseen => Some("it is said that no run sees it, and one does"),
        (_, true) => None,
        _ if unseen => None,
        (true, false) => Some("it changes nothing on any call of the tests"),
        (false, false) => Some("no test calls what it is for"),
    }
}

/// The public functions of a crate that guard fewer than two edits.
pub fn unguarded(name: &str, edits: &[Edit], sources: &Sources) -> Vec<String> {
    let guards: Vec<&str> = edits
        .iter()
        .filter_map(|edit| resolved(edit, sources).ok())
        .map(|(_, guard)| &guard.path[..])
        .collect();
    let count = |function: &Item| guards.iter().filter(|path| **path == function.path).count();
    let few = sources.public_functions().into_iter().filter(|function| count(function) < 2);
    few.map(|function| format!("{name}::{} has fewer than two edits", function.path)).collect()
}

/// The public functions of a crate that no edit changes themselves.
pub fn never_changed(name: &str, edits: &[Edit], sources: &Sources) -> Vec<String> {
    let items: BTreeSet<&str> = edits
        .iter()
        .filter_map(|edit| resolved(edit, sources).ok())
        .map(|(item, _)| &item.path[..])
        .collect();
    let public = sources.public_functions().into_iter();
    let left = public.filter(|function| !items.contains(&function.path[..]));
    left.map(|function| format!("{name}::{} has no edit in itself", function.path)).collect()
}
