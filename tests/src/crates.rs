//! The crates of the repository, as crates.txt lists them, and their sources.

use crate::edits::sources::Sources;
use std::collections::BTreeMap;
use std::fs;
use std::path::{Path, PathBuf};

/// The crates of crates.txt below a root, in its order, each with those that it leans on. Before the
/// colon stands a name, and behind it what kind of crate it is.
pub fn listed(root: impl AsRef<Path>) -> Vec<(String, Vec<String>)> {
    let list = fs::read_to_string(root.as_ref().join("crates.txt"));
    let list = list.expect("crates.txt in the root of the repository");
    let lines = list.lines().filter(|line| !line.starts_with('#'));
    let pairs = lines.filter_map(|line| line.split_once(':'));
    let words = |text: &str| text.split_whitespace().map(String::from).collect();
    let name = |head: &str| head.split_whitespace().next().map(String::from);
    pairs.filter_map(|(head, others)| Some((name(head)?, words(others)))).collect()
}

/// The files below a folder with this ending, sorted; none where there is no folder.
pub fn files(folder: &Path, ending: &str) -> Vec<PathBuf> {
    let Ok(entries) = fs::read_dir(folder) else {
        return Vec::new();
    };
    let mut found = Vec::new();
    for path in entries.filter_map(|entry| entry.ok().map(|entry| entry.path())) {
        if path.is_dir() {
            found.extend(files(&path, ending));
        } else if path.extension().is_some_and(|e| e == ending) {
            found.push(path);
        }
    }
    found.sort();
    found
}

/// The sources of a crate.
pub fn sources(root: impl AsRef<Path>, name: &str) -> Sources {
    let folder = root.as_ref().join("crates").join(name);
    let read = |path: PathBuf| {
        let text = fs::read_to_string(&path).expect("a source that can be read");
        let inner = path.strip_prefix(&folder).expect("a file of the crate");
        (inner.to_string_lossy().to_string(), text)
    };
    let texts = files(&folder.join("src"), "rt").into_iter().map(read);
    Sources::new(texts.collect::<BTreeMap<_, _>>())
}

/// The sources of all crates, by name.
pub fn all(root: impl AsRef<Path>) -> BTreeMap<String, Sources> {
    let root = root.as_ref();
    let names = listed(root).into_iter().map(|(name, _)| name);
    names.map(|name| (name.clone(), sources(root, &name))).collect()
}
