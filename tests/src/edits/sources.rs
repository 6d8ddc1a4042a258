//! The functions, constants and types of a crate's sources, with the module of each, who calls
//! whom, and the functions' contracts.
//! It reads files in the layout of `rt fmt`: an item starts and ends at a line's start.

use std::collections::{BTreeMap, BTreeSet};
use std::ops::Range;

#[derive(Clone, Copy, Debug, PartialEq, Eq)]
pub enum Kind {
    Function,
    Constant,
}

/// An `impl` block that items stand in: its parameters, as `<'a>`, and its type, as `Reader<'a>`.
#[derive(Clone, Debug, PartialEq, Eq)]
pub struct Block {
    pub parameters: String,
    pub kind: String,
}

impl Block {
    /// The block that a line opens, if it does.
    fn opened(line: &str) -> Option<Self> {
        let rest = line.trim_end().strip_suffix(" {")?.strip_prefix("impl")?;
        let end = if rest.starts_with('<') { angle_end(rest) } else { 0 };
        let (parameters, named) = (rest[..end].to_string(), rest[end..].strip_prefix(' ')?);
        let kind = named.rsplit_once(" for ").map_or(named, |(_, kind)| kind).to_string();
        Some(Self { parameters, kind })
    }

    /// The name of its type, without what it is over.
    pub fn name(&self) -> &str {
        self.kind.split('<').next().unwrap_or(&self.kind)
    }
}

/// A function, which may be a method, or a constant: its path from the crate's root, the block that
/// it stands in, its place in its file, the place of its contract, which may be empty, and that of
/// its body, a constant's value.
#[derive(Clone, Debug)]
pub struct Item {
    pub kind: Kind,
    pub path: String,
    pub public: bool,
    pub block: Option<Block>,
    pub file: String,
    pub whole: Range<usize>,
    pub contract: Range<usize>,
    pub body: Range<usize>,
}

impl Item {
    /// Its name without its module.
    pub fn name(&self) -> &str {
        self.path.rsplit("::").next().unwrap_or(&self.path)
    }

    /// How far its lines are indented.
    fn indent(&self) -> &'static str {
        indent(self.block.is_some())
    }
}

/// An `enum` with its variants, or a `struct`: its path from the crate's root.
#[derive(Clone, Debug)]
pub struct Type {
    pub path: String,
    pub variants: Vec<String>,
}

/// A crate's sources by file, as `src/lib.rt`.
pub struct Sources {
    pub files: BTreeMap<String, String>,
    pub items: Vec<Item>,
    pub types: Vec<Type>,
}

impl Sources {
    pub fn new(files: BTreeMap<String, String>) -> Self {
        let items = files.iter().flat_map(|(file, text)| items_of(file, text)).collect();
        let types = files.iter().flat_map(|(file, text)| types_of(file, text)).collect();
        Self { files, items, types }
    }

    pub fn text(&self, item: &Item) -> &str {
        &self.files[&item.file][item.whole.clone()]
    }

    pub fn body(&self, item: &Item) -> &str {
        &self.files[&item.file][item.body.clone()]
    }

    /// The numbers of the lines on which an item stands in its file, counted from 1.
    pub fn lines(&self, item: &Item) -> Range<usize> {
        let before = |at: usize| self.files[&item.file][..at].matches('\n').count();
        before(item.whole.start) + 1..before(item.whole.end) + 2
    }

    /// What stands before an item's contract and body: a function's parameters and answer.
    pub fn head(&self, item: &Item) -> &str {
        &self.files[&item.file][item.whole.start..item.contract.start]
    }

    /// The clauses of a function's contract, each with single spaces.
    pub fn clauses(&self, item: &Item) -> Vec<String> {
        let mut found: Vec<String> = Vec::new();
        for line in self.files[&item.file][item.contract.clone()].lines() {
            let words = line.split_whitespace().collect::<Vec<_>>().join(" ");
            match found.last_mut() {
                Some(clause) if !starts_clause(line, item.indent()) => {
                    *clause += &format!(" {words}");
                }
                _ => found.push(words),
            }
        }
        found
    }

    pub fn at(&self, path: &str) -> Option<&Item> {
        self.items.iter().find(|item| item.path == path)
    }

    pub fn public_functions(&self) -> Vec<&Item> {
        let functions = self.items.iter().filter(|item| item.kind == Kind::Function);
        functions.filter(|item| item.public).collect()
    }

    /// The item that a name of an edit means: from the root where it has `::` in it, else of the
    /// edit's file, else the only one of the crate that has this name.
    pub fn named(&self, file: &str, name: &str) -> Option<&Item> {
        if name.contains("::") {
            return self.at(name);
        }
        let here = self.at(&joined(&module_of(file), name));
        let mut everywhere = self.items.iter().filter(|item| item.name() == name);
        here.or(match (everywhere.next(), everywhere.next()) {
            (Some(item), None) => Some(item),
            _ => None,
        })
    }

    /// Whether a function calls another one of the crate, itself or by way of others.
    pub fn reaches(&self, from: &str, to: &str) -> bool {
        let mut known = BTreeSet::from([from.to_string()]);
        let mut left = vec![from.to_string()];
        while let Some(caller) = left.pop() {
            let Some(item) = self.at(&caller) else { continue };
            let called = self.called(item).into_iter().filter(|path| known.insert(path.clone()));
            left.extend(called.collect::<Vec<_>>());
        }
        known.contains(to)
    }

    /// The paths of the crate's functions that a function calls.
    fn called(&self, item: &Item) -> Vec<String> {
        let body = code(self.body(item));
        let imports = imports(&item.file, &self.files[&item.file]);
        let own = |name: &str| match &item.block {
            Some(block) => name.replace("Self::", &format!("{}::", block.name())),
            None => name.to_string(),
        };
        let names = calls(&body).into_iter().map(own);
        let paths = names.flat_map(|name| meanings(&item.file, &imports, &name));
        let mut found: Vec<String> = paths.filter(|path| self.at(path).is_some()).collect();
        found.extend(method_calls(&body).into_iter().flat_map(|name| self.methods(name)));
        found
    }

    /// The paths of all methods that have a name.
    pub fn methods<'a>(&'a self, name: &'a str) -> impl Iterator<Item = String> + 'a {
        let named = self.items.iter().filter(move |item| item.name() == name);
        named.filter(|item| item.block.is_some()).map(|item| item.path.clone())
    }
}

/// The module of a file: none for `src/lib.rt`, `halves` for `src/halves.rt`.
pub fn module_of(file: &str) -> String {
    let inner = file.strip_prefix("src/").unwrap_or(file);
    let inner = inner.strip_suffix(".rt").unwrap_or(inner);
    let path = if matches!(inner, "lib" | "main") { "" } else { inner };
    path.strip_suffix("/mod").unwrap_or(path).replace('/', "::")
}

/// A path behind another, either of which may be empty.
pub fn joined(module: &str, name: &str) -> String {
    let parts = [module, name];
    parts.into_iter().filter(|part| !part.is_empty()).collect::<Vec<_>>().join("::")
}

/// The function or constant that a line of source begins, if it does.
fn item_of(line: &str) -> Option<(Kind, &str)> {
    let words = declared(line);
    let words = words.strip_prefix("extern \"C\" ").unwrap_or(words);
    let (kind, rest) = words.split_once(' ')?;
    let name = first_word(rest)?;
    match kind {
        "fn" => Some((Kind::Function, name)),
        "const" => Some((Kind::Constant, name)),
        _ => None,
    }
}

/// How far the lines of an item are indented.
fn indent(in_block: bool) -> &'static str {
    if in_block {
        "    "
    } else {
        ""
    }
}

fn items_of(file: &str, text: &str) -> Vec<Item> {
    let mut found = Vec::new();
    let (mut at, mut block) = (0, None);
    for line in text.split_inclusive('\n') {
        block = match Block::opened(line) {
            Some(opened) => Some(opened),
            None => block.filter(|_| !line.starts_with('}')),
        };
        let indent = indent(block.is_some());
        let own = line.strip_prefix(indent).filter(|own| !own.starts_with(' '));
        if let Some((kind, name)) = own.and_then(item_of) {
            let (whole, body) = places(text, at, kind, indent);
            let contract = contract(text, at, &body, indent);
            let name = block.as_ref().map_or(name.to_string(), |one| joined(one.name(), name));
            let path = joined(&module_of(file), &name);
            let public = own.is_some_and(|own| own.starts_with("pub "));
            let (file, block) = (file.to_string(), block.clone());
            found.push(Item { kind, path, public, block, file, whole, contract, body });
        }
        at += line.len();
    }
    found
}

/// Where an item that starts at a place lies, and where its body does.
fn places(text: &str, at: usize, kind: Kind, indent: &str) -> (Range<usize>, Range<usize>) {
    if let (Kind::Function, Some(end)) = (kind, without_body(&text[at..], indent)) {
        return (at..at + end, at + end - "}".len()..at + end - "}".len());
    }
    let (last, opening) = match kind {
        Kind::Function => (format!("\n{indent}}}"), opening(&text[at..], indent)),
        Kind::Constant => (";\n".to_string(), text[at..].find('=').map(|n| n + 1)),
    };
    let close = text[at..].find(&last).map_or(text.len(), |n| at + n);
    let start = opening.map_or(close, |n| at + n).min(close);
    (at..(close + last.len()).min(text.len()), start..close)
}

/// Where a function ends that has an empty body, `{}` on its own line.
fn without_body(text: &str, indent: &str) -> Option<usize> {
    let mut at = 0;
    for line in text.split_inclusive('\n') {
        at += line.len();
        let own = line.trim_end().strip_prefix(indent).filter(|own| !own.starts_with(' '));
        match own {
            Some("{}") => return Some(at - "\n".len()),
            Some(own) if own.ends_with('{') => return None,
            _ => {}
        }
    }
    None
}

/// Where a function's body starts: behind the brace that ends the first line which is indented no
/// further than the function and ends in one. Its contract's lines are indented further.
fn opening(text: &str, indent: &str) -> Option<usize> {
    let mut at = 0;
    for line in text.split_inclusive('\n') {
        at += line.len();
        let own = line.strip_prefix(indent).is_some_and(|own| !own.starts_with(' '));
        if own && line.trim_end().ends_with('{') {
            return Some(at);
        }
    }
    None
}

/// Whether a line starts a clause of a contract. In the layout of `rt fmt` it has its own line.
fn starts_clause(line: &str, indent: &str) -> bool {
    let inner = line.strip_prefix(indent).and_then(|own| own.strip_prefix("    "));
    let word = inner.and_then(|rest| rest.split(' ').next());
    word.is_some_and(|word| matches!(word, "requires" | "ensures"))
}

/// Where the contract of an item stands that starts at a place: from its first clause to the line of
/// the brace before its body. It is empty where there is none.
fn contract(text: &str, start: usize, body: &Range<usize>, indent: &str) -> Range<usize> {
    let mut at = start;
    for line in text[start..body.start].split_inclusive('\n') {
        if starts_clause(line, indent) {
            return at..body.start - indent.len() - "{\n".len();
        }
        at += line.len();
    }
    body.start..body.start
}

/// A line without the words that say who may use what it declares.
fn declared(line: &str) -> &str {
    line.strip_prefix("pub(crate) ").or(line.strip_prefix("pub ")).unwrap_or(line)
}

fn types_of(file: &str, text: &str) -> Vec<Type> {
    let mut found: Vec<Type> = Vec::new();
    let mut inside = false;
    for line in text.lines() {
        let words = declared(line);
        let rest = words.strip_prefix("enum ").or(words.strip_prefix("struct "));
        if let Some(name) = rest.and_then(first_word) {
            found.push(Type { path: joined(&module_of(file), name), variants: Vec::new() });
            inside = words.starts_with("enum ");
        } else if line.starts_with('}') {
            inside = false;
        } else if let (true, Some(of)) = (inside, found.last_mut()) {
            of.variants.extend(first_word(line.trim_start()).map(String::from));
        }
    }
    found
}

/// The name that a text starts with, if it does.
fn first_word(text: &str) -> Option<&str> {
    let end = text.find(|c: char| !c.is_alphanumeric() && c != '_').unwrap_or(text.len());
    Some(&text[..end]).filter(|word| !word.is_empty())
}

/// Where the angle bracket that a text starts with is closed; an arrow's does not close it.
pub fn angle_end(text: &str) -> usize {
    let (mut depth, mut before) = (0usize, ' ');
    for (at, c) in text.char_indices() {
        match c {
            '<' => depth += 1,
            '>' if before != '-' => depth -= 1,
            _ => {}
        }
        if depth == 0 {
            return at + 1;
        }
        before = c;
    }
    text.len()
}

/// A text without its comments.
pub fn code(text: &str) -> String {
    let lines = text.lines().map(|line| line.split("//").next().unwrap_or(line).trim_end());
    lines.collect::<Vec<_>>().join("\n")
}

/// The names, with their paths, that stand before an opening parenthesis.
fn calls(code: &str) -> BTreeSet<&str> {
    let heads = code.match_indices('(').map(|(at, _)| &code[..at]);
    let part = |c: char| c.is_alphanumeric() || c == '_' || c == ':';
    let names = heads.map(|head| &head[head.trim_end_matches(part).len()..]);
    names.filter(|name| !name.is_empty()).collect()
}

/// The names of the methods that are called.
fn method_calls(code: &str) -> BTreeSet<&str> {
    let heads = code.match_indices('(').map(|(at, _)| &code[..at]);
    let part = |c: char| c.is_alphanumeric() || c == '_';
    let names = heads.filter_map(|head| {
        let before = head.trim_end_matches(part);
        before.ends_with('.').then(|| &head[before.len()..])
    });
    names.filter(|name| !name.is_empty()).collect()
}

/// What the `use` lines of a file bring in: a name and its path from the crate's root.
fn imports(file: &str, text: &str) -> Vec<(String, String)> {
    let all = uses(text).into_iter();
    let paths = all.map(|(alias, full)| (alias, meanings(file, &[], &full)));
    paths.flat_map(|(alias, paths)| paths.into_iter().map(move |p| (alias.clone(), p))).collect()
}

/// What the `use` lines of a file bring in: a name and its path as it is written.
pub fn uses(text: &str) -> Vec<(String, String)> {
    let lines = text.lines().map(declared);
    let uses = lines.filter_map(|line| line.strip_prefix("use ")?.strip_suffix(';'));
    let mut found = Vec::new();
    for path in uses {
        let (stem, names) = match path.split_once("::{") {
            Some((stem, names)) => (stem, names.trim_end_matches('}')),
            None => path.rsplit_once("::").unwrap_or(("", path)),
        };
        for name in names.split(',').map(str::trim) {
            let (name, alias) = name.split_once(" as ").unwrap_or((name, name));
            found.push((alias.to_string(), joined(stem, name)));
        }
    }
    found
}

/// The paths from the crate's root that a name in a file may mean.
fn meanings(file: &str, imports: &[(String, String)], name: &str) -> Vec<String> {
    let module = module_of(file);
    let (first, rest) = name.split_once("::").unwrap_or((name, ""));
    let above = module.rsplit_once("::").map_or("", |(above, _)| above);
    match first {
        "crate" => vec![rest.to_string()],
        "self" => vec![joined(&module, rest)],
        "super" => vec![joined(above, rest)],
        _ => {
            let brought = imports.iter().filter(|(alias, _)| alias == first);
            let mut all = vec![joined(&module, name)];
            all.extend(brought.map(|(_, path)| joined(path, rest)));
            all
        }
    }
}
