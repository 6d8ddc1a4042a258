//! The crates' code in Rust, with every edit beside what it replaces, so that one run of the tests
//! shows which edits change an answer (`src/edited.rs` runs it). Rattle's code is Rust's but for
//! the contracts and the attributes, which are left out: every type has those that are written here.

use super::sources::{angle_end, module_of, Block, Item, Kind, Sources};
use super::Trial;

/// Where the translated crates stand.
const ROOT: &str = "crate::edited";

/// The attribute of a type that C reads, the only one that is kept.
const LAID_OUT: &str = "#[repr(C)]";

/// The trait of types that contracts see as something else: without its laws it asks for nothing.
const MODEL: &str = "use std::marker::Model;";

/// One crate: its name, the crates that it leans on, and its sources.
pub struct Library {
    pub name: String,
    pub leans_on: Vec<String>,
    pub sources: Sources,
}

/// A function's name, what stands between its name and its parameters, its parameters with their
/// types, and its answer, as `-> u32`. Of a method the first parameter is `this`.
struct Signature<'a> {
    name: String,
    generics: String,
    parameters: Vec<(&'a str, String)>,
    answer: String,
}

/// All crates as modules. The place of a trial in the list, counted from 1, is its number.
pub fn translated(libraries: &[Library], trials: &[Trial]) -> Result<String, String> {
    let mut all = String::new();
    let names: Vec<String> = trials.iter().map(|trial| format!("{:?}", trial.name())).collect();
    all += &format!("pub const EDITS: [&str; {}] = [{}];\n", names.len(), names.join(", "));
    for library in libraries {
        let inner = file(library, "src/lib.rt", trials)?;
        all += &format!("pub mod {} {{\n{inner}}}\n", library.name);
    }
    Ok(all)
}

/// The numbers of the trials of a crate for which something holds.
fn numbers(library: &Library, trials: &[Trial], holds: impl Fn(&Trial) -> bool) -> Vec<usize> {
    let own = trials.iter().enumerate().filter(|(_, trial)| trial.library == library.name);
    own.filter(|(_, trial)| holds(trial)).map(|(place, _)| place + 1).collect()
}

/// A file's module, without its head: the crates that it may name, then its lines and items, and in
/// a module `plain` its functions with no edit, which is what runs as long as none of them is on.
fn file(library: &Library, name: &str, trials: &[Trial]) -> Result<String, String> {
    let sources = &library.sources;
    let text = sources.files.get(name).ok_or(format!("{}: no {name}", library.name))?;
    let mut all = format!("use {ROOT}::{{active, chosen, tick, Deeper, Model, Settled}};\n");
    for other in &library.leans_on {
        if !text.lines().any(|line| line.trim_start_matches("pub ") == format!("mod {other};")) {
            all += &format!("use {ROOT}::{other};\n");
        }
    }
    let (mut plain, mut behind, mut at) = (String::new(), String::new(), 0);
    for item in sources.items.iter().filter(|item| item.file == name) {
        all += &between(library, name, &text[at..item.whole.start], trials)?;
        if item.kind == Kind::Function {
            let function = Function::new(library, item, trials)?;
            if item.block.is_some() {
                all += &function.method();
                behind += &function.with_edits();
            } else {
                all += &function.with_edits();
            }
            plain += &function.plain();
        } else {
            all += &constant(library, item, trials);
        }
        at = item.whole.end;
    }
    all += &between(library, name, &text[at..], trials)?;
    all += &behind;
    all +=
        &format!("mod plain {{\nuse super::*;\n{}}}\n", plain.replace("super::", "super::super::"));
    let mut all = all.replace("use crate::", &format!("use {ROOT}::{}::", library.name));
    all = all.replace(&format!("{ROOT}::{}::edited::", library.name), &format!("{ROOT}::"));
    Ok(all)
}

/// What stands between functions and constants: types, modules and `use` lines.
fn between(lib: &Library, name: &str, text: &str, trials: &[Trial]) -> Result<String, String> {
    let mut all = String::new();
    for line in text.lines() {
        let words = line.strip_prefix("pub(crate) ").or(line.strip_prefix("pub "));
        let words = words.unwrap_or(line);
        if let Some(inner) = words.strip_prefix("mod ").and_then(|rest| rest.strip_suffix(';')) {
            let above = module_of(name).replace("::", "/");
            let path = format!("src/{above}/{inner}.rt").replace("//", "/");
            all += &format!("pub mod {inner} {{\n{}}}\n", file(lib, &path, trials)?);
        } else if words.starts_with("struct ") || words.starts_with("enum ") {
            all += &format!("#[derive(Clone, Copy, Debug, PartialEq)]\n{line}\n");
        } else if words == MODEL {
            // each file has it already
        } else if line == LAID_OUT
            || !words.trim_start().starts_with("ghost ") && !line.starts_with('#')
        {
            all += &format!("{line}\n");
        }
    }
    Ok(all)
}

/// A constant; beside one that is edited, a function that answers by the edit that is on.
fn constant(library: &Library, item: &Item, trials: &[Trial]) -> String {
    let edited = numbers(library, trials, |trial| trial.item == item.path);
    let text = library.sources.text(item);
    if edited.is_empty() {
        return format!("{text}\n");
    }
    let kind =
        text.split_once(": ").and_then(|(_, rest)| rest.split_once(" =")).unwrap_or_default().0;
    let value = library.sources.body(item);
    let arms = edited.iter().map(|&n| format!("{n} => {},\n", trials[n - 1].applied(value)));
    let arms: String = arms.collect();
    format!(
        "{text}\npub fn {}() -> {kind} {{\nmatch active() {{\n{arms}_ => {value},\n}}\n}}\n",
        now(item.name())
    )
}

/// The name of the function beside an edited constant.
fn now(constant: &str) -> String {
    format!("now_{}", constant.to_lowercase())
}

/// The body of a function, with a count in each loop.
fn counted(library: &Library, text: &str) -> String {
    let text = text.replace("while ", "while tick() && ").replace("loop {", "loop {\ntick();");
    let counted = |line: &str| match line.trim_start().starts_with("for ") && line.ends_with('{') {
        true => format!("{line}\ntick();\n"),
        false => format!("{line}\n"),
    };
    let text: String = text.lines().map(counted).collect();
    text.replace("crate::", &format!("{ROOT}::{}::", library.name))
}

/// A method's text as that of a function of its file: `self` is its first parameter.
fn unbound(block: Option<&Block>, text: &str) -> String {
    let Some(block) = block else { return text.to_string() };
    let part = |c: char| c.is_alphanumeric() || c == '_';
    let (mut all, mut rest) = (String::new(), text);
    while let Some(start) = rest.find(part) {
        let length = rest[start..].find(|c| !part(c)).unwrap_or(rest.len() - start);
        let word = &rest[start..start + length];
        all += &rest[..start];
        all += match word {
            "self" => "this",
            "Self" => &block.kind,
            _ => word,
        };
        rest = &rest[start + length..];
    }
    all + rest
}

/// The same, with the edited constants as calls, where one is read or taken as a whole. As an array's
/// length it stays: a call is no length.
fn body(library: &Library, text: &str, trials: &[Trial]) -> String {
    let mut text = counted(library, text);
    let edited = trials.iter().filter(|trial| trial.library == library.name);
    for item in edited.filter_map(|trial| library.sources.at(&trial.item)) {
        if item.kind == Kind::Constant {
            let (name, call) = (item.name(), format!("{}()", now(item.name())));
            text = text.replace(&format!("{name}["), &format!("{call}["));
            text = text.replace(&format!("= {name};"), &format!("= {call};"));
        }
    }
    text
}

/// A function with the edits of its body and those that it guards.
struct Function<'a> {
    library: &'a Library,
    item: &'a Item,
    trials: &'a [Trial],
    head: Signature<'a>,
    edited: Vec<usize>,
    guarded: Vec<usize>,
}

impl<'a> Function<'a> {
    fn new(library: &'a Library, item: &'a Item, trials: &'a [Trial]) -> Result<Self, String> {
        let text = &library.sources.files[&item.file][item.whole.start..item.body.start];
        let head = signature(text, item.block.as_ref());
        let head = head.ok_or(format!("{}::{}: its head", library.name, item.path))?;
        let edited = numbers(library, trials, |trial| trial.item == item.path);
        let guarded = numbers(library, trials, |trial| trial.contract == item.path);
        Ok(Self { library, item, trials, head, edited, guarded })
    }

    /// Whether it is only called from its own crate, and no edit is tried on its calls.
    fn inner(&self) -> bool {
        !self.item.public && self.guarded.is_empty()
    }

    fn unbound(&self, text: &str) -> String {
        unbound(self.item.block.as_ref(), text)
    }

    fn as_it_is(&self) -> String {
        let text = self.library.sources.body(self.item);
        body(self.library, &self.unbound(text), self.trials)
    }

    /// A method, which calls the function that stands for it.
    fn method(&self) -> String {
        let sources = &self.library.sources;
        let text = &sources.files[&self.item.file][self.item.whole.start..self.item.body.start];
        let arguments = self.head.parameters.iter().map(|(name, _)| match *name {
            "this" => "self",
            name => name,
        });
        let arguments = arguments.collect::<Vec<_>>().join(", ");
        format!("{} {{\n{}({arguments})\n}}\n", without_contract(text), self.head.name)
    }

    /// The function for the module `plain`; there the others' names mean those of the module above.
    fn plain(&self) -> String {
        let name = if self.inner() {
            self.head.name.clone()
        } else {
            format!("{}_as_it_is", self.head.name)
        };
        let text = self.library.sources.body(self.item);
        self.head.written(&name, &counted(self.library, &self.unbound(text)))
    }

    /// Chooses by the edit that is on.
    fn choosing(&self) -> String {
        let (head, arguments) = (&self.head, self.head.arguments());
        let (mut all, mut arms) = (String::new(), String::new());
        for &n in &self.edited {
            let name = format!("{}_with_{n}", head.name);
            let applied = self.trials[n - 1].applied(self.library.sources.body(self.item));
            let applied = self.unbound(&applied);
            all += &head.written(&name, &body(self.library, &applied, self.trials));
            arms += &format!("{n} => {{\nlet _deeper = Deeper::new();\n{name}({arguments})\n}}\n");
        }
        let as_it_is = format!("{}_as_it_is", head.name);
        arms += &format!("_ => {as_it_is}({arguments}),\n");
        all += &head.written(&as_it_is, &self.as_it_is());
        let name = if self.inner() { head.name.clone() } else { format!("{}_chosen", head.name) };
        all + &head.written(&name, &format!("match chosen() {{\n{arms}}}\n"))
    }

    /// The function as others call it: it tries the edits that it guards.
    fn with_edits(&self) -> String {
        let (head, name) = (&self.head, &self.head.name);
        if self.inner() {
            return if self.edited.is_empty() {
                head.written(name, &self.as_it_is())
            } else {
                self.choosing()
            };
        }
        let mut all = self.choosing();
        if self.library.sources.text(self.item).contains("extern \"C\"") {
            all += &head.face();
        }
        let own = numbers(self.library, self.trials, |_| true);
        let (first, last) = (own.first().unwrap_or(&0), own.last().unwrap_or(&0));
        let tried = if self.guarded.is_empty() { String::new() } else { head.trial(&self.guarded) };
        let arguments = head.arguments();
        let chosen = format!(
            "if ({first}..={last}).contains(&active()) {{\n\
             return {name}_chosen({arguments});\n}}\n"
        );
        let chosen = if *last == 0 { String::new() } else { chosen };
        all + &head.written(name, &format!("{tried}{chosen}plain::{name}_as_it_is({arguments})\n"))
    }
}

/// A function's head without its contract.
fn without_contract(text: &str) -> &str {
    let clauses = ["requires ", "ensures "].into_iter();
    let starts = clauses.flat_map(|word| [format!("\n    {word}"), format!("\n        {word}")]);
    let end = starts.chain(["{\n".to_string()]).filter_map(|word| text.find(&word)).min();
    text[..end.unwrap_or(text.len())].trim_end()
}

/// Where the bracket that a text starts with is closed.
fn bracket_end(text: &str) -> Option<usize> {
    let mut depth = 0usize;
    for (at, c) in text.char_indices() {
        depth += usize::from("([".contains(c));
        depth -= usize::from(")]".contains(c));
        if depth == 0 {
            return Some(at + 1);
        }
    }
    None
}

/// The parts of a list that commas part, not those within brackets.
fn parts(text: &str) -> Vec<&str> {
    let (mut found, mut start, mut depth, mut before) = (Vec::new(), 0, 0, ' ');
    for (at, c) in text.char_indices() {
        match c {
            '(' | '[' | '<' => depth += 1,
            ')' | ']' => depth -= 1,
            '>' if before != '-' => depth -= 1,
            ',' if depth == 0 => {
                found.push(&text[start..at]);
                start = at + 1;
            }
            _ => {}
        }
        before = c;
    }
    found.push(&text[start..]);
    found.into_iter().map(str::trim).filter(|part| !part.is_empty()).collect()
}

/// The head of a function, from its first line on to where its contract or its body starts.
fn signature<'a>(text: &'a str, block: Option<&Block>) -> Option<Signature<'a>> {
    let (_, rest) = without_contract(text).split_once("fn ")?;
    let (name, rest) = rest.split_at(rest.find(['<', '('])?);
    let (own, rest) = rest.split_at(if rest.starts_with('<') { angle_end(rest) } else { 0 });
    let (inner, answer) = rest.split_at(bracket_end(rest)?);
    let inner = inner.strip_prefix('(')?.strip_suffix(')')?;
    let parameter = |part: &'a str| match (block, part.strip_suffix("self")) {
        (Some(block), Some(lent)) => {
            Some(("this", format!("{}{}", lent.trim_start_matches("mut "), block.kind)))
        }
        _ => {
            let (name, kind) = part.trim_start_matches("mut ").split_once(": ")?;
            Some((name, unbound(block, kind)))
        }
    };
    let outer = block.map_or("", |block| &block.parameters[..]);
    let generics = match (outer.strip_suffix('>'), own.strip_prefix('<')) {
        (Some(outer), Some(own)) => format!("{outer}, {own}"),
        _ => format!("{outer}{own}"),
    };
    let named = |block: &Block| format!("{}_{name}", block.name().to_lowercase());
    Some(Signature {
        name: block.map_or(name.to_string(), named),
        generics,
        parameters: parts(inner).into_iter().map(parameter).collect::<Option<_>>()?,
        answer: unbound(block, answer.trim()),
    })
}

impl Signature<'_> {
    /// A function with this head, another name, and a body.
    fn written(&self, name: &str, body: &str) -> String {
        let parameters = self.parameters.iter().map(|(name, kind)| format!("mut {name}: {kind}"));
        let parameters = parameters.collect::<Vec<_>>().join(", ");
        format!("pub fn {name}{}({parameters}) {} {{\n{body}\n}}\n", self.generics, self.answer)
    }

    fn arguments(&self) -> String {
        self.parameters.iter().map(|(name, _)| *name).collect::<Vec<_>>().join(", ")
    }

    /// The lent parameters that are written to.
    fn lent(&self) -> Vec<(&str, &str)> {
        let all = self.parameters.iter().filter(|(_, kind)| kind.starts_with("&mut "));
        all.map(|(name, kind)| (*name, &kind[5..])).collect()
    }

    /// A call on copies of what is lent, with its answer and the copies as its value.
    fn on_copies(&self, called: &str, edit: &str) -> String {
        let mut all = String::new();
        for (name, kind) in self.lent() {
            let slice = kind.starts_with('[') && !kind.contains(';');
            let copy = if slice { format!("{name}.to_vec()") } else { format!("*{name}") };
            all += &format!("let mut copy_of_{name} = {copy};\n");
        }
        let lent: Vec<&str> = self.lent().into_iter().map(|(name, _)| name).collect();
        let argument = |name: &&str| match lent.contains(name) {
            true => format!("&mut copy_of_{name}"),
            false => name.to_string(),
        };
        let arguments: Vec<String> =
            self.parameters.iter().map(|(name, _)| argument(name)).collect();
        let copies: String = lent.iter().map(|name| format!(", copy_of_{name}")).collect();
        let call = format!("{ROOT}::run({edit}, || {called}({}))", arguments.join(", "));
        format!("{{\n{all}({call}{copies})\n}}")
    }

    /// Runs a call with each edit in turn that still waits for a change, beside the call as it is.
    fn trial(&self, edits: &[usize]) -> String {
        let name = &self.name;
        let was = self.on_copies(&format!("plain::{name}_as_it_is"), &format!("{ROOT}::NONE"));
        let is = self.on_copies(&format!("{name}_chosen"), "edit");
        format!(
            "static SETTLED: Settled = Settled::new(false);\n\
             if active() == 0 && {ROOT}::waiting(&SETTLED, &{edits:?}) {{\n\
             let was = {was};\nfor edit in {ROOT}::left(&{edits:?}) {{\n\
             let is = {is};\n{ROOT}::settle(edit, was == is);\n}}\n}}\n"
        )
    }

    /// The function as C calls it: a slice is a pointer and a length.
    fn face(&self) -> String {
        let (mut parameters, mut arguments) = (Vec::new(), Vec::new());
        for (name, kind) in &self.parameters {
            let (lent, how) = match (kind.strip_prefix("&mut "), kind.strip_prefix('&')) {
                (Some(inner), _) => (inner, "mut"),
                (None, Some(inner)) => (inner, "const"),
                _ => {
                    parameters.push(format!("{name}: {kind}"));
                    arguments.push(name.to_string());
                    continue;
                }
            };
            if let (true, Some(element)) = (!lent.contains(';'), lent.strip_prefix('[')) {
                let element = element.trim_end_matches(']');
                parameters.push(format!("{name}: *{how} {element}, length_of_{name}: usize"));
                arguments.push(format!("{ROOT}::slice_{how}({name}, length_of_{name})"));
            } else {
                parameters.push(format!("{name}: *{how} {lent}"));
                let mutable = if how == "mut" { "mut " } else { "" };
                arguments.push(format!("&{mutable}*{name}"));
            }
        }
        let (name, parameters, arguments) =
            (&self.name, parameters.join(", "), arguments.join(", "));
        format!(
            "#[export_name = {name:?}]\npub unsafe extern \"C\" fn c_{name}({parameters}) {} {{\n\
             {name}({arguments})\n}}\n",
            self.answer
        )
    }
}
