//! What the code of a function or constant says: its divisions, and the names that it uses. Its
//! contract, its comments and `ghost` lines are no code.

use super::tokens::{tokens, Kind as Sort, Token};
use crate::edits::sources::{Item, Kind, Sources};

#[derive(Debug, Default)]
pub struct Reading {
    pub divisions: Vec<Division>,
    pub names: Vec<Name>,
    /// The function's parameters by name, among which a call may be of a closure that is handed over.
    pub parameters: Vec<String>,
}

/// A division or remainder. `text` is its operator with the divisor, or the name of the call.
#[derive(Debug)]
pub struct Division {
    pub text: String,
    pub divisor: Option<Divisor>,
}

/// A divisor's text and the paths in it; `plain` where it has only these, numbers and marks.
#[derive(Debug)]
pub struct Divisor {
    pub text: String,
    pub paths: Vec<String>,
    pub plain: bool,
}

/// A name as it is written, and how it is used.
#[derive(Debug)]
pub enum Name {
    Call(String),
    Method(String),
    /// With `::` in it, and not called.
    Path(String),
    /// A single word, not called: mostly a local name.
    Word(String),
    /// A use that is not understood, as a macro's, a generic call or a called expression.
    Odd(String),
}

const KEYWORDS: [&str; 18] = [
    "as", "break", "const", "continue", "else", "false", "for", "if", "in", "let", "loop", "match",
    "mut", "ref", "return", "true", "unsafe", "while",
];

/// Words that declare something inside of a body, which is not looked for there.
const DECLARING: [&str; 7] = ["enum", "fn", "impl", "macro_rules", "mod", "struct", "use"];

/// An item's code: what stands behind its name, without contract and `ghost` lines.
fn code(sources: &Sources, item: &Item) -> String {
    let start = if item.kind == Kind::Function { '(' } else { ':' };
    let head = sources.head(item);
    let head = head.find(start).map_or(head, |at| &head[at..]);
    // the brace keeps an answer's type and a bracket that starts the body apart
    format!("{head}\n{{\n{}", without_ghost(sources.body(item)))
}

/// A text without its `ghost` lines.
pub fn without_ghost(text: &str) -> String {
    let lines = text.lines().filter(|line| !line.trim_start().starts_with("ghost "));
    lines.collect::<Vec<_>>().join("\n")
}

/// Reads an item, or says what in it cannot be read.
pub fn read(sources: &Sources, item: &Item) -> Result<Reading, String> {
    let code = code(sources, item);
    let tokens = tokens(&code)?;
    let names = names(&tokens);
    let mut divisions = operators(&code, &tokens);
    divisions.extend(names.iter().filter_map(dividing_call));
    Ok(Reading { divisions, names, parameters: parameters(sources, item)? })
}

/// The names before a colon in a function's head.
fn parameters(sources: &Sources, item: &Item) -> Result<Vec<String>, String> {
    let head = sources.head(item);
    let tokens = tokens(head.find('(').map_or("", |at| &head[at..]))?;
    let named = tokens.windows(2).filter(|pair| pair[0].kind == Sort::Word && pair[1].is(":"));
    Ok(named.map(|pair| pair[0].text.to_string()).collect())
}

/// Whether a token is one of the four operators.
pub fn divides(token: &Token) -> bool {
    ["/", "%", "/=", "%="].iter().any(|operator| token.is(operator))
}

/// The divisions by an operator.
fn operators(code: &str, tokens: &[Token]) -> Vec<Division> {
    let mut found = Vec::new();
    for (place, token) in tokens.iter().enumerate().filter(|(_, token)| divides(token)) {
        let start = place + 1;
        let end = if token.text.ends_with('=') {
            expression_end(tokens, start)
        } else {
            operand_end(tokens, start)
        };
        let divisor = divisor(code, &tokens[start..end]);
        let text = format!("{} {}", token.text, divisor.text);
        found.push(Division { text, divisor: Some(divisor) });
    }
    found
}

fn divisor(code: &str, tokens: &[Token]) -> Divisor {
    let span = tokens.first().zip(tokens.last()).map_or("", |(a, z)| &code[a.at..z.end()]);
    let text = span.split_whitespace().collect::<Vec<_>>().join(" ");
    let types = |place: usize| place > 0 && tokens[place - 1].is("as");
    let (mut paths, mut plain, mut place) = (Vec::new(), !tokens.is_empty(), 0);
    while place < tokens.len() {
        let end = path_end(tokens, place);
        match tokens[place].kind {
            Sort::Word if tokens[place].is("as") || types(place) => {}
            Sort::Word => paths.push(path(&tokens[place..end])),
            Sort::Text => plain = false,
            _ => plain &= !tokens[place].is("."),
        }
        place = end;
    }
    Divisor { text, paths, plain }
}

/// A call whose name says that it divides: by what is not known.
fn dividing_call(name: &Name) -> Option<Division> {
    let (Name::Call(path) | Name::Method(path) | Name::Path(path)) = name else { return None };
    let last = path.rsplit("::").next().unwrap_or(path);
    let words = format!("_{last}_");
    let divides = ["_div_", "_rem_", "_multiple_of_"].iter().any(|word| words.contains(word));
    divides.then(|| Division { text: path.clone(), divisor: None })
}

/// Where a path ends that starts at a place, or the token that stands there.
fn path_end(tokens: &[Token], start: usize) -> usize {
    let mut end = start + 1;
    let word = |place: usize| tokens.get(place).is_some_and(|token| token.kind == Sort::Word);
    while word(start) && tokens.get(end).is_some_and(|token| token.is("::")) && word(end + 1) {
        end += 2;
    }
    end
}

fn path(tokens: &[Token]) -> String {
    tokens.iter().map(|token| token.text).collect()
}

/// Where what a bracket opens ends.
fn closed(tokens: &[Token], start: usize) -> usize {
    let mut depth = 0usize;
    for (place, token) in tokens.iter().enumerate().skip(start) {
        depth += usize::from(["(", "[", "{"].iter().any(|mark| token.is(mark)));
        depth -= usize::from([")", "]", "}"].iter().any(|mark| token.is(mark)));
        if depth == 0 {
            return place + 1;
        }
    }
    tokens.len()
}

fn opens(token: Option<&Token>) -> bool {
    token.is_some_and(|token| ["(", "[", "{"].iter().any(|mark| token.is(mark)))
}

/// Where the operand of an operator ends: signs, then a number, a bracket or a path, then fields,
/// indices, arguments and casts, which bind closer than the operator.
fn operand_end(tokens: &[Token], start: usize) -> usize {
    let is = |place: usize, texts: &[&str]| {
        tokens.get(place).is_some_and(|token| texts.iter().any(|text| token.is(text)))
    };
    let mut end = start;
    while is(end, &["-", "!", "*", "&", "&&", "mut"]) {
        end += 1;
    }
    end = if opens(tokens.get(end)) { closed(tokens, end) } else { path_end(tokens, end) };
    loop {
        if is(end, &["(", "["]) {
            end = closed(tokens, end);
        } else if is(end, &[".", "as"]) {
            end = path_end(tokens, end + 1);
        } else {
            return end.min(tokens.len());
        }
    }
}

/// Where an expression ends that reaches up to a semicolon, a comma or its bracket's end.
fn expression_end(tokens: &[Token], start: usize) -> usize {
    let mut end = start;
    while let Some(token) = tokens.get(end) {
        if [";", ",", ")", "]", "}"].iter().any(|mark| token.is(mark)) {
            break;
        }
        end = if opens(Some(token)) { closed(tokens, end) } else { end + 1 };
    }
    end.min(tokens.len())
}

fn names(tokens: &[Token]) -> Vec<Name> {
    let mut found = Vec::new();
    let mut place = 0;
    while place < tokens.len() {
        let end = path_end(tokens, place);
        found.extend(name(tokens, place, end));
        place = end;
    }
    found
}

/// How the path from a place up to another is used, or what a bracket there closes.
fn name(tokens: &[Token], place: usize, end: usize) -> Option<Name> {
    let (first, path) = (&tokens[place], path(&tokens[place..end]));
    let is = |place: usize, text: &str| tokens.get(place).is_some_and(|token| token.is(text));
    if first.kind != Sort::Word {
        let called = (first.is(")") || first.is("]")) && is(end, "(");
        return called.then(|| Name::Odd(format!("{path}(")));
    }
    let before = |text: &str| place > 0 && tokens[place - 1].is(text);
    if DECLARING.contains(&first.text) || is(end, "::") || before("::") {
        return Some(Name::Odd(path));
    }
    if is(end, "!") && opens(tokens.get(end + 1)) {
        return Some(Name::Odd(format!("{path}!")));
    }
    if KEYWORDS.contains(&first.text) {
        return None;
    }
    match (before("."), is(end, "(")) {
        (true, true) => Some(Name::Method(path)),
        (true, false) => None,
        (false, true) => Some(Name::Call(path)),
        (false, false) if path.contains("::") => Some(Name::Path(path)),
        (false, false) => Some(Name::Word(path)),
    }
}
