//! The tokens of Rattle's code, which are Rust's: what stands in a comment, a string or a character
//! is no operator, and nothing of the code is lost.

#[derive(Clone, Copy, Debug, PartialEq, Eq)]
pub enum Kind {
    Word,
    Number,
    /// A string or a character.
    Text,
    Mark,
}

#[derive(Clone, Copy, Debug)]
pub struct Token<'a> {
    pub kind: Kind,
    pub text: &'a str,
    pub at: usize,
}

impl Token<'_> {
    pub fn is(&self, text: &str) -> bool {
        matches!(self.kind, Kind::Word | Kind::Mark) && self.text == text
    }

    pub fn end(&self) -> usize {
        self.at + self.text.len()
    }
}

/// Marks of more than one character, the longer ones first.
const LONG_MARKS: [&str; 24] = [
    "<<=", ">>=", "..=", "...", "::", "->", "=>", "==", "!=", "<=", ">=", "&&", "||", "+=", "-=",
    "*=", "/=", "%=", "^=", "&=", "|=", "<<", ">>", "..",
];

/// The tokens of a code, without its comments; or what in it cannot be read.
pub fn tokens(code: &str) -> Result<Vec<Token<'_>>, String> {
    let mut found = Vec::new();
    let mut at = 0;
    while let Some(first) = code[at..].chars().next() {
        let rest = &code[at..];
        if first.is_whitespace() {
            at += first.len_utf8();
        } else if rest.starts_with("//") {
            at += rest.find('\n').unwrap_or(rest.len());
        } else {
            let (kind, length) = token(rest)?;
            found.push(Token { kind, text: &rest[..length], at });
            at += length;
        }
    }
    Ok(found)
}

/// The token that a text starts with: its kind and length.
fn token(rest: &str) -> Result<(Kind, usize), String> {
    let first = rest.chars().next().unwrap_or_default();
    // the language has no such comments: a division that looks like one shall not be lost
    if rest.starts_with("/*") {
        return Err("`/*`".to_string());
    }
    if let Some(length) = literal(rest)? {
        return Ok((Kind::Text, length));
    }
    if first.is_ascii_digit() {
        return Ok((Kind::Number, number(rest)));
    }
    let word = rest.find(|c: char| !c.is_alphanumeric() && c != '_').unwrap_or(rest.len());
    if word > 0 {
        return Ok((Kind::Word, word));
    }
    let long = LONG_MARKS.iter().find(|mark| rest.starts_with(**mark));
    Ok((Kind::Mark, long.map_or(first.len_utf8(), |mark| mark.len())))
}

/// The length of a number with its suffix; the two dots of a range are not part of it.
fn number(rest: &str) -> usize {
    let digits = |text: &str| {
        text.find(|c: char| !c.is_ascii_alphanumeric() && c != '_').unwrap_or(text.len())
    };
    let whole = digits(rest);
    match rest[whole..].strip_prefix('.') {
        Some(after) if after.starts_with(|c: char| c.is_ascii_digit()) => whole + 1 + digits(after),
        _ => whole,
    }
}

/// The length of the string or character that a text starts with, if it does.
fn literal(rest: &str) -> Result<Option<usize>, String> {
    let prefix = ["br", "b", "r", ""].into_iter().find(|prefix| {
        let inner = rest.strip_prefix(prefix);
        inner.is_some_and(|inner| inner.starts_with(['"', '\'', '#']))
    });
    let Some(prefix) = prefix else { return Ok(None) };
    let inner = &rest[prefix.len()..];
    let length = match (prefix, inner.chars().next()) {
        ("" | "b", Some('"')) => closed(inner, '"'),
        ("" | "b", Some('\'')) if is_character(inner) => closed(inner, '\''),
        // raw strings are not read; what else starts so, as a lifetime, is no literal
        ("br" | "r", Some('"' | '#')) => None,
        _ => return Ok(None),
    };
    let line = rest.lines().next().unwrap_or(rest);
    length.map(|n| Some(prefix.len() + n)).ok_or(format!("`{line}`"))
}

/// Whether a quote starts a character, not a lifetime.
fn is_character(text: &str) -> bool {
    let mut inner = text.chars().skip(1);
    let first = inner.next();
    first == Some('\\') || (first != Some('\'') && inner.next() == Some('\''))
}

/// The length of what a quote starts, up to the next such quote that no backslash is before.
fn closed(text: &str, quote: char) -> Option<usize> {
    let mut escaped = false;
    for (at, c) in text.char_indices().skip(1) {
        if c == quote && !escaped {
            return Some(at + c.len_utf8());
        }
        escaped = c == '\\' && !escaped;
    }
    None
}
