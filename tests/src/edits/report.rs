//! What the prover says of a function, read from its report on a round. It says that it found no
//! proof, and never that a statement is false, so that an edit which changes nothing may be refused
//! in the same words as a wrong one: whether it changes an answer is seen by running it.

use super::sources::{Item, Sources};

/// What an error says.
#[derive(Clone, Copy, Debug, PartialEq, Eq, PartialOrd, Ord)]
pub enum Kind {
    /// A statement was left without a proof.
    Unproved,
    /// What is shown and what is to be shown are two statements.
    Differs,
    /// A need of the code is answered by the proof of another need: the code asks for other facts
    /// than the proof's text goes through.
    OtherNeed,
    /// It is about another declaration, or a name that the changed code no longer has.
    Consequence,
    /// Nothing that is known here.
    Unknown,
}

/// What the report says of a function.
#[derive(Clone, Debug, PartialEq, Eq)]
pub enum Verdict {
    /// By a statement of its own, which was left unproved, also by the search, or is not the one shown.
    Refused,
    /// Only because the text of its proof no longer fits the needs of the code.
    Misfit,
    /// By no error of its own.
    NotRefused,
    /// In words that are not known here.
    Unknown(String),
}

/// The words by which an error is known, the first that fit. Every kind was seen in reports of this
/// kit; whatever another one says is unknown until it is read and listed here.
const WORDS: [(&str, Kind); 25] = [
    ("was not admitted (", Kind::Consequence),
    ("is not admitted: ", Kind::Consequence),
    ("` was not determined", Kind::Consequence),
    (", which was rejected, w", Kind::Consequence),
    ("is not in scope", Kind::Consequence),
    ("that can be named from here", Kind::Consequence),
    ("has no field", Kind::Consequence),
    ("binders, but its type has room for only", Kind::OtherNeed),
    ("does not follow from what it read", Kind::Unproved),
    ("`omega` found no proof, and no values at which the goal fails", Kind::Unproved),
    ("`omega` stopped at a bound of its own", Kind::Unproved),
    ("`grind` found no proof", Kind::Unproved),
    ("`grind` stopped at its own limit", Kind::Unproved),
    ("`grind`: the goal does not follow", Kind::Unproved),
    ("`search`: no proof of ", Kind::Unproved),
    ("`search` broke off: the call's work took more than", Kind::Unproved),
    ("`cc` met a bound of its own before the equations had joined", Kind::Unproved),
    ("`rw` has no last argument, so what it leaves must be a path", Kind::Unproved),
    ("`rw`: no occurrence of the path's left endpoint in the goal", Kind::Differs),
    ("`rw`: no occurrence of the path's left endpoint in the hypothesis's type", Kind::Differs),
    ("the two types differ only where", Kind::Differs),
    ("the two types first differ where", Kind::Differs),
    ("the two sides differ only where", Kind::Differs),
    ("does not hold (this comparison", Kind::Differs),
    ("but this has type", Kind::Differs),
];

/// What an error's message says.
pub fn kind(message: &str) -> Kind {
    if other_need(message) {
        return Kind::OtherNeed;
    }
    let known = WORDS.iter().find(|(words, _)| message.contains(words));
    known.map_or(Kind::Unknown, |(_, kind)| *kind)
}

/// Whether one need was asked for and another one given.
fn other_need(message: &str) -> bool {
    let need = |before: &str| {
        let (_, rest) = message.split_once(before)?;
        let name = rest.split([' ', '`']).next()?.rsplit('.').next()?;
        name.strip_prefix("Need-")
    };
    match (need("expected type `"), need("but this has type `")) {
        (Some(asked), Some(given)) => asked != given,
        _ => false,
    }
}

/// The errors of a report: the place, and the message with the indented lines that go on with it.
/// What it says while the check goes on, it says again at the end.
pub fn errors(report: &str) -> Vec<(&str, String)> {
    let mut all: Vec<(&str, String)> = Vec::new();
    let mut open = false;
    for line in report.lines().filter(|line| !line.starts_with("so far: ")) {
        match (line.split_once(": error: "), all.last_mut()) {
            (Some((place, message)), _) => {
                all.push((place, message.to_string()));
                open = true;
            }
            (None, Some((_, message))) if open && line.starts_with("  ") => message.push_str(line),
            _ => open = false,
        }
    }
    all
}

/// The errors in a function's own proof, by the place of its file: `proofs/F/` or
/// `proofs/MODULE/F/`, with `+` before each name where functions share a proof.
pub fn own_errors(report: &str, function: &Item) -> Vec<String> {
    let module = function.path.replace("::", "/");
    let folder = module.strip_suffix(function.name()).unwrap_or("");
    let is_own = |place: &str| {
        let inner = place.rsplit_once("/proofs/").map_or("", |(_, inner)| inner);
        let names = inner.strip_prefix(folder).and_then(|rest| rest.split_once('/'));
        names.is_some_and(|(names, file)| {
            !file.contains('/') && names.split('+').any(|name| name == function.name())
        })
    };
    errors(report).into_iter().filter(|(place, _)| is_own(place)).map(|(_, said)| said).collect()
}

/// Whether a report ends with a verdict on its crate.
pub fn is_whole(report: &str) -> bool {
    report.lines().any(|line| line.starts_with("logic="))
}

/// The line in which a report says whether a function is proved, behind its name.
fn line<'a>(report: &'a str, library: &str, function: &Item) -> &'a str {
    let head = format!("fn {library}::{}: ", function.path);
    report.lines().find_map(|line| line.strip_prefix(&head)).unwrap_or_default()
}

/// Whether a report leaves goals of a function untried until what it calls is proved.
pub fn waits(report: &str, library: &str, function: &Item) -> bool {
    let said = line(report, library, function);
    said.contains("it calls `") || said.contains("a call of `")
}

/// Whether the search for a proof failed at a goal of a function: one that no file of its proof
/// answers. The report names the place in the code from which the goal comes.
fn unanswered(report: &str, function: &Item, sources: &Sources) -> bool {
    let lines = sources.lines(function);
    let goals = report.lines().filter(|line| line.contains(": it is not proved that "));
    let places = goals.filter_map(|line| line.strip_prefix("note: ")?.strip_prefix(&function.file));
    let numbers = places.filter_map(|rest| rest.strip_prefix(':')?.split(':').next()?.parse().ok());
    let mut own = numbers.filter(|number| lines.contains(number));
    own.next().is_some()
}

/// What a report on a crate says of a function.
pub fn verdict(report: &str, library: &str, function: &Item, sources: &Sources) -> Verdict {
    let said = line(report, library, function);
    if !said.starts_with("no proof") && !said.starts_with("not proved") {
        return Verdict::NotRefused;
    }
    if said.contains("`search` did not prove `") || unanswered(report, function, sources) {
        return Verdict::Refused;
    }
    let own = own_errors(report, function);
    if let Some(message) = own.iter().find(|message| kind(message) == Kind::Unknown) {
        return Verdict::Unknown(message.chars().take(200).collect());
    }
    match own.iter().map(|message| kind(message)).min() {
        Some(Kind::Unproved | Kind::Differs) => Verdict::Refused,
        Some(Kind::OtherNeed) => Verdict::Misfit,
        _ => Verdict::NotRefused,
    }
}
