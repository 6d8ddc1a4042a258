//! That nothing is divided by M, the election's modulus: document 02, item 6. M is known only when
//! a record is read, so that a divisor which is a literal, or a named constant, is not M. Every
//! other divisor stands on a list here, with the reason why it is not M. All that the judge reaches
//! is searched, and beside that all crates.

pub mod layout;
pub mod reading;
pub mod tokens;
pub mod walk;

use crate::edits::sources::{Kind, Sources};
use std::collections::{BTreeMap, BTreeSet};
use walk::{Place, Program, Walk};

/// The crate of the C faces, and what their names start with.
const FACES: &str = "paddockyear";

/// A face of which a word starts so is a judge's entry, also one that is still to come.
const JUDGING: [&str; 3] = ["judge", "fault", "explain"];

/// The judge's entries that must be found.
const ENTRIES: [&str; 3] =
    ["paddockyear_judge_plainly", "paddockyear_judge_as_drawn", "paddockyear_first_fault"];

/// A divisor that is no literal, by its function and exact text, and why it is not M.
#[derive(Clone, Copy, Debug)]
pub struct Listed {
    pub function: &'static str,
    pub divisor: &'static str,
    pub reason: &'static str,
}

pub const LISTED: [Listed; 4] = [
    Listed {
        function: "challenge::list_chosen",
        divisor: "(lists as u64)",
        reason: "the draw's h mod (2m - i): the lists that are left, at most 24",
    },
    Listed {
        function: "layout::rank",
        divisor: "(1 << (l as u32))",
        reason: "a power of two by a list's number, for the bits of the mask before that list",
    },
    Listed {
        function: "vectors::feed",
        divisor: "most",
        reason: "the length of a piece of a message; the program knows no election",
    },
    Listed {
        function: "vectors::feed",
        divisor: "a.len()",
        reason: "the length of a message; the program knows no election",
    },
];

/// Why a divisor is not M; `Unknown` where nothing says so.
#[derive(Clone, Debug, PartialEq, Eq)]
pub enum Reason {
    Literal,
    Listed(&'static str),
    Unknown,
}

/// A division in an item, as `modular::plus`, with its operator and divisor.
#[derive(Clone, Debug)]
pub struct Found {
    pub item: String,
    pub text: String,
    pub reason: Reason,
    /// Whether the judge reaches the item.
    pub judged: bool,
}

#[derive(Debug, Default)]
pub struct Report {
    pub entries: Vec<String>,
    /// The functions that the judge reaches, its entries with them.
    pub reached: BTreeSet<String>,
    pub searched: (usize, usize),
    pub divisions: Vec<Found>,
    pub faults: Vec<String>,
}

fn named(place: &Place) -> String {
    format!("{}::{}", place.0, place.1)
}

/// Searches all crates, with a list of divisors that are no literals.
pub fn check(crates: &BTreeMap<String, Sources>, listed: &[Listed]) -> Report {
    let program = Program::new(crates);
    let entries = entries(crates);
    let walk = program.walk(&entries);
    let (mut divisions, mut met) = (Vec::new(), BTreeSet::new());
    for (place, division) in program.divisions() {
        let known = known(&program, place, division, listed);
        met.extend(known);
        let reason = match known.map(|number| listed[number].reason) {
            Some(reason) => Reason::Listed(reason),
            None if program.is_literal(place, division) => Reason::Literal,
            None => Reason::Unknown,
        };
        let judged = walk.reached.contains(place);
        let text = division.text.clone();
        divisions.push(Found { item: named(place), text, reason, judged });
    }
    let function = |place: &&Place| program.kind(place) == Some(Kind::Function);
    let count = |kind| program.readings.keys().filter(|p| program.kind(p) == Some(kind)).count();
    let mut faults = unsearched(&program, &walk, &entries);
    faults.extend(unlisted(&divisions));
    faults.extend(stale(listed, &met));
    Report {
        entries: entries.iter().map(|(_, path)| path.clone()).collect(),
        reached: walk.reached.iter().filter(function).map(named).collect(),
        searched: (count(Kind::Function), count(Kind::Constant)),
        divisions,
        faults,
    }
}

/// The number of the list's entry that has a division's divisor.
fn known(
    program: &Program,
    place: &Place,
    division: &reading::Division,
    listed: &[Listed],
) -> Option<usize> {
    let divisor = division.divisor.as_ref()?;
    let name = named(place);
    let same = |one: &Listed| one.function == name && one.divisor == divisor.text;
    // a literal needs no entry, so that one for it is never met
    listed.iter().position(same).filter(|_| !program.is_literal(place, division))
}

/// The judge's entries: the faces with a judging word in their names.
fn entries(crates: &BTreeMap<String, Sources>) -> Vec<Place> {
    let faces = crates.get(FACES).map_or(Vec::new(), Sources::public_functions);
    let judging = |path: &str| {
        let words = path.strip_prefix(FACES).into_iter().flat_map(|rest| rest.split('_'));
        words.into_iter().any(|word| JUDGING.iter().any(|start| word.starts_with(start)))
    };
    let found = faces.into_iter().filter(|face| judging(&face.path));
    found.map(|face| (FACES.to_string(), face.path.clone())).collect()
}

/// What keeps a search from being whole: sources that cannot be read, entries that are not there,
/// and calls that lead nowhere.
fn unsearched(program: &Program, walk: &Walk, entries: &[Place]) -> Vec<String> {
    let mut faults: Vec<String> =
        program.crates.iter().flat_map(|(name, sources)| layout::faults(name, sources)).collect();
    for (place, reading) in &program.readings {
        let unread = reading.as_ref().err().into_iter();
        faults.extend(unread.map(|what| format!("{}: {what}: cannot be read", named(place))));
    }
    let missing = ENTRIES.iter().filter(|entry| entries.iter().all(|(_, path)| path != *entry));
    faults
        .extend(missing.map(|entry| format!("{FACES}::{entry}: a judging entry that is missing")));
    let lost = walk.lost.iter();
    faults.extend(lost.map(|(place, name)| {
        format!("{}: `{name}`: no function of the crates, and not listed", named(place))
    }));
    faults
}

fn unlisted(divisions: &[Found]) -> Vec<String> {
    let unknown = divisions.iter().filter(|found| found.reason == Reason::Unknown);
    let line =
        |found: &Found| format!("{}: `{}`: not a literal and not listed", found.item, found.text);
    unknown.map(line).collect()
}

fn stale(listed: &[Listed], met: &BTreeSet<usize>) -> Vec<String> {
    let unmet = listed.iter().enumerate().filter(|(number, _)| !met.contains(number));
    let line = |one: &Listed| format!("{}: `{}`: listed and not met", one.function, one.divisor);
    unmet.map(|(_, one)| line(one)).collect()
}

impl Report {
    /// How many divisions there are by literals and by listed numbers, of the judge or of all.
    pub fn counts(&self, judged: bool) -> (usize, usize) {
        let of = || self.divisions.iter().filter(move |found| found.judged || !judged);
        let literals = of().filter(|found| found.reason == Reason::Literal).count();
        let listed = of().filter(|found| matches!(found.reason, Reason::Listed(_))).count();
        (literals, listed)
    }

    /// The report for people; its last line is the sum.
    pub fn lines(&self) -> Vec<String> {
        let mut lines = vec![format!("entries: {}", self.entries.join(", "))];
        lines.push(format!("functions reached: {}", self.by_crate()));
        lines.push("divisions in what the judge reaches:".to_string());
        let judged = self.divisions.iter().filter(|found| found.judged);
        lines.extend(counted(judged.map(Found::line)));
        lines.push("divisions elsewhere by a divisor that is no literal:".to_string());
        let others = self.divisions.iter().filter(|found| !found.judged);
        lines.extend(others.filter(|found| found.reason != Reason::Literal).map(Found::line));
        lines.extend(self.faults.iter().map(|fault| format!("division: {fault}")));
        lines.extend(self.sums());
        lines
    }

    fn by_crate(&self) -> String {
        let mut counts: BTreeMap<&str, usize> = BTreeMap::new();
        for name in self.reached.iter().filter_map(|path| path.split("::").next()) {
            *counts.entry(name).or_default() += 1;
        }
        let parts = counts.iter().map(|(name, count)| format!("{name} {count}"));
        parts.collect::<Vec<_>>().join(", ")
    }

    fn sums(&self) -> Vec<String> {
        if !self.faults.is_empty() {
            return vec![format!("division: {} faults", self.faults.len())];
        }
        let by = |judged: bool| {
            let (literals, listed) = self.counts(judged);
            format!("{literals} divisions by literals, {listed} by listed numbers, none by M")
        };
        let (functions, constants) = self.searched;
        let (reached, entries) = (self.reached.len(), self.entries.len());
        vec![
            format!(
                "division: {functions} functions and {constants} constants in all crates, {}",
                by(false)
            ),
            format!(
                "division: {reached} functions reached from {entries} judging entries, {}",
                by(true)
            ),
        ]
    }
}

/// Lines of which those that follow each other and are the same are one, with their number.
fn counted(lines: impl Iterator<Item = String>) -> Vec<String> {
    let mut found: Vec<(String, usize)> = Vec::new();
    for line in lines {
        match found.last_mut() {
            Some((last, count)) if *last == line => *count += 1,
            _ => found.push((line, 1)),
        }
    }
    let written = |(line, count)| match count {
        1 => line,
        _ => format!("{line}, {count} times"),
    };
    found.into_iter().map(written).collect()
}

impl Found {
    fn line(&self) -> String {
        let why = match self.reason {
            Reason::Literal => "literal",
            Reason::Listed(reason) => reason,
            Reason::Unknown => "not known",
        };
        format!("  {}: `{}`: {why}", self.item, self.text)
    }
}
