//! The must-fail edits of the crates: every edit is refused where it was made, and every public
//! function guards at least two. Run from the root.
//!
//! - `edits translate FILE` writes the crates' code in Rust with the edits beside it, and starts
//!   the notes of a run.
//! - `edits try [NAME..]` asks the prover for the rounds of the crates, of all in crates.txt if none
//!   is named, begun with what `rt all check` kept, and keeps its reports. `RT_JOBS`, if it is set,
//!   says how many are tried at a time, else the number of processors.
//! - `edits [--run] [--own] [NAME..]` reads these reports. `--run`: the notes of the run must show
//!   that each edit changes an answer. `--own`: every public function has an edit in itself.

use paddockyear_tests::crates::{files, listed, sources};
use paddockyear_tests::edits::rounds::{parse, Edit};
use paddockyear_tests::edits::sources::Item;
use paddockyear_tests::edits::translation::{translated, Library};
use paddockyear_tests::edits::trying::{try_all, Round, Try};
use paddockyear_tests::edits::{faults, never_changed, resolved, unguarded, Run, Trial};
use std::collections::BTreeSet;
use std::fs;
use std::hash::{DefaultHasher, Hash, Hasher};
use std::path::{Path, PathBuf};
use std::process::ExitCode;
use std::thread;

/// Where this is run from: the root of the repository.
const ROOT: &str = ".";

/// The crate of the faces, by which the suites reach all the others.
const FACES: &str = "paddockyear";

/// What the run notes.
const NOTES: &str = "target/edits/changes";

/// Where the reports of a round are kept, a file for each try.
const REPORTS: &str = "target/must-fail";

/// Edits that change nothing, by crate: the run must try them and see no change.
const CONTROLS: &str = "tests/tests/edits/controls";

/// The edits of a file, or what is wrong with it.
fn edits_of(file: &Path) -> Result<Vec<Edit>, String> {
    let text = fs::read_to_string(file).map_err(|error| error.to_string());
    text.and_then(|text| parse(&text)).map_err(|what| format!("{}: {what}", file.display()))
}

/// The rounds of a crate: the name of each file, and its edits or what is wrong with them.
fn rounds(name: &str) -> Vec<(String, Result<Vec<Edit>, String>)> {
    let folder = PathBuf::from(format!("crates/{name}/must-fail"));
    files(&folder, "edit").iter().map(|file| (stem(file), edits_of(file))).collect()
}

/// A file's name without its ending.
fn stem(file: &Path) -> String {
    file.file_stem().expect("a file's name").to_string_lossy().to_string()
}

fn controls(name: &str) -> Vec<Edit> {
    let file = format!("{CONTROLS}/{name}.edit");
    edits_of(Path::new(&file)).unwrap_or_default()
}

/// What the run tries of a crate: its edits, and the controls for it. One that a private function
/// guards, an edit of a constant, is tried on the calls of a public one that calls it.
fn trials(library: &Library) -> Vec<Trial> {
    let name = &library.name;
    let edits = rounds(name).into_iter().flat_map(|(_, edits)| edits.unwrap_or_default());
    let all = edits.chain(controls(name));
    let trial = |edit: Edit| {
        let (item, guard) = resolved(&edit, &library.sources).ok()?;
        let reaches = |other: &&Item| library.sources.reaches(&other.path, &guard.path);
        let called = library.sources.public_functions().into_iter().find(reaches);
        let contract = if guard.public { guard } else { called? };
        let (item, contract) = (item.path.clone(), contract.path.clone());
        Some(Trial { library: name.clone(), edit, item, contract })
    };
    all.filter_map(trial).collect()
}

/// The crates that a crate leans on, itself with them, in the order of crates.txt.
fn below(name: &str) -> Vec<(String, Vec<String>)> {
    let mut all = listed(ROOT);
    let mut needed = BTreeSet::from([name.to_string()]);
    // what a crate leans on stands above it
    for (name, leans_on) in all.iter().rev() {
        if needed.contains(name) {
            needed.extend(leans_on.iter().cloned());
        }
    }
    all.retain(|(name, _)| needed.contains(name));
    all
}

/// The code in Rust with all edits, and what tells this text from others. Programs are left out,
/// and what only they call.
fn translation() -> Result<(String, String), String> {
    let all = below(FACES).into_iter();
    let libraries: Vec<Library> = all
        .map(|(name, leans_on)| Library { sources: sources(ROOT, &name), name, leans_on })
        .collect();
    let trials: Vec<Trial> = libraries.iter().flat_map(trials).collect();
    let text = translated(&libraries, &trials)?;
    let mut sum = DefaultHasher::new();
    text.hash(&mut sum);
    Ok((text, format!("of {:016x}", sum.finish())))
}

fn translate(file: &str) -> Result<(), String> {
    let (text, sum) = translation()?;
    let folder = Path::new(NOTES).parent().expect("a folder");
    let written = fs::create_dir_all(folder)
        .and_then(|()| fs::write(file, text))
        .and_then(|()| fs::write(NOTES, format!("{sum}\n")));
    written.map_err(|error| format!("{file}: {error}"))
}

/// The notes of a run of the code as it is now.
fn notes() -> Result<Run, String> {
    let (_, sum) = translation()?;
    let text = fs::read_to_string(NOTES).map_err(|error| format!("{NOTES}: {error}"))?;
    if text.lines().next() != Some(&sum) {
        return Err(format!("{NOTES}: of a run of other code"));
    }
    Ok(Run::read(&text))
}

/// The folder of a round's reports.
fn reports(name: &str, round: &str) -> PathBuf {
    PathBuf::from(format!("{REPORTS}/{name}/{round}"))
}

/// The tries of a round.
fn tries_of(name: &str, round: &str) -> Vec<Try> {
    let mut found = files(&reports(name, round), "log");
    found.sort_by_key(|file| stem(file).parse::<usize>().ok());
    let texts = found.iter().filter_map(|file| fs::read_to_string(file).ok());
    texts.filter_map(|text| Try::read(&text)).collect()
}

/// Tries the rounds of crates, the highest crates first: their checks are the longest, and end while
/// others are still to be tried. How many were tried, and how many could not be.
fn try_rounds(named: Vec<String>) -> Result<(usize, usize), String> {
    let due = named.iter().rev().flat_map(|name| {
        let all = rounds(name).into_iter();
        all.map(move |(round, edits)| (name.clone(), round, edits.unwrap_or_default()))
    });
    let due: Vec<Round> = due
        .filter(|(_, _, edits)| !edits.is_empty())
        .map(|(name, file, edits)| Round { reports: reports(&name, &file), name, file, edits })
        .collect();
    let jobs = std::env::var("RT_JOBS").ok().and_then(|jobs| jobs.parse().ok());
    let jobs = jobs.or(thread::available_parallelism().ok().map(usize::from)).unwrap_or(1);
    let bad = try_all(Path::new(ROOT), &due, jobs).map_err(|error| error.to_string())?;
    Ok((due.len() - bad, bad))
}

/// How many edits of a crate are as they should be, and what is wrong.
fn look(name: &str, run: Option<&Run>, own: bool) -> (usize, Vec<String>) {
    let sources = sources(ROOT, name);
    let (mut all, mut wrong) = (Vec::new(), Vec::new());
    for (round, edits) in rounds(name) {
        match edits {
            Ok(edits) => {
                let tries = tries_of(name, &round);
                wrong.extend(faults(name, &edits, &sources, &tries, run));
                all.extend(edits);
            }
            Err(what) => wrong.push(what),
        }
    }
    let good = all.len().saturating_sub(wrong.len());
    wrong.extend(unguarded(name, &all, &sources));
    if own {
        wrong.extend(never_changed(name, &all, &sources));
    }
    let names = controls(name).into_iter().map(|edit| format!("{name}/{}", edit.label));
    let off = |name: &String| {
        run.is_some_and(|run| !run.tried.contains(name) || run.changed.contains(name))
    };
    wrong.extend(
        names.filter(off).map(|name| format!("{name}: a control that is not as it should be")),
    );
    (good, wrong)
}

/// The crates that are named among the words, else all.
fn named(words: &[String]) -> Vec<String> {
    let all = || listed(ROOT).into_iter().map(|(name, _)| name).collect();
    let named: Vec<String> = words.iter().filter(|word| !word.starts_with("--")).cloned().collect();
    if named.is_empty() {
        all()
    } else {
        named
    }
}

fn read(words: &[String]) -> Result<(usize, usize), String> {
    let has = |flag: &str| words.iter().any(|word| word == flag);
    let run = if has("--run") { Some(notes()?) } else { None };
    let (mut good, mut bad) = (0, 0);
    for name in named(words) {
        let (right, wrong) = look(&name, run.as_ref(), has("--own"));
        wrong.iter().for_each(|line| println!("edits: {line}"));
        good += right;
        bad += wrong.len();
    }
    Ok((good, bad))
}

fn main() -> ExitCode {
    let words: Vec<String> = std::env::args().skip(1).collect();
    let (counts, what) = match words.split_first() {
        Some((first, [file])) if first == "translate" => match translate(file) {
            Ok(()) => return ExitCode::SUCCESS,
            Err(why) => (Err(why), "translations"),
        },
        Some((first, rest)) if first == "try" => (try_rounds(named(rest)), "rounds tried"),
        _ => (read(&words), "edits refused where they were made"),
    };
    let (good, bad) = counts.unwrap_or_else(|why| {
        println!("edits: {why}");
        (0, 1)
    });
    println!("{good} {what}, {bad} faults");
    if bad == 0 {
        ExitCode::SUCCESS
    } else {
        ExitCode::FAILURE
    }
}
