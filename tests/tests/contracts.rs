//! The contracts as text: all functions are there, with every clause.

use paddockyear_tests::contracts::contracts;
use paddockyear_tests::crates::all;
use paddockyear_tests::edits::sources::{Kind, Sources};
use std::process::Command;

const ROOT: &str = concat!(env!("CARGO_MANIFEST_DIR"), "/..");

const LIB: &str = "\
ghost use lib.ListN.{length};

// Ensures that { nothing } is lost.
pub fn wide(
    x: u8,
    ensured: u8,
) -> u64
    requires { x < 9 }
    ensures output { let k  = x in
        out.new ≡ k }
    ensures answer { result ≡ x }
{
    ensures(x) as u64
}

const STEP: u32 = 7;

fn ensures(x: u8) -> u8 {
    x
}

fn last(x: u8) -> u8
    ensures { result ≡ x }
{
    x
}
";

fn sources(files: &[(&str, &str)]) -> Sources {
    let pair = |(file, text): &(&str, &str)| (file.to_string(), text.to_string());
    Sources::new(files.iter().map(pair).collect())
}

#[test]
fn contracts_are_written_with_single_spaces_by_crate_and_path() {
    let inner = "fn last(x: u8)\n    requires { x < 9 }\n{\n    x;\n}\n";
    let late = sources(&[("src/lib.rt", LIB), ("src/inner.rt", inner)]);
    let early = sources(&[("src/main.rt", "fn main() {\n    1\n}\n")]);
    let crates = [("late".to_string(), late), ("early".to_string(), early)].into();
    let lines = [
        "early::main",
        "late::ensures",
        "late::inner::last",
        "    requires { x < 9 }",
        "late::last",
        "    ensures { result ≡ x }",
        "late::wide",
        "    requires { x < 9 }",
        "    ensures output { let k = x in out.new ≡ k }",
        "    ensures answer { result ≡ x }",
        "contracts: 5 functions, 2 requires, 3 ensures",
    ];
    assert_eq!(contracts(&crates), lines);
}

#[test]
fn a_changed_promise_changes_one_line() {
    let written =
        |text: &str| contracts(&[("one".to_string(), sources(&[("src/lib.rt", text)]))].into());
    let (old, new) = (written(LIB), written(&LIB.replace("let k  = x", "let k = 1")));
    let changed: Vec<usize> = (0..old.len()).filter(|&line| old[line] != new[line]).collect();
    assert_eq!((old.len(), changed.len()), (new.len(), 1));
    let body = LIB.replace("    x\n", "    x + 1\n").replace("k  = x", "k = x");
    assert_eq!(old, written(&body));
}

#[test]
fn faces_and_verifier_promise_something() {
    let crates = all(ROOT);
    for name in ["paddockyear", "verifier"] {
        let sources = &crates[name];
        let functions = sources.items.iter().filter(|item| item.kind == Kind::Function);
        let bare = functions.filter(|item| {
            !sources.clauses(item).iter().any(|clause| clause.starts_with("ensures"))
        });
        assert_eq!(bare.map(|item| &item.path[..]).collect::<Vec<_>>(), [""; 0], "{name}");
    }
}

/// Every clause of the sources is counted, and every function: the words at the lines' starts are
/// counted here without the parsing.
#[test]
fn the_program_leaves_no_function_and_no_clause_out() {
    let run = Command::new(env!("CARGO_BIN_EXE_contracts")).current_dir(ROOT).output();
    let text = String::from_utf8(run.expect("the program runs").stdout).expect("text");
    let crates = all(ROOT);
    let lines =
        || crates.values().flat_map(|sources| sources.files.values()).flat_map(|t| t.lines());
    let head = |line: &&str| {
        let words = line.split_whitespace().take(4);
        // a method is indented once
        let own = line.strip_prefix("    ").unwrap_or(line);
        !own.starts_with([' ', '/']) && words.into_iter().any(|word| word == "fn")
    };
    let clauses = |word: &str| {
        lines().filter(|line| line.trim_start().split(' ').next() == Some(word)).count()
    };
    let (functions, requires, ensures) =
        (lines().filter(head).count(), clauses("requires"), clauses("ensures"));
    assert!(functions > 300 && requires > 200 && ensures > 300);
    let sum = format!("contracts: {functions} functions, {requires} requires, {ensures} ensures");
    assert_eq!(text.lines().last(), Some(&sum[..]));
    assert_eq!(text.lines().map(String::from).collect::<Vec<_>>(), contracts(&crates));
}
