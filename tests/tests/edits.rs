//! The reading of must-fail rounds: what an edit may change, what counts as refused, on reports
//! that the prover wrote (`edits/*.report`, long lines cut), and what a run shows.

use paddockyear_tests::edits::report::{errors, kind, verdict, waits, Kind, Verdict};
use paddockyear_tests::edits::rounds::{parse, Edit};
use paddockyear_tests::edits::sources::{Item, Sources};
use paddockyear_tests::edits::translation::{translated, Library};
use paddockyear_tests::edits::trying::Try;
use paddockyear_tests::edits::{faults, never_changed, resolved, unguarded, Run, Trial};
use std::collections::BTreeMap;

const LIB: &str = "\
#![tactic(auto)]

mod halves;
use halves::twice as doubled;

const STEP: u32 = 7;

// Twice x, x + y nowhere.
pub fn four(x: u32) -> u32
    ensures { result ≡ x + y }
{
    // at last
    add(doubled(x), halves::twice(x))
}

fn add(x: u32, y: u32) -> u32 {
    x + y
}

#[unsafe(no_mangle)]
pub extern \"C\" fn face(x: &[u32]) -> u32 {
    four(x[0]) + STEP
}
";

const HALVES: &str = "\
use crate::add as sum;

pub fn twice(x: u32) -> u32 {
    sum(x, x)
}

fn add(x: u32) -> u32 {
    x + 1
}
";

/// `wire` and its controls as they were when the reports on the controls and its first round were
/// written, and a report on a crate of modules.
const WIRE: &str = include_str!("edits/wire.source");
const CONTROLS: &str = include_str!("edits/wire.controls");
const CONTROLS_REPORT: &str = include_str!("edits/controls.report");
const ROUND_REPORT: &str = include_str!("edits/round.report");
const MODULES_REPORT: &str = include_str!("edits/modules.report");

fn sources() -> Sources {
    let files = [("src/lib.rt", LIB), ("src/halves.rt", HALVES)];
    Sources::new(files.map(|(file, text)| (file.to_string(), text.to_string())).into())
}

fn wire() -> Sources {
    Sources::new([("src/lib.rt".to_string(), WIRE.to_string())].into())
}

/// One try of edits, with this report.
fn tried(edits: &[Edit], report: &str) -> Try {
    let labels = edits.iter().map(|edit| edit.label.clone()).collect();
    Try { labels, report: report.to_string() }
}

fn edit(head: &str, file: &str, old: &str, new: &str) -> Edit {
    let text = format!("edit: {head}\nfile: {file}\nold: {old}\nnew: {new}\n");
    parse(&text).expect("an edit").remove(0)
}

fn wrong(head: &str, file: &str, old: &str, new: &str) -> String {
    resolved(&edit(head, file, old, new), &sources()).expect_err("something wrong")
}

fn item(path: &str) -> Item {
    sources().at(path).expect("an item").clone()
}

#[test]
fn edits_are_read_with_item_contract_and_texts() {
    let text = "edit: a in add for four\nfile: src/lib.rt\nold:     x + y\nnew:     x + x\n\
                edit: b in face\nold: STEP\nnew:\n";
    let edits = parse(text).expect("a round");
    assert_eq!((&edits[0].item[..], &edits[0].contract[..]), ("add", "four"));
    assert_eq!(edits[0].replaced, [("    x + y".to_string(), "    x + x".to_string())]);
    assert_eq!((&edits[1].contract[..], &edits[1].file[..]), ("face", "src/lib.rt"));
    assert_eq!(edits[1].replaced[0].1, "");
}

#[test]
fn malformed_rounds_are_refused() {
    assert_eq!(parse("file: specs/A.antt\nold: a\nnew: b\n"), Ok(Vec::new()), "no round");
    assert!(parse("edit: a of f\nold: x\nnew: y\n").is_err());
    assert!(parse("edit: a in f\nedit: b in g\nold: x\nnew: y\n").is_err());
    assert!(parse("old: x\nnew: y\nedit: a in f\nold: x\nnew: y\n").is_err());
}

#[test]
fn functions_of_modules_are_found() {
    let all = sources();
    let public: Vec<&str> = all.public_functions().iter().map(|item| &item.path[..]).collect();
    assert_eq!(public, ["halves::twice", "four", "face"]);
    assert_eq!(all.named("src/lib.rt", "add").map(|item| &item.path[..]), Some("add"));
    assert_eq!(all.named("src/halves.rt", "add").map(|i| &i.path[..]), Some("halves::add"));
    assert_eq!(all.named("src/lib.rt", "halves::add").map(|i| &i.file[..]), Some("src/halves.rt"));
    assert_eq!(all.named("src/halves.rt", "four").map(|item| &item.path[..]), Some("four"));
}

#[test]
fn calls_are_followed_through_modules() {
    let all = sources();
    assert!(all.reaches("four", "halves::twice"), "by its path, and by another name");
    assert!(all.reaches("halves::twice", "add"), "through a use of the crate's root");
    assert!(all.reaches("face", "halves::twice"), "by way of another function");
    assert!(!all.reaches("face", "halves::add"), "one of the same name");
    assert!(!all.reaches("add", "four"));
}

#[test]
fn an_edit_changes_the_body_of_its_item() {
    let all = sources();
    assert!(resolved(&edit("a in add for four", "src/lib.rt", "    x + y", "    x"), &all).is_ok());
    assert!(
        wrong("a in add for four", "src/lib.rt", "x + y", "x").contains("body"),
        "three places"
    );
    assert!(resolved(&edit("a in twice", "src/halves.rt", "sum(x, x)", "sum(x, 0)"), &all).is_ok());
    assert!(resolved(&edit("a in STEP for face", "src/lib.rt", " 7", " 8"), &all).is_ok());
    let signature = wrong(
        "a in add for four",
        "src/lib.rt",
        "fn add(x: u32, y: u32)",
        "fn add(x: u32, z: u32)",
    );
    assert!(signature.contains("body"));
    assert!(
        wrong("a in four", "src/lib.rt", "{ result ≡ x", "{ result ≡ result").contains("body"),
        "a contract"
    );
    assert!(
        wrong("a in four", "src/lib.rt", "// Twice x", "// Thrice x").contains("body"),
        "a comment above"
    );
    assert!(wrong("a in four", "src/lib.rt", "// at last", "// at first").contains("no code"));
    assert!(wrong("a in four", "src/halves.rt", "sum(x, x)", "sum(x, 0)").contains("body"));
}

#[test]
fn an_edit_is_for_a_public_function_that_calls_the_changed_one() {
    assert!(wrong("a in add", "src/halves.rt", "x + 1", "x").contains("public"));
    assert!(wrong("a in add for twice", "src/halves.rt", "x + 1", "x").contains("public"));
    assert!(wrong("a in STEP for four", "src/lib.rt", " 7", " 8").contains("uses the constant"));
    assert!(
        wrong("a in twice for other", "src/halves.rt", "sum(x, x)", "x").contains("no function")
    );
    assert!(wrong("a in four", "src/main.rt", "x", "y").contains("no such file"));
}

#[test]
fn every_public_function_has_edits() {
    let edits = [
        edit("a in twice", "src/halves.rt", "sum(x, x)", "x"),
        edit("b in twice for four", "src/halves.rt", "sum(x, x)", "0"),
    ];
    let few =
        ["c::halves::twice", "c::four", "c::face"].map(|f| format!("{f} has fewer than two edits"));
    assert_eq!(unguarded("c", &edits, &sources()), few);
    let without = ["c::four", "c::face"].map(|f| format!("{f} has no edit in itself"));
    assert_eq!(never_changed("c", &edits, &sources()), without);
}

#[test]
fn the_prover_says_what_is_listed() {
    let kinds =
        |report: &str| -> Vec<Kind> { errors(report).iter().map(|(_, said)| kind(said)).collect() };
    assert!(!kinds(ROUND_REPORT).contains(&Kind::Unknown));
    assert!(kinds(ROUND_REPORT).contains(&Kind::Unproved));
    assert_eq!(
        kinds("./proofs/f/Answers.antt:1:1: error: `f`: a level is too high\n"),
        [Kind::Unknown]
    );
    let more = "`f`: this λ has 2 binders, but its type has room for only 1: at `κs` the type is";
    let said = format!("./proofs/f/Answers.antt:1:1: error: {more}\n");
    assert_eq!(kinds(&said), [Kind::OtherNeed]);
    assert_eq!(kinds(&format!("so far: {said}")), []);
}

#[test]
fn wrong_edits_are_refused_by_their_own_functions() {
    let all = wire();
    for name in ["read1", "read2", "read4", "read8", "put1", "put2", "put4", "copy", "same_bytes"] {
        let function = all.at(name).expect("a function of wire");
        assert_eq!(verdict(ROUND_REPORT, "wire", function, &all), Verdict::Refused, "{name}");
    }
}

#[test]
fn a_consequence_is_no_refusal() {
    let all = wire();
    for name in ["put2", "put4", "read4", "read8", "read1"] {
        let function = all.at(name).expect("a function of wire");
        assert_eq!(verdict(CONTROLS_REPORT, "wire", function, &all), Verdict::NotRefused, "{name}");
        assert_eq!(waits(CONTROLS_REPORT, "wire", function), !["read1", "read8"].contains(&name));
    }
    let function = all.at("put1").expect("put1");
    assert_eq!(verdict(ROUND_REPORT, "other", function, &all), Verdict::NotRefused);
    assert_eq!(verdict("", "wire", function, &all), Verdict::NotRefused, "what was not tried");
}

/// A goal that no file answers is one of the function in whose code it is.
#[test]
fn a_failed_search_is_a_refusal() {
    let all = sources();
    let add = item("add");
    let first = LIB.lines().position(|line| line.starts_with("fn add(")).expect("a line") + 1;
    let said = |line: usize| {
        let place = "./proofs/add/Answers.antt:3:9: error: `returns-then-x-lt9`";
        format!(
            "{place}: module `Goals` has no `returns-then-x-lt9` that can be named from here\n\
             note: src/lib.rt:{line}:5: it is not proved that what the function ensures holds when \
             it returns (`returns-then-x-le9`); `search` gave up at one of its limits\n\
             fn c::add: not proved\n"
        )
    };
    for line in first..first + 3 {
        assert_eq!(verdict(&said(line), "c", &add, &all), Verdict::Refused, "{line}");
    }
    for line in [1, first - 1, first + 3] {
        assert_eq!(verdict(&said(line), "c", &add, &all), Verdict::NotRefused, "{line}");
    }
    let elsewhere = said(first).replace("src/lib.rt", "src/halves.rt");
    assert_eq!(verdict(&elsewhere, "c", &add, &all), Verdict::NotRefused);
    let proved = said(first).replace("not proved\n", "proved\n");
    assert_eq!(verdict(&proved, "c", &add, &all), Verdict::NotRefused);
    let without = "expected answers in ./proofs/add/Answers.antt; `search` did not prove `returns`";
    let report = format!("fn c::add: no proof: {without}\n");
    assert_eq!(verdict(&report, "c", &add, &all), Verdict::Refused);
}

/// An edit counts by the last try that has it.
#[test]
fn a_function_that_waits_is_tried_again() {
    let edits = [
        edit("lower in add for four", "src/lib.rt", "    x + y", "    x"),
        edit("upper in four", "src/lib.rt", "doubled(x), halves", "doubled(0), halves"),
    ];
    let said = "it calls `c::add`, which is not proved";
    let first = format!(
        "fn c::add: no proof: expected answers in ./proofs/add/Answers.antt; `search` did not \
         prove `returns`\nfn c::four: no proof: {said}\n"
    );
    let all = sources();
    assert!(waits(&first, "c", &item("four")) && !waits(&first, "c", &item("add")));
    let of = |tries: &[Try]| faults("c", &edits, &all, tries, None);
    let one = tried(&edits, &first);
    assert_eq!(of(std::slice::from_ref(&one)), ["c/upper: no fact of its own refuses it"]);
    let second =
        first.replace("c::add: ", "c::other: ").replace(said, "`search` did not prove `r`");
    let again = tried(&edits[1..], &second);
    assert_eq!(of(&[one.clone(), again.clone()]), [""; 0]);
    assert_eq!(of(&[again, one]), ["c/upper: no fact of its own refuses it"]);
    assert_eq!(of(&[]).len(), 2);
}

#[test]
fn tries_are_kept_as_they_were() {
    let edits = [edit("lower in add for four", "src/lib.rt", "    x + y", "    x")];
    let one = tried(&edits, "fn c::add: not proved\n");
    let read = Try::read(&one.written()).expect("a try");
    assert_eq!((&read.labels, &read.report), (&one.labels, &one.report));
    assert!(Try::read("fn c::add: not proved\n").is_none());
}

#[test]
fn unknown_words_are_told() {
    let report = "./proofs/add/Answers.antt:1:1: error: `add`: a level is too high\n\
                  ./proofs/add/Answers.antt:9:3: error: `r`: \
                  `omega`: the goal does not follow from what it read.\n\
                  fn c::add: not proved\n";
    let told = verdict(report, "c", &item("add"), &sources());
    assert_eq!(told, Verdict::Unknown("`add`: a level is too high".to_string()));
}

#[test]
fn functions_of_modules_are_told_apart() {
    let twice = item("halves::twice");
    let said = |report: &str, function: &Item| verdict(report, "mods", function, &sources());
    assert_eq!(said(MODULES_REPORT, &twice), Verdict::Refused);
    let shared = MODULES_REPORT.replace("halves/twice", "halves/+twice+other");
    assert_eq!(said(&shared, &twice), Verdict::Refused);
    let elsewhere = MODULES_REPORT.replace("/halves/twice/Answers", "/twice/Answers");
    assert_eq!(said(&elsewhere, &twice), Verdict::NotRefused, "another module's function");
    assert_eq!(said(MODULES_REPORT, &item("four")), Verdict::NotRefused);
}

/// The prover refuses two of the controls in the words that a wrong edit gets. The run is what tells
/// them from wrong ones.
#[test]
fn controls_change_nothing() {
    let edits = parse(CONTROLS).expect("the controls");
    let run = Run::read(
        "tried wire/last_eight_bits\ntried wire/factor_in_front\ntried wire/next_place_within\n",
    );
    let tries = [tried(&edits, CONTROLS_REPORT)];
    let said = |run| faults("wire", &edits, &wire(), &tries, run);
    assert_eq!(said(None), ["wire/next_place_within: no fact of its own refuses it"]);
    for edit in &edits {
        let line = format!("wire/{}: it changes nothing on any call of the tests", edit.label);
        assert!(said(Some(&run)).contains(&line));
    }
}

#[test]
fn a_wrong_edit_changes_an_answer() {
    let top = edit("top in put1", "src/lib.rt", "(x % 256) as u8", "(x / 16777216) as u8");
    let tries = |edits: &[Edit]| [tried(edits, ROUND_REPORT)];
    let said = |notes: &str| {
        let top = std::slice::from_ref(&top);
        faults("wire", top, &wire(), &tries(top), Some(&Run::read(notes)))
    };
    assert!(said("tried wire/top\nchanged wire/top\n").is_empty());
    assert_eq!(said("tried wire/top\n"), ["wire/top: it changes nothing on any call of the tests"]);
    assert_eq!(said(""), ["wire/top: no test calls what it is for"]);
    let told = format!(
        "edit: {}\nunseen: why\nfile: src/lib.rt\nold: {}\nnew: 0\n",
        "a in put1", "x % 256"
    );
    let unseen = parse(&told).expect("an edit");
    let said =
        |notes: &str| faults("wire", &unseen, &wire(), &tries(&unseen), Some(&Run::read(notes)));
    assert!(said("tried wire/a\n").is_empty());
    assert!(said("changed wire/a\n")[0].contains("no run sees it"));
    let both = [top.clone(), top.clone()];
    let twice = faults("wire", &both, &wire(), &tries(&both), None);
    assert!(twice[0].contains("changes the same item"));
}

#[test]
fn the_translation_has_every_edit_beside_the_code() {
    let edit = edit("a in twice for four", "src/halves.rt", "sum(x, x)", "sum(x, 0)");
    let trial = Trial {
        library: "c".to_string(),
        edit,
        item: "halves::twice".to_string(),
        contract: "four".to_string(),
    };
    let library =
        Library { name: "c".to_string(), leans_on: vec!["d".to_string()], sources: sources() };
    let text = translated(&[library], &[trial]).expect("a translation");
    for part in [
        "sum(x, 0)",
        "sum(x, x)",
        "pub mod halves {",
        "use crate::edited::d;",
        "length_of_x: usize",
        "use crate::edited::c::add as sum;",
    ] {
        assert!(text.contains(part), "{part}");
    }
    assert!(!text.contains("ensures"));
}

/// A table that is edited is read by the edit that is on, at a place or as a whole.
#[test]
fn an_edited_table_is_a_call() {
    let text = "const TABLE: [u32; 2] = [1, 2];\n\npub fn both(i: usize) -> u32 {\n    \
                let whole = TABLE;\n    TABLE[i] + whole[i]\n}\n";
    let files = BTreeMap::from([("src/lib.rt".to_string(), text.to_string())]);
    let trial = Trial {
        library: "c".to_string(),
        edit: edit("a in TABLE for both", "src/lib.rt", "[1, 2]", "[1, 3]"),
        item: "TABLE".to_string(),
        contract: "both".to_string(),
    };
    let library =
        Library { name: "c".to_string(), leans_on: Vec::new(), sources: Sources::new(files) };
    let text = translated(&[library], &[trial]).expect("a translation");
    assert!(text.contains("let whole = now_table();"), "{text}");
    assert!(text.contains("now_table()[i] + whole[i]"), "{text}");
}

/// Types as the runoff has them: laid out for C, with arrays, truth values and other types in them,
/// lent as slices and by reference.
const TYPES: &str = "\
#[repr(C)]
#[derive(Clone, Copy)]
pub struct Entry {
    pub count: u64,
    pub left: u32,
}

#[derive(Clone, Copy)]
pub enum Answer {
    Counted(u32, u64, u64),
    Refused(u32),
}

enum End {
    Open,
    Won(u32),
}

pub(crate) struct Rounds {
    counts: [u64; 9],
    left: [u32; 9],
    over: bool,
    end: End,
}

fn next(before: Rounds, standing: [bool; 9], after: &mut Rounds) -> End {
    *after = before;
    End::Open
}

pub fn count(votes: &[u32], candidates: usize, table: &mut [Entry]) -> Answer
    ensures { result ≡ result }
{
    Answer::Refused(20)
}

#[unsafe(no_mangle)]
pub extern \"C\" fn face(votes: &[u32], table: &mut [Entry], winner: &mut u32, end: &mut End) -> u32 {
    table[0] = Entry { count: 0, left: votes[0] };
    0
}
";

#[test]
fn types_are_translated() {
    let sources = Sources::new([("src/lib.rt".to_string(), TYPES.to_string())].into());
    let edit = edit("a in count", "src/lib.rt", "Answer::Refused(20)", "Answer::Refused(18)");
    let (library, contract) = ("c".to_string(), "count".to_string());
    let trial = Trial { library: library.clone(), edit, item: contract.clone(), contract };
    let text = translated(&[Library { name: library, leans_on: Vec::new(), sources }], &[trial])
        .expect("a translation");
    let derived = "#[derive(Clone, Copy, Debug, PartialEq)]\n";
    for part in [
        &format!("#[repr(C)]\n{derived}pub struct Entry {{\n    pub count: u64,\n"),
        &format!("{derived}pub enum Answer {{\n    Counted(u32, u64, u64),\n"),
        &format!("{derived}enum End {{"),
        &format!("{derived}pub(crate) struct Rounds {{\n    counts: [u64; 9],\n"),
        "fn next(mut before: Rounds, mut standing: [bool; 9], mut after: &mut Rounds) -> End {",
        "let mut copy_of_table = table.to_vec();",
        "table: *mut Entry, length_of_table: usize, winner: *mut u32, end: *mut End)",
        "slice_mut(table, length_of_table), &mut *winner, &mut *end)",
    ] {
        assert!(text.contains(part), "{part}");
    }
}
