//! That the search for divisions by M passes on the sources, and refuses every edit of them that
//! divides by it, hides that or keeps the search from being whole.

use paddockyear_tests::crates::{all, files};
use paddockyear_tests::division::{check, Found, Listed, Reason, Report, LISTED};
use paddockyear_tests::edits::sources::Sources;
use std::collections::BTreeMap;
use std::fs;
use std::path::{Path, PathBuf};
use std::process::Command;

const ROOT: &str = concat!(env!("CARGO_MANIFEST_DIR"), "/..");
const LIB: &str = "src/lib.rt";

/// The last expression of `modular::plus`, the judge's sum modulo M; M is `m` there.
const SUM: &str = "    if room <= a { a - room } else { a + b }\n";

/// The judge's sum of a list's numbers, in `opening_rules::halves_agree`.
const SUM_IN_RULE: &str = "modular::plus(modulus, list, t)";

/// A crate, a file of it, a text that is there once, and what stands there instead.
type Edit<'a> = (&'a str, &'a str, &'a str, &'a str);

fn edited(edits: &[Edit]) -> BTreeMap<String, Sources> {
    let mut crates = all(ROOT);
    for (name, file, old, new) in edits {
        let mut files = crates[*name].files.clone();
        let text = files.get_mut(*file).expect("a file of the crate");
        assert_eq!(text.matches(old).count(), 1, "{name}/{file}: {old}");
        *text = text.replace(old, new);
        crates.insert(name.to_string(), Sources::new(files));
    }
    crates
}

fn searched(edits: &[Edit]) -> Report {
    check(&edited(edits), &LISTED)
}

fn unlisted(item: &str, text: &str) -> String {
    format!("{item}: `{text}`: not a literal and not listed")
}

/// With this as the sum, the search finds one division by M, of this text.
fn sum_refused(new: &str, text: &str) {
    let report = searched(&[("modular", LIB, SUM, new)]);
    assert_eq!(report.faults, [unlisted("modular::plus", text)], "{new}");
    assert!(found(&report, "modular::plus", text).judged);
}

/// With this as the sum, the search loses its way at this name.
fn sum_lost(new: &str, name: &str) {
    let report = searched(&[("modular", LIB, SUM, new)]);
    let fault = format!("modular::plus: `{name}`: no function of the crates, and not listed");
    assert!(report.faults.contains(&fault), "{new}: {:?}", report.faults);
}

fn found<'a>(report: &'a Report, item: &str, text: &str) -> &'a Found {
    let mut all = report.divisions.iter().filter(|one| one.item == item && one.text == text);
    all.next().unwrap_or_else(|| panic!("{item}: {text}"))
}

// ---- the sources as they are

#[test]
fn the_sources_pass() {
    let report = searched(&[]);
    assert_eq!(report.faults, [""; 0]);
    assert!(report.entries.len() >= 3);
    assert!(report.lines().last().is_some_and(|line| line.ends_with(", none by M")));
}

#[test]
fn the_walk_reaches_what_the_judge_is_made_of() {
    let reached = searched(&[]).reached;
    assert!(reached.len() >= 100, "{}", reached.len());
    let functions = [
        "modular::plus",
        "modular::minus",
        "copies::first_copy",
        "sorting::is_permutation",
        "challenge::list_chosen",
        "wire::read1",
        "layout::rank",
        "commitment::gives",
        "verifier::part_two::dice_text",
        "verifier::part_three::end_faults",
    ];
    functions.iter().for_each(|name| assert!(reached.contains(*name), "{name}"));
    for name in ["keccak::", "sha3::", "decimals::", "limits::", "reader::", "rules::"] {
        assert!(reached.iter().any(|path| path.starts_with(name)), "{name}");
    }
    let others = ["tablet::", "board::", "disclosure::", "runoff::", "columns::", "vectors::"];
    assert!(others.iter().all(|name| !reached.iter().any(|path| path.starts_with(name))));
}

#[test]
fn the_listed_divisors_are_found() {
    let report = searched(&[]);
    let draw = found(&report, "challenge::list_chosen", "% (lists as u64)");
    assert!(draw.judged && matches!(draw.reason, Reason::Listed(_)));
    let most = found(&report, "vectors::feed", "% most");
    assert!(!most.judged && matches!(most.reason, Reason::Listed(_)));
    assert_eq!((report.counts(true).1, report.counts(false).1), (2, 4));
    assert!(report.counts(true).0 >= 20 && report.counts(true).0 < report.counts(false).0);
}

// ---- divisions by M

#[test]
fn a_remainder_by_m_is_refused() {
    sum_refused("    (a + b) % m\n", "% m");
    sum_refused("    (a + b) % (m as u64) as u32\n", "% (m as u64) as u32");
    sum_refused("    (a + b) % m as u64 as u32 + 1\n", "% m as u64 as u32");
}

#[test]
fn a_quotient_by_m_is_refused() {
    sum_refused("    a + b - m * ((a + b) / m)\n", "/ m");
}

#[test]
fn an_assigning_operator_is_refused() {
    sum_refused("    let mut s = a + b;\n    s %= m;\n    s\n", "%= m");
    sum_refused("    let mut s = a + b;\n    s /= 0 + m;\n    s\n", "/= 0 + m");
}

#[test]
fn m_by_a_local_name_is_refused() {
    sum_refused("    let d = m;\n    (a + b) % d\n", "% d");
}

#[test]
fn m_in_a_field_an_index_or_an_answer_is_refused() {
    sum_refused("    (a + b) % p.modulus\n", "% p.modulus");
    sum_refused("    (a + b) % s[m as usize + 1] + 2\n", "% s[m as usize + 1]");
    sum_refused("    (a + b) % minus(m, m, 0) + 2\n", "% minus(m, m, 0)");
    sum_refused("    (a + b) % *m\n", "% *m");
}

#[test]
fn a_literal_with_m_beside_it_is_refused() {
    sum_refused("    (a + b) % (0 + m)\n", "% (0 + m)");
    let report = searched(&[("modular", LIB, SUM, "    (a + b) % 9.max(m)\n")]);
    assert!(report.faults.contains(&unlisted("modular::plus", "% 9.max(m)")));
}

#[test]
fn a_nested_division_is_refused() {
    let old = "modular::plus(modulus, sum, number_at(bytes, at, i))";
    let new = "modular::plus(modulus, sum, (number_at(bytes, at / 1, i) + (7 % modulus)) - 0)";
    let report = searched(&[("opening_rules", LIB, old, new)]);
    assert_eq!(report.faults, [unlisted("opening_rules::sum", "% modulus")]);
}

#[test]
fn calls_that_divide_are_refused() {
    for call in ["rem_euclid", "checked_rem", "div", "div_ceil", "wrapping_div", "is_multiple_of"] {
        for (new, name) in [
            (format!("    (a + b).{call}(m)\n"), call.to_string()),
            (format!("    u32::{call}(a + b, m)\n"), format!("u32::{call}")),
        ] {
            let report = searched(&[("modular", LIB, SUM, &new)]);
            assert!(report.faults.contains(&unlisted("modular::plus", &name)), "{new}");
        }
    }
}

#[test]
fn a_division_between_texts_and_comments_is_refused() {
    sum_refused("    let q = b'\"';\n    let s = (a + b) % m;\n    let q = b'\"';\n    s\n", "% m");
    sum_refused("    let q = b\"//\"; (a + b) % m\n", "% m");
    sum_refused("    let q = \"\\\\\"; let s = (a + b) % m; let q = \"\";\n    s\n", "% m");
    sum_refused("    // one\n    (a + b) // two\n        % m // three\n", "% m");
}

#[test]
fn a_division_in_a_new_function_of_a_leaf_is_refused() {
    let above = "// The byte at a place.\n";
    let new = format!("pub fn reduced(x: u32, m: u32) -> u32 {{\n    x % m\n}}\n\n{above}");
    let leaf = ("wire", LIB, above, &new[..]);
    let call = ("opening_rules", LIB, SUM_IN_RULE, "wire::reduced(list + t, modulus)");
    let fault = [unlisted("wire::reduced", "% m")];
    let called = searched(&[leaf, call]);
    assert_eq!(called.faults, fault);
    assert!(found(&called, "wire::reduced", "% m").judged);
    assert!(called.reached.contains("wire::reduced"));
    let alone = searched(&[leaf]);
    assert_eq!(alone.faults, fault);
    assert!(!found(&alone, "wire::reduced", "% m").judged);
}

#[test]
fn functions_are_reached_by_every_way_of_naming_them() {
    let above = "// The byte at a place.\n";
    let new = format!("pub fn reduced(x: u32, m: u32) -> u32 {{\n    x + m\n}}\n\n{above}");
    let leaf = ("wire", LIB, above, &new[..]);
    let head = "use protocol::{Parameters, Place, Rule};\n";
    let calls = [
        ("use wire::reduced;\n", "reduced(list, modulus)"),
        ("use wire::reduced as folded;\n", "folded(list, modulus)"),
        ("use wire::{read1, reduced};\n", "reduced(list, modulus)"),
        ("use wire as bytes_of;\n", "bytes_of::reduced(list, modulus)"),
        ("", "kept(wire::reduced)"),
    ];
    for (line, call) in calls {
        let imported = format!("{line}{head}");
        let report = searched(&[
            leaf,
            ("opening_rules", LIB, head, &imported),
            ("opening_rules", LIB, SUM_IN_RULE, call),
        ]);
        assert!(report.reached.contains("wire::reduced"), "{line}{call}");
    }
    let here =
        ["less_two(m, a, b, 0)", "crate::less_two(m, a, b, 0)", "self::less_two(m, a, b, 0)"];
    assert!(!searched(&[]).reached.contains("modular::less_two"));
    for call in here {
        let report = searched(&[("modular", LIB, SUM, &format!("    {call}\n"))]);
        assert_eq!(report.faults, [""; 0]);
        assert!(report.reached.contains("modular::less_two"), "{call}");
    }
}

#[test]
fn modules_are_walked_from_above_and_below() {
    let head = "fn end_faults(";
    let new = format!("fn folded(p: u32) -> u32 {{\n    super::folded(p)\n}}\n\n{head}");
    let lib = "// ---- the whole record\n";
    let above = format!("fn folded(p: u32) -> u32 {{\n    7 % p\n}}\n\n{lib}");
    let call = "    let at = layout::at_end(r.parameters);\n";
    let report = searched(&[
        ("verifier", "src/part_three.rt", head, &new),
        (
            "verifier",
            "src/part_three.rt",
            call,
            &format!("    self::folded(r.parameters.modulus);\n{call}"),
        ),
        ("verifier", LIB, lib, &above),
    ]);
    assert_eq!(report.faults, [unlisted("verifier::folded", "% p")]);
    assert!(found(&report, "verifier::folded", "% p").judged);
    assert!(report.reached.contains("verifier::part_three::folded"));
}

#[test]
fn constants_are_searched() {
    let most = "const MOST_BALLOTS: usize = 4096;";
    let literal = ("protocol", LIB, most, "const MOST_BALLOTS: usize = 8192 / 2;");
    let report = searched(&[literal]);
    assert_eq!(report.faults, [""; 0]);
    assert!(found(&report, "protocol::MOST_BALLOTS", "/ 2").judged);
    let call = ("protocol", LIB, most, "const MOST_BALLOTS: usize = 8192 / half();");
    let report = searched(&[call]);
    assert!(report.faults.contains(&unlisted("protocol::MOST_BALLOTS", "/ half()")));
    let length = ("modular", LIB, "plus(m: u32,", "plus(m: [u8; 9 / n],");
    assert_eq!(searched(&[length]).faults, [unlisted("modular::plus", "/ n")]);
}

// ---- what keeps the search from being whole

#[test]
fn an_exception_that_is_not_met_is_refused() {
    let no_draw = ("challenge", LIB, "h % (lists as u64) < ", "h < ");
    let stale = "challenge::list_chosen: `(lists as u64)`: listed and not met";
    assert_eq!(searched(&[no_draw]).faults, [stale]);
    let one = Listed { function: "modular::plus", divisor: "m", reason: "it is M" };
    let listed: Vec<Listed> = LISTED.into_iter().chain([one]).collect();
    assert_eq!(check(&all(ROOT), &listed).faults, ["modular::plus: `m`: listed and not met"]);
    let literal = Listed { function: "challenge::drawn_side", divisor: "2", reason: "a literal" };
    let listed: Vec<Listed> = LISTED.into_iter().chain([literal]).collect();
    let stale = "challenge::drawn_side: `2`: listed and not met";
    assert_eq!(check(&all(ROOT), &listed).faults, [stale]);
}

#[test]
fn an_exception_holds_for_its_function_and_its_text_alone() {
    let old = "decimals::put_decimal(&mut number, 0, i)";
    let elsewhere = old.replace(", i)", ", i % (lists as u64))");
    let report = searched(&[("challenge", LIB, old, &elsewhere)]);
    assert_eq!(report.faults, [unlisted("challenge::draw_hash", "% (lists as u64)")]);
    let other = ("challenge", LIB, "h % (lists as u64) < ", "h % (left as u64) < ");
    let faults = searched(&[other]).faults;
    assert!(faults.contains(&unlisted("challenge::list_chosen", "% (left as u64)")));
    assert_eq!(faults.len(), 2);
}

#[test]
fn a_call_that_leads_nowhere_is_refused() {
    sum_lost("    elsewhere(a, b)\n", "elsewhere");
    sum_lost("    wire::elsewhere(a, b)\n", "wire::elsewhere");
    sum_lost("    other::plus(a, b)\n", "other::plus");
    sum_lost("    super::other::plus(a, b)\n", "super::other::plus");
    sum_lost("    a.plus(b)\n", ".plus");
    sum_lost("    u32::folded(a, b)\n", "u32::folded");
}

#[test]
fn a_call_that_is_not_understood_is_refused() {
    sum_lost("    minus::<u32>(m, a, b)\n", "minus");
    sum_lost("    <u32 as Sum>::minus(m, a, b)\n", "minus");
    sum_lost("    (minus)(m, a, b)\n", ")(");
    sum_lost("    table[0](m, a, b)\n", "](");
    sum_lost("    sum!(a, b)\n", "sum!");
    sum_lost("    fn inner() -> u32 {\n        1\n    }\n    inner()\n", "fn");
}

#[test]
fn a_missing_entry_is_refused() {
    for name in ["judge_plainly", "judge_as_drawn", "first_fault"] {
        let (old, new) = (format!("fn paddockyear_{name}("), format!("fn paddockyear_of_{name}("));
        let report = searched(&[("paddockyear", LIB, &old, &new)]);
        let fault = format!("paddockyear::paddockyear_{name}: a judging entry that is missing");
        assert_eq!(report.faults, [fault]);
    }
}

#[test]
fn a_later_entry_is_found() {
    let above = "// ---- the record writer\n";
    let before = searched(&[]).entries.len();
    for (name, judges) in [
        ("explain_sum", true),
        ("judge_sum", true),
        ("sum_faults", true),
        ("default_sum", false),
        ("misjudged_sum", false),
    ] {
        let head =
            format!("#[unsafe(no_mangle)]\npub extern \"C\" fn paddockyear_{name}(m: u32) -> u32");
        let new = format!("{head} {{\n    modular::less_two(m, 0, 0, 0)\n}}\n\n{above}");
        let report = searched(&[("paddockyear", LIB, above, &new)]);
        assert_eq!(report.faults, [""; 0]);
        assert_eq!(report.entries.len(), before + usize::from(judges), "{name}");
        assert_eq!(report.reached.contains("modular::less_two"), judges, "{name}");
    }
}

#[test]
fn sources_that_would_not_be_searched_are_refused() {
    let edits = [
        (
            "impl Sum for u32 {\n    fn plus(a: u32, m: u32) {\n        a % m;\n    }\n}\n",
            "u32::plus: `% m`",
        ),
        ("fn folded(a: u32, m: u32) -> u32 { a % m }\n", "folded: its end is not found"),
        ("mod inner {\n    fn folded(a: u32) {}\n}\n", "`mod inner {`: an unknown item"),
        ("pub fn minus() {\n    1\n}\n", "modular::minus: it is there twice"),
        ("struct Row {\n    row: [u32; 8 / N],\n}\n", "a division outside of functions"),
        ("fn folded(a: u32) {\n    let s = a /* m;\n}\n", "modular::folded: `/*`: cannot be read"),
        ("fn folded(a: u32) {\n    r\"\\\";\n    a % m;\n}\n", "cannot be read"),
        ("fn folded(a: u32) {\n    b\" + a % m;\n}\n", "cannot be read"),
    ];
    let head = "// a + b modulo m.\n";
    for (new, words) in edits {
        let report = searched(&[("modular", LIB, head, &format!("{new}\n{head}"))]);
        assert!(report.faults.iter().any(|f| f.contains(words)), "{new}: {:?}", report.faults);
    }
    let mut crates = all(ROOT);
    crates.insert("modular".to_string(), Sources::new(BTreeMap::new()));
    let faults = check(&crates, &LISTED).faults;
    assert!(faults.contains(&"modular: it has no sources".to_string()));
}

// ---- edits that change nothing of it

#[test]
fn literals_and_constants_are_allowed() {
    let (literals, listed) = searched(&[]).counts(true);
    for new in ["(a + b) % 7", "(a + b) % 0x1Fu32", "(a + b) / (1 << 3)", "(a + b) % -(9 as u32)"] {
        let report = searched(&[("modular", LIB, SUM, &format!("    {new}\n"))]);
        assert_eq!(report.faults, [""; 0], "{new}");
        assert_eq!(report.counts(true), (literals + 1, listed), "{new}");
    }
    let (file, old) = ("src/original.rt", "(beginning / 131072)");
    for name in ["BUCKETS", "(BUCKETS / 8)", "self::BUCKETS", "protocol::MOST_BALLOTS"] {
        let report = searched(&[("refusals", file, old, &format!("(beginning / {name})"))]);
        assert_eq!(report.faults, [""; 0], "{name}");
    }
}

#[test]
fn comments_contracts_texts_and_ghost_lines_are_no_code() {
    let counts = searched(&[]).counts(false);
    let clause = "ensures { (result ≡ modulo.minus m a b) × (result < m) }";
    let texts =
        "    let q = b\"a % m \\\" / m\";\n    let q = b'%';\n    let q = '/';\n    a + b\n";
    let edits = [
        (SUM, "    // (a + b) % m\n    a + b // and / m\n"),
        ("result ≡ modulo.plus m a b)", "result ≡ (a + b) % m)"),
        (clause, "requires { a / m ≡ 0 }\n    ensures { let r = a % m in\n        result ≡ r }"),
        (SUM, "    ghost let q = a % m;\n    a + b\n"),
        (SUM, texts),
        (SUM, "    (a << m) >> m\n"),
    ];
    for (old, new) in edits {
        let report = searched(&[("modular", LIB, old, new)]);
        assert_eq!(report.faults, [""; 0], "{new}");
        assert_eq!(report.counts(false), counts, "{new}");
    }
}

// ---- the program

/// A copy of crates.txt and the crates' sources in a folder of its own, which goes with it. It is not
/// in the repository, where no source may be beside those of the crates.
struct Copied(PathBuf);

impl Drop for Copied {
    fn drop(&mut self) {
        let _ = fs::remove_dir_all(&self.0);
    }
}

fn copied(name: &str) -> Copied {
    let folder = std::env::temp_dir().join(format!("{name}-{}", std::process::id()));
    let root = Path::new(ROOT);
    let mut paths = files(&root.join("crates"), "rt");
    paths.push(root.join("crates.txt"));
    for path in paths {
        let to = folder.join(path.strip_prefix(root).expect("a path below the root"));
        fs::create_dir_all(to.parent().expect("a folder")).expect("a new folder");
        fs::copy(path, to).expect("a copy");
    }
    Copied(folder)
}

/// Whether the program is content in a folder, and what it prints.
fn run(folder: &Path) -> (Option<i32>, Vec<String>) {
    let run = Command::new(env!("CARGO_BIN_EXE_division")).current_dir(folder).output();
    let run = run.expect("the program runs");
    let text = String::from_utf8(run.stdout).expect("text");
    (run.status.code(), text.lines().map(String::from).collect())
}

#[test]
fn the_program_passes_on_a_copy() {
    let (status, lines) = run(&copied("division-as-it-is").0);
    assert_eq!(status, Some(0));
    let last = lines.last().expect("a last line");
    let numbers: Vec<usize> = last.split(' ').filter_map(|word| word.parse().ok()).collect();
    let [functions, entries, literals, listed] = numbers[..] else { panic!("{last}") };
    assert!(functions >= 100 && entries >= 3 && literals >= 20, "{last}");
    let sum = format!(
        "division: {functions} functions reached from {entries} judging entries, {literals} \
         divisions by literals, {listed} by listed numbers, none by M"
    );
    assert_eq!(last, &sum);
    assert_eq!(lines, searched(&[]).lines());
}

#[test]
fn the_program_fails_on_an_edited_copy() {
    let folder = copied("division-edited");
    let file = folder.0.join("crates/modular").join(LIB);
    let text = fs::read_to_string(&file).expect("a source");
    assert_eq!(text.matches(SUM).count(), 1);
    fs::write(&file, text.replace(SUM, "    (a + b) % m\n")).expect("an edited source");
    let (status, lines) = run(&folder.0);
    assert_eq!(status, Some(1));
    let line = format!("division: {}", unlisted("modular::plus", "% m"));
    assert!(lines.contains(&line));
    assert_eq!(lines.last().map(|line| &line[..]), Some("division: 1 faults"));
}
