//! Rounds are tried: the prover is asked for a crate with the edits of a round in it, and all that
//! it says is kept. It leaves a function half tried that calls one which is not proved, so that an
//! edit which its report says nothing of is tried again, without those that were refused.

use super::report::{self, Verdict};
use super::rounds::Edit;
use super::sources::{Item, Kind, Sources};
use super::{applied, faults, resolved};
use crate::crates::{listed, sources};
use std::hash::{DefaultHasher, Hash, Hasher};
use std::path::{Path, PathBuf};
use std::process::{Command, Stdio};
use std::sync::Mutex;
use std::time::Instant;
use std::{env, fs, io, thread};

/// The parts of a crate that a check reads, its own and those of the crates above.
const PARTS: [&str; 4] = ["src", "specs", "proofs", "out/rlib"];

/// What the head of a report says before the names of the edits that were tried.
const HEAD: &str = "tried: ";

/// The report of one try, and the names of the edits in it.
#[derive(Clone, Debug)]
pub struct Try {
    pub labels: Vec<String>,
    pub report: String,
}

impl Try {
    pub fn written(&self) -> String {
        format!("{HEAD}{}\n{}", self.labels.join(" "), self.report)
    }

    pub fn read(text: &str) -> Option<Self> {
        let (head, report) = text.split_once('\n')?;
        let labels = head.strip_prefix(HEAD)?.split(' ').map(String::from).collect();
        Some(Self { labels, report: report.to_string() })
    }

    pub fn has(&self, edit: &Edit) -> bool {
        self.labels.contains(&edit.label)
    }

    /// What it says of an edit that it has.
    pub fn verdict(&self, name: &str, edit: &Edit, sources: &Sources) -> Verdict {
        let judge = judge(edit, sources);
        let said = |item| report::verdict(&self.report, name, item, sources);
        judge.map_or(Verdict::NotRefused, said)
    }

    /// Whether an edit that it has waits for another try: its function is not refused, and calls one
    /// that is not proved.
    fn left(&self, name: &str, edit: &Edit, sources: &Sources) -> bool {
        let waits = |item| report::waits(&self.report, name, item);
        self.verdict(name, edit, sources) != Verdict::Refused
            && judge(edit, sources).is_some_and(waits)
    }
}

/// The function by which an edit is judged: that which is changed, or which guards a changed
/// constant.
fn judge<'a>(edit: &Edit, sources: &'a Sources) -> Option<&'a Item> {
    let (item, guard) = resolved(edit, sources).ok()?;
    Some(if item.kind == Kind::Function { item } else { guard })
}

/// The last try that has an edit: it is the one that counts.
pub fn last<'a>(tries: &'a [Try], edit: &Edit) -> Option<&'a Try> {
    tries.iter().rev().find(|one| one.has(edit))
}

/// A round of a crate: the name of its file, its edits, and the folder that its reports go to.
pub struct Round {
    pub name: String,
    pub file: String,
    pub edits: Vec<Edit>,
    pub reports: PathBuf,
}

impl Round {
    /// Its tries in a room: first of all its edits, then of those that wait.
    fn tries(&self, room: &Room, sources: &Sources) -> io::Result<Vec<Try>> {
        let mut tries: Vec<Try> = Vec::new();
        let mut left = self.edits.clone();
        while !left.is_empty() {
            let labels: Vec<String> = left.iter().map(|edit| edit.label.clone()).collect();
            let report = room.check(&self.name, &left, sources)?;
            let one = Try { labels, report };
            left.retain(|edit| one.left(&self.name, edit, sources));
            if left.len() == one.labels.len() {
                left.clear();
            }
            tries.push(one);
        }
        Ok(tries)
    }

    /// Tries it in a room, keeps the reports, and says what they come to.
    fn tried(&self, room: &Room) -> io::Result<String> {
        let began = Instant::now();
        emptied(&self.reports)?;
        let sources = sources(&room.root, &self.name);
        let tries = self.tries(room, &sources)?;
        for (number, one) in tries.iter().enumerate() {
            fs::write(self.reports.join(format!("{}.log", number + 1)), one.written())?;
        }
        let wrong = faults(&self.name, &self.edits, &sources, &tries, None).len();
        let (edits, times) = (self.edits.len(), tries.len());
        let seconds = began.elapsed().as_secs();
        Ok(format!("{edits} edits, {times} tries, {wrong} faults ({seconds} s)"))
    }
}

/// Tries all rounds of the repository at a root, some at a time. How many could not be tried.
pub fn try_all(root: &Path, rounds: &[Round], at_a_time: usize) -> io::Result<usize> {
    let root = fs::canonicalize(root)?;
    // by the root, so that the next run finds what one left that was stopped
    let mut sum = DefaultHasher::new();
    root.hash(&mut sum);
    let folder = env::temp_dir().join(format!("paddockyear-tries-{:016x}", sum.finish()));
    emptied(&folder)?;
    let rooms = (0..at_a_time).map(|number| Room::new(&root, folder.join(number.to_string())));
    let rooms = rooms.collect::<io::Result<Vec<Room>>>()?;
    let next = Mutex::new(rounds.iter());
    let work = |room: &Room| {
        let mut bad = 0;
        while let Some(round) = next.lock().map_or(None, |mut left| left.next()) {
            let said = round.tried(room).unwrap_or_else(|error| {
                bad += 1;
                format!("not tried: {error}")
            });
            println!("try: {}/{}: {said}", round.name, round.file);
        }
        bad
    };
    let bad = thread::scope(|scope| {
        let all: Vec<_> = rooms.iter().map(|room| scope.spawn(|| work(room))).collect();
        all.into_iter().map(|one| one.join().unwrap_or(1)).sum()
    });
    fs::remove_dir_all(&folder)?;
    Ok(bad)
}

/// A folder with nothing in it.
fn emptied(folder: &Path) -> io::Result<()> {
    if folder.exists() {
        fs::remove_dir_all(folder)?;
    }
    fs::create_dir_all(folder)
}

/// A copy of the repository in which crates are edited and checked, begun with what was kept of the
/// checks of the crates as they are. It is outside of the repository, where no crate may be beside
/// those that are listed.
struct Room {
    root: PathBuf,
    folder: PathBuf,
}

impl Room {
    /// A room in a folder, which is not there yet, for the repository at a root.
    fn new(root: &Path, folder: PathBuf) -> io::Result<Self> {
        let room = Self { root: root.to_path_buf(), folder };
        fs::create_dir_all(&room.folder)?;
        for name in ["crates.txt", "HANDLES"] {
            if root.join(name).exists() {
                fs::copy(root.join(name), room.folder.join(name))?;
            }
        }
        for (name, _) in listed(root) {
            for part in PARTS {
                room.copy(&format!("crates/{name}/{part}"))?;
            }
        }
        Ok(room)
    }

    /// Copies a folder of the repository, if it is there.
    fn copy(&self, inner: &str) -> io::Result<()> {
        let from = self.root.join(inner);
        if from.is_dir() {
            copy(&from, &self.folder.join(inner))?;
        }
        Ok(())
    }

    /// All that the prover says of a crate with these edits. It is asked once more where it comes to
    /// no verdict, as where it was killed.
    fn check(&self, name: &str, edits: &[Edit], sources: &Sources) -> io::Result<String> {
        let place = self.folder.join("crates").join(name);
        for (file, text) in &sources.files {
            let of_file = edits.iter().filter(|edit| edit.file == *file);
            let edited = of_file.fold(text.clone(), |text, edit| applied(edit, &text));
            fs::write(place.join(file), edited)?;
        }
        let mut said = self.asked(name)?;
        if !report::is_whole(&said) {
            said = self.asked(name)?;
        }
        for (file, text) in &sources.files {
            fs::write(place.join(file), text)?;
        }
        Ok(said)
    }

    /// Asks the prover for a crate as it is in the room, begun with what was kept.
    fn asked(&self, name: &str) -> io::Result<String> {
        let place = self.folder.join("crates").join(name);
        let known = place.join("out/incremental");
        emptied(&known)?;
        self.copy(&format!("crates/{name}/out/incremental"))?;
        let mut check = Command::new("rt");
        check.args(["check", "--jobs", "1"]).current_dir(&place).stdin(Stdio::null());
        let ran = check.output()?;
        fs::remove_dir_all(&known)?;
        Ok([ran.stdout, ran.stderr].map(|said| String::from_utf8_lossy(&said).to_string()).concat())
    }
}

/// Copies a folder. What was proved is linked: a check replaces such a file, and writes into none.
fn copy(from: &Path, to: &Path) -> io::Result<()> {
    fs::create_dir_all(to)?;
    for entry in fs::read_dir(from)? {
        let one = entry?.path();
        let other = to.join(one.file_name().unwrap_or_default());
        let proved = one.extension().is_some_and(|kind| kind == "oantt" || kind == "a");
        if one.is_dir() {
            copy(&one, &other)?;
        } else if !proved || fs::hard_link(&one, &other).is_err() {
            fs::copy(&one, &other)?;
        }
    }
    Ok(())
}
