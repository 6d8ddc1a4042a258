//! The crates' code in Rust with every must-fail edit beside it (`edits::translation`), under the
//! names of the product's faces: the suites run over it with the feature `edited`. Whenever they
//! reach a public function that guards an edit, the function is run twice on copies of what it was
//! lent, as it is and with the edit on. Proved code calls it, so that what it asks for holds.
//! An edit that changes its answer, or what it leaves in a lent slice, or that does not end, or
//! leaves a slice, is noted.
#![allow(warnings)]

use std::cell::Cell;
use std::fs::OpenOptions;
use std::io::Write;
use std::panic::{catch_unwind, set_hook, take_hook, AssertUnwindSafe};
use std::sync::atomic::{AtomicBool, AtomicU64, Ordering};
use std::sync::OnceLock;

include!(env!("PADDOCKYEAR_EDITED"));

/// No edit is on, and none is tried further inside.
pub const NONE: usize = usize::MAX;

/// The trait of types that contracts see as something else. No contract is left here.
pub trait Model {}

/// An edit is tried until this much work was done for it, in one test program: turns of loops and
/// calls of functions that have edits. (Not time, so that a loaded machine finds the same.)
const MOST_WORK: u64 = 10_000_000;

/// How deep an edited function calls itself, at most.
const DEEPEST: u32 = 100;

thread_local! {
    static ACTIVE: Cell<usize> = const { Cell::new(0) };
    static WORK: Cell<u64> = const { Cell::new(0) };
    static DEPTH: Cell<u32> = const { Cell::new(0) };
}

/// For each edit the work that may still be done for it, 0 once it changed something.
static LEFT: OnceLock<Vec<AtomicU64>> = OnceLock::new();

/// The number of the edit that is on, 0 for none.
pub fn active() -> usize {
    ACTIVE.with(Cell::get)
}

/// The same, for a function that has edits: it counts the call.
pub fn chosen() -> usize {
    tick();
    active()
}

/// Counts a turn of a loop or a call.
pub fn tick() -> bool {
    let work = WORK.with(Cell::get) + 1;
    WORK.with(|cell| cell.set(work));
    if work > 2 * MOST_WORK {
        assert!(matches!(active(), 0 | NONE), "a loop that does not end");
    }
    true
}

/// Counts how deep edited functions call each other.
pub struct Deeper;

impl Deeper {
    pub fn new() -> Self {
        let depth = DEPTH.with(Cell::get) + 1;
        DEPTH.with(|cell| cell.set(depth));
        assert!(depth < DEEPEST, "a function that does not end");
        Self
    }
}

impl Drop for Deeper {
    fn drop(&mut self) {
        DEPTH.with(|cell| cell.set(cell.get() - 1));
    }
}

fn notes() -> Option<String> {
    std::env::var("PADDOCKYEAR_CHANGES").ok()
}

fn work_left() -> &'static [AtomicU64] {
    LEFT.get_or_init(|| {
        let before = take_hook();
        set_hook(Box::new(move |info| {
            if matches!(active(), 0 | NONE) {
                before(info);
            }
        }));
        let known = notes().and_then(|file| std::fs::read_to_string(file).ok()).unwrap_or_default();
        let changed = |name: &str| known.lines().any(|line| line == format!("changed {name}"));
        let work = |name: &&str| if changed(name) { 0 } else { MOST_WORK };
        EDITS.iter().map(|name| AtomicU64::new(work(name))).collect()
    })
}

/// The edits that are still to be tried.
pub fn left(edits: &[usize]) -> impl Iterator<Item = usize> + '_ {
    edits.iter().copied().filter(|edit| work_left()[edit - 1].load(Ordering::Relaxed) > 0)
}

/// Whether nothing is left to try of a function's edits.
pub type Settled = AtomicBool;

/// Whether some edit of a function is still to be tried.
pub fn waiting(settled: &Settled, edits: &[usize]) -> bool {
    if settled.load(Ordering::Relaxed) {
        return false;
    }
    let some = left(edits).next().is_some();
    settled.store(!some, Ordering::Relaxed);
    some
}

/// A call with an edit on; none where it panics.
pub fn run<T>(edit: usize, call: impl FnOnce() -> T) -> Option<T> {
    WORK.with(|cell| cell.set(0));
    let before = ACTIVE.with(|cell| cell.replace(edit));
    let answer = catch_unwind(AssertUnwindSafe(call));
    ACTIVE.with(|cell| cell.set(before));
    answer.ok()
}

fn note(line: &str) {
    if let Some(path) = notes() {
        let mut file = OpenOptions::new().create(true).append(true).open(path).expect("a file");
        file.write_all(line.as_bytes()).expect("a line written");
    }
}

/// Notes the first call on which an edit was tried, and the first that it changed.
pub fn settle(edit: usize, same: bool) {
    let (left, name) = (&work_left()[edit - 1], EDITS[edit - 1]);
    let before = left.load(Ordering::Relaxed);
    let after = if same { before.saturating_sub(1 + WORK.with(Cell::get)) } else { 0 };
    let settled =
        left.compare_exchange(before, after, Ordering::Relaxed, Ordering::Relaxed).is_ok();
    if settled && before == MOST_WORK {
        note(&format!("tried {name}\n"));
    }
    if settled && !same {
        note(&format!("changed {name}\n"));
    }
}

/// A lent slice; C may lend an empty one at no place.
pub unsafe fn slice_const<'a, T>(start: *const T, length: usize) -> &'a [T] {
    if length == 0 {
        return &[];
    }
    unsafe { std::slice::from_raw_parts(start, length) }
}

pub unsafe fn slice_mut<'a, T>(start: *mut T, length: usize) -> &'a mut [T] {
    if length == 0 {
        return &mut [];
    }
    unsafe { std::slice::from_raw_parts_mut(start, length) }
}
