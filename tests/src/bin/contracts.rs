//! Prints the contract of every function of all crates, in an order of its own: `diff` of what two
//! revisions print shows which promises changed. Run from the root.

use paddockyear_tests::contracts::contracts;
use paddockyear_tests::crates::all;

fn main() {
    contracts(&all(".")).iter().for_each(|line| println!("{line}"));
}
