//! Writes the files of `samples/` into the folder given as its argument; with the feature `linked`
//! the product's election writes the honest boards.

use std::{env, fs, path::Path};

use paddockyear_tests::boards::samples::files;

fn main() {
    let folder = env::args().nth(1).expect("usage: samples FOLDER");
    for (name, bytes) in files() {
        fs::write(Path::new(&folder).join(name), bytes).expect("the folder can be written");
    }
}
