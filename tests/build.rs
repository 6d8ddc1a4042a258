//! Links the product's static library when the feature `linked` is on.

use std::env;
use std::path::{Path, PathBuf};

const ARCHIVE: &str = "libpaddockyear.a";

fn main() {
    println!("cargo:rerun-if-changed=build.rs");
    println!("cargo:rerun-if-env-changed=PADDOCKYEAR_ARCHIVE");
    let edited = env::var_os("CARGO_FEATURE_EDITED").is_some();
    if env::var_os("CARGO_FEATURE_LINKED").is_some() && !edited {
        link(&archive_folder());
    }
}

fn archive_folder() -> PathBuf {
    match env::var_os("PADDOCKYEAR_ARCHIVE") {
        Some(folder) => PathBuf::from(folder),
        None => Path::new(env!("CARGO_MANIFEST_DIR")).join("../crates/paddockyear/out"),
    }
}

fn link(folder: &Path) {
    let archive = folder.join(ARCHIVE);
    assert!(archive.is_file(), "no {} in {}", ARCHIVE, folder.display());
    println!("cargo:rerun-if-changed={}", archive.display());
    println!("cargo:rustc-link-search=native={}", folder.display());
    println!("cargo:rustc-link-lib=static=paddockyear");
}
