//! Links the proved library, which `rt lib` makes in crates/exports; or another build of it, from the folder that UNLOOP_LIBRARY names (tests/levels).

use std::env;
use std::path::{Path, PathBuf};

fn main() {
    let made = Path::new(env!("CARGO_MANIFEST_DIR")).join("../crates/exports/out");
    println!("cargo::rerun-if-env-changed=UNLOOP_LIBRARY");
    let folder = env::var_os("UNLOOP_LIBRARY").map_or(made, PathBuf::from);
    let library = folder.join("libexports.a");
    println!("cargo::rerun-if-changed={}", library.display());
    if !library.exists() {
        println!(
            "cargo::error=no {}: run 'rt lib' in crates/exports first",
            library.display()
        );
    }
    println!("cargo::rustc-link-search=native={}", folder.display());
    println!("cargo::rustc-link-lib=static=exports");
}
