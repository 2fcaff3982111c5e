//! Links the static library that `tests/build thaksipho` writes.

use std::path::Path;
use std::process::exit;

fn main() {
    let folder = Path::new(env!("CARGO_MANIFEST_DIR")).join("../target/staticlib");
    let archive = folder.join("libthaksipho.a");
    println!("cargo:rerun-if-changed={}", archive.display());
    if !archive.is_file() {
        eprintln!(
            "target/staticlib/libthaksipho.a is missing: run `make test` from the repository's root"
        );
        exit(1);
    }
    println!("cargo:rustc-link-search=native={}", folder.display());
    println!("cargo:rustc-link-lib=static=thaksipho");
}
