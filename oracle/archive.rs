//! The build script of the packages that link an archive of ours: target/staticlib/libNAME.a, which `tools/archive NAME` makes of
//! the crate that has the package's name.

use std::env;
use std::path::PathBuf;

fn main() {
    let root = PathBuf::from(env::var("CARGO_MANIFEST_DIR").unwrap())
        .join("../..")
        .canonicalize()
        .unwrap();
    let name = env::var("CARGO_PKG_NAME").unwrap();
    let folder = root.join("target/staticlib");
    let archive = folder.join(format!("lib{name}.a"));
    assert!(
        archive.is_file(),
        "{} is missing: run `tools/archive {name}` first",
        archive.display()
    );
    println!("cargo::rerun-if-changed={}", archive.display());
    println!("cargo::rustc-link-search=native={}", folder.display());
    println!("cargo::rustc-link-lib=static={name}");
}
