//! Puts quiver's five files together as modules, with not a byte of them changed.
//!
//! Their folder is QUIVER_SRC or, if that is unset, `../shared/docs/src` seen from the repository's root. Their SHA-256 sums
//! must be those of `oracle/quiver.sha256`. Nothing of them is kept in the repository: all that is written is under target/.
//!
//! A file is wrapped as `pub mod NAME { FILE, our child module }`, since only a child module sees private fields, and the
//! files' own text must stay. (A file's inner doc comment may stand right after the brace; its line numbers stay too.)
//!
//! Flanger and phaser have no `tick_generic`, so that their ticks can't be timed on plain frames as the others' are. Behind
//! timefx.rs stands one for each: the text of the body of `tick`, cut out of the file, under the signature of the others'.
//!
//! port.rs exports a macro, which rustc takes only from a file that lib.rs names itself: target/quiver/port.rs is a copy.

use std::fs::File;
use std::path::{Path, PathBuf};
use std::process::Command;
use std::{env, fs};

/// Where the repository's root lies, seen from this crate.
const ROOT: &str = "../..";

/// Files of `src/modules`: whether a child module of ours, `src/inside/NAME.rs`, goes in, and which effects get a `tick_generic`.
const MODULES: [(&str, bool, &[&str]); 3] = [
    ("common", true, &[]),
    ("nonlinear", false, &[]),
    ("timefx", true, &["Flanger", "Phaser"]),
];

fn main() {
    println!("cargo::rerun-if-env-changed=QUIVER_SRC");
    let here = PathBuf::from(env::var("CARGO_MANIFEST_DIR").unwrap());
    let root = here.join(ROOT).canonicalize().unwrap();
    let sources = match env::var_os("QUIVER_SRC").filter(|given| !given.is_empty()) {
        Some(given) => root.join(given),
        None => root.join("../shared/docs/src"),
    };
    let sources = sources
        .canonicalize()
        .unwrap_or_else(|e| panic!("quiver's sources, {}: {e}", sources.display()));
    check_sums(&sources, &root.join("oracle/quiver.sha256"));
    copy(
        &sources.join("src/port.rs"),
        &root.join("target/quiver/port.rs"),
    );
    let text = quiver(&sources.join("src"), &here.join("src/inside"));
    fs::write(
        Path::new(&env::var("OUT_DIR").unwrap()).join("quiver.rs"),
        text,
    )
    .unwrap();
}

fn check_sums(sources: &Path, sums: &Path) {
    println!("cargo::rerun-if-changed={}", sums.display());
    for line in fs::read_to_string(sums).unwrap().lines() {
        let file = line.split_whitespace().nth(1).expect("a sum and a file");
        println!("cargo::rerun-if-changed={}", sources.join(file).display());
    }
    let checked = Command::new("sha256sum")
        .args(["--check", "--strict"])
        .arg(sums)
        .current_dir(sources)
        .output()
        .expect("sha256sum runs");
    let said = String::from_utf8_lossy(&checked.stdout);
    assert!(
        checked.status.success(),
        "quiver's sources are not those of quiver.sha256:\n{said}"
    );
}

/// A copy, never a link: a formatter or fixer follows lib.rs to this file, and must not get from here to the sources.
/// It bears the source's time, so that cargo runs this script again only where someone has changed it.
fn copy(file: &Path, to: &Path) {
    println!("cargo::rerun-if-changed={}", to.display());
    fs::create_dir_all(to.parent().unwrap()).unwrap();
    let _ = fs::remove_file(to);
    fs::write(to, fs::read(file).unwrap()).unwrap();
    let time = fs::metadata(file).unwrap().modified().unwrap();
    File::options()
        .write(true)
        .open(to)
        .unwrap()
        .set_modified(time)
        .unwrap();
}

/// The text of `crate::{analog, modules}`.
fn quiver(src: &Path, inside: &Path) -> String {
    let mut modules = String::new();
    for (name, child, effects) in MODULES {
        let text = read(&src.join("modules"), name);
        let more: String = effects.iter().map(|of| generic_tick(&text, of)).collect();
        let child = child.then(|| inside.join(name).with_extension("rs"));
        modules += &wrapped(name, &(text + &more), child.as_deref());
    }
    let analog = wrapped("analog", &read(src, "analog"), None);
    format!("{analog}pub mod modules {{\npub use crate::shims::oversample;\npub use nonlinear::Wavefolder;\n{modules}}}\n")
}

fn read(folder: &Path, name: &str) -> String {
    fs::read_to_string(folder.join(name).with_extension("rs")).unwrap()
}

/// The body of the effect's `tick` as the body of a `tick_generic`.
fn generic_tick(text: &str, effect: &str) -> String {
    const TICK: &str = "    fn tick(&mut self, inputs: &PortValues, outputs: &mut PortValues) {\n";
    let head = format!("impl GraphModule for {effect} {{\n");
    let block = text
        .split_once(&head)
        .and_then(|(_, rest)| rest.split_once("\n}\n"));
    let body = block
        .and_then(|(block, _)| block.split_once(TICK))
        .and_then(|(_, rest)| rest.split_once("\n    }\n"));
    let (body, _) = body.unwrap_or_else(|| panic!("quiver has no tick of the {effect}"));
    format!("impl {effect} {{\n#[inline(always)]\nfn tick_generic<I: InputFrame, O: OutputFrame>(&mut self, inputs: &I, outputs: &mut O) {{\n{body}\n}}\n}}\n")
}

fn wrapped(name: &str, text: &str, child: Option<&Path>) -> String {
    let child = child
        .map(|path| format!("#[path = {path:?}]\npub mod inside;\n"))
        .unwrap_or_default();
    format!("pub mod {name} {{ {text}\n{child}}}\n")
}
