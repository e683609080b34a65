//! Lays the Rust texts out under OUT_DIR as a module tree. The texts come from the folder that
//! `DOCS_SRC` names (default: trouble-host-0.8.0 beside the repository) and are not kept in it.
//!
//! A text is written as it stands; one line may follow it, which names a child module, so that
//! private states can be built and read back. Stand-ins and child modules are copied beside.

use std::path::{Path, PathBuf};
use std::{env, fs, process};

/// Path of a text, the line that follows it.
const TEXTS: [(&str, &str); 7] = [
    ("types/capabilities.rs", ""),
    ("security_manager/types.rs", ""),
    // The text ends in two attributes whose item was cut off: an empty item follows.
    ("security_manager/crypto.rs", "const _: () = ();\n"),
    ("security_manager/pairing/mod.rs", "pub(crate) mod record;\n"),
    ("security_manager/pairing/util.rs", "pub(super) mod record;\n"),
    ("security_manager/pairing/legacy_central.rs", "pub(super) mod record;\n"),
    ("security_manager/pairing/legacy_peripheral.rs", "pub(super) mod record;\n"),
];

/// Our own file, its place in the tree.
const FILES: [(&str, &str); 12] = [
    ("stand-ins/types.rs", "types/mod.rs"),
    ("stand-ins/security_manager/mod.rs", "security_manager/mod.rs"),
    ("stand-ins/security_manager/constants.rs", "security_manager/constants.rs"),
    ("stand-ins/security_manager/pairing/central.rs", "security_manager/pairing/central.rs"),
    ("stand-ins/security_manager/pairing/peripheral.rs", "security_manager/pairing/peripheral.rs"),
    ("children/pairing.rs", "security_manager/pairing/record.rs"),
    ("children/native.rs", "security_manager/pairing/record/native.rs"),
    ("children/util.rs", "security_manager/pairing/util/record.rs"),
    ("children/state.rs", "security_manager/pairing/legacy_central/record.rs"),
    ("children/state.rs", "security_manager/pairing/legacy_peripheral/record.rs"),
    ("children/legacy_central.rs", "security_manager/pairing/legacy_central/record/first.rs"),
    ("children/legacy_peripheral.rs", "security_manager/pairing/legacy_peripheral/record/first.rs"),
];

/// Items of lib.rs, cut out as text.
const LIB_ITEMS: [&str; 9] = [
    "pub struct Address {",
    "impl PartialEq for Address {",
    "impl Address {",
    "impl core::fmt::Display for Address {",
    "pub struct Identity {",
    "impl From<Address> for Identity {",
    "impl Identity {",
    "pub const MAX_INVALID_DATA_LEN: usize = 16;",
    "pub enum Error {",
];

/// Items of connection.rs, cut out as text.
const CONNECTION_ITEMS: [&str; 1] = ["pub enum ConnectionEvent {"];

/// The texts are the whole machines; the stand-ins use a part of them.
const ALLOWED: &str = "dead_code, unused_variables, unused_imports, unreachable_code, missing_docs, clippy::all";

fn main() {
    if let Err(message) = lay_out() {
        eprintln!("{message}");
        process::exit(1);
    }
}

fn lay_out() -> Result<(), String> {
    let here = PathBuf::from(env::var("CARGO_MANIFEST_DIR").map_err(|e| e.to_string())?);
    let out = PathBuf::from(env::var("OUT_DIR").map_err(|e| e.to_string())?);
    println!("cargo:rerun-if-env-changed=DOCS_SRC");
    let docs = here.join(env::var("DOCS_SRC").unwrap_or_else(|_| "../../../trouble-host-0.8.0".into()));
    let tree = out.join("tree");
    for (path, line) in TEXTS {
        put(&tree.join(path), &(text(&docs, path)? + line))?;
    }
    for (from, to) in FILES {
        put(&tree.join(to), &read(&here.join(from))?)?;
    }
    put(&out.join("lib_items.rs"), &items(&text(&docs, "lib.rs")?, &LIB_ITEMS)?)?;
    put(&out.join("connection_items.rs"), &items(&text(&docs, "connection.rs")?, &CONNECTION_ITEMS)?)?;
    let modules = ["security_manager", "types"]
        .map(|m| format!("#[allow({ALLOWED})]\n#[path = {:?}]\nmod {m};\n", tree.join(m).join("mod.rs")));
    put(&out.join("modules.rs"), &modules.concat())
}

/// A text of the Rust crate, by its path under src/. The folder may also hold it flat.
fn text(docs: &Path, path: &str) -> Result<String, String> {
    let nested = docs.join("src").join(path);
    let flat = docs.join(format!("src--src--{}.txt", path.replace('/', "--")));
    let found = [nested, flat].into_iter().find(|p| p.is_file());
    let place = found.ok_or(format!("{} holds no src/{path}; DOCS_SRC names the folder that has src/", docs.display()))?;
    read(&place)
}

/// The items that begin with the given lines, with the attributes and comments before them.
fn items(text: &str, heads: &[&str]) -> Result<String, String> {
    let lines: Vec<&str> = text.lines().collect();
    let mut cut = String::new();
    for head in heads {
        let at = lines.iter().position(|l| l == head).ok_or(format!("no line `{head}`"))?;
        let before = lines[..at].iter().rev().take_while(|l| l.starts_with("#[") || l.starts_with("///")).count();
        let length = if head.ends_with('{') {
            1 + lines[at..].iter().position(|l| *l == "}").ok_or(format!("no end of `{head}`"))?
        } else {
            1
        };
        cut += &lines[at - before..at + length].join("\n");
        cut += "\n\n";
    }
    Ok(cut)
}

fn read(path: &Path) -> Result<String, String> {
    println!("cargo:rerun-if-changed={}", path.display());
    fs::read_to_string(path).map_err(|e| format!("{}: {e}", path.display()))
}

/// Writes a file unless it stands there already, so that nothing is compiled twice.
fn put(path: &Path, content: &str) -> Result<(), String> {
    if fs::read_to_string(path).is_ok_and(|old| old == content) {
        return Ok(());
    }
    let folder = path.parent().ok_or("a path without a folder")?;
    fs::create_dir_all(folder).and_then(|()| fs::write(path, content)).map_err(|e| format!("{}: {e}", path.display()))
}
