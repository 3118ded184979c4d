//! Writes the Rattle sources of the bench as Rust, without their contracts and with a count in every function and loop. The sources are
//! those of C2C_CRATES, or of this repository.

use std::env;
use std::fs;
use std::path::{Path, PathBuf};

/// The crates that a container is handed to, and those that they call.
const CRATES: [&str; 14] = [
    "slices",
    "cause",
    "container",
    "message",
    "record",
    "frame",
    "feeder",
    "placement",
    "reader",
    "writer",
    "pools",
    "ledger",
    "logs",
    "host",
];

/// Whether a line is for the prover alone.
fn is_left_out(code: &str) -> bool {
    ["ghost ", "requires ", "ensures ", "#![tactic(", "#[tactic("].iter().any(|start| code.starts_with(start))
}

/// What stands for a line that names other modules: all of them lie in one Rust crate.
fn translate_names(code: &str, file: &Path, name: &str) -> Option<String> {
    if let Some(inner) = code.strip_prefix("mod ") {
        let inner = inner.trim_end_matches(';');
        let body = translate(&file.with_file_name(format!("{inner}.rt")), name);
        return Some(format!("pub mod {inner} {{\n{body}}}"));
    }
    if let Some(path) = code.strip_prefix("pub use ") {
        return Some(format!("pub use self::{path}"));
    }
    let path = code.strip_prefix("use ")?;
    Some(match path.strip_prefix("crate::") {
        Some(own) => format!("use crate::bench::{name}::{own}"),
        None => format!("use crate::bench::{path}"),
    })
}

/// Whether a line begins a loop, which a count must be able to follow.
fn begins_loop(code: &str, file: &Path) -> bool {
    let words: Vec<&str> = code.split("//").next().unwrap_or_default().split_whitespace().collect();
    let begins = matches!(words.first(), Some(&"while" | &"loop" | &"for"));
    let has = words.iter().any(|word| matches!(*word, "while" | "loop"));
    assert!(!has || begins, "{}: a loop inside a line: {code}", file.display());
    assert!(!begins || code.ends_with('{'), "{}: a loop over more than a line: {code}", file.display());
    begins
}

/// The name of the function whose header begins on a line.
fn function_name(code: &str) -> Option<&str> {
    let headers = ["fn ", "pub fn ", "pub(crate) fn "];
    headers.iter().find_map(|start| code.strip_prefix(start))?.split(['(', '<']).next()
}

/// A source file of the crate `name` as the body of a Rust module.
fn translate(file: &Path, name: &str) -> String {
    println!("cargo:rerun-if-changed={}", file.display());
    let source = fs::read_to_string(file).unwrap_or_else(|e| panic!("{}: {e}", file.display()));
    let module = file.file_stem().unwrap_or_default().to_string_lossy();
    let mut lines = Vec::new();
    let mut header = None;
    for line in source.lines() {
        let code = line.trim();
        if is_left_out(code) {
            continue;
        }
        lines.push(translate_names(code, file, name).unwrap_or_else(|| line.to_string()));
        header = function_name(code).or(header);
        if begins_loop(code, file) {
            lines.push("crate::count::turn();".to_string());
        } else if let (Some(function), true) = (header, code.ends_with('{')) {
            lines.push(format!("let _call = crate::count::enter(\"{name}::{module}::{function}\");"));
            header = None;
        }
    }
    lines.join("\n") + "\n"
}

fn main() {
    let own = Path::new(env!("CARGO_MANIFEST_DIR")).join("../../../crates");
    let crates = env::var_os("C2C_CRATES").map_or(own, PathBuf::from);
    println!("cargo:rerun-if-env-changed=C2C_CRATES");
    let modules = CRATES.map(|name| {
        let body = translate(&crates.join(name).join("src/lib.rt"), name);
        format!("pub mod {name} {{\n{body}}}\n")
    });
    let target = Path::new(&env::var_os("OUT_DIR").unwrap_or_default()).join("bench.rs");
    fs::write(&target, modules.concat()).unwrap_or_else(|e| panic!("{}: {e}", target.display()));
}
