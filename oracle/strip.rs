//! Makes a Rust copy of our reader: the .rt sources of its crates without their contracts, one module a crate.
//!
//!   strip OUT [EDIT]   writes OUT; EDIT names a file of changes to the sources, which makes the copy a wrong one
//!
//! A file of changes has the form of the must-fail edits: `file: PATH`, then pairs `old: TEXT` and `new: TEXT`, and `#` before a
//! comment. It may name several files, from the repository's root, or from its crate's folder where it is one of crates/*/must-fail.
//! Each old text must stand in its file just once. Changes of definitions and proofs make no difference to a copy.

use std::fs;

/// The crates that `shex` is made of, leaves first: the reader's, and the encoder's and the calls on rows, which it has beside it and the
/// copies do not call.
const CRATES: [&str; 26] = [
    "format",
    "tokens",
    "layouts",
    "operand",
    "operand_rows",
    "operand_write",
    "framing",
    "header",
    "instruction_fields",
    "instruction",
    "instruction_write",
    "stream",
    "stream_write",
    "decode",
    "operand_deep",
    "operand_walk",
    "output",
    "operand_emit",
    "instruction_deep",
    "instruction_walk",
    "instruction_emit",
    "reading",
    "encode",
    "answers",
    "rows",
    "shex",
];

/// A change of a file.
struct Edit {
    file: String,
    old: String,
    new: String,
}

fn edits(path: &str) -> Vec<Edit> {
    let text = fs::read_to_string(path).expect("the file of changes");
    let root = path.split_once("must-fail/").map_or("", |(root, _)| root);
    let (mut file, mut old, mut all) = (String::new(), None, Vec::new());
    for line in text.lines().filter(|line| !line.starts_with('#')) {
        match line.split_once(": ") {
            Some(("file", path)) => file = format!("{root}{path}"),
            Some(("old", text)) => old = Some(text.to_string()),
            Some(("new", new)) => {
                let old = old.take().expect("an old text before a new one");
                all.push(Edit { file: file.clone(), old, new: new.to_string() });
            }
            _ => panic!("{path}: {line}"),
        }
    }
    all.retain(|edit| edit.file.ends_with(".rt"));
    all
}

/// The derives as Rust has them: `Drop` is no derive there, and a copy's values are all copied.
fn derive_of(line: &str) -> String {
    let named = line.trim().trim_start_matches("#[derive(").trim_end_matches(")]").split(", ");
    let kept = named.filter(|name| !["Drop", "Clone", "Copy"].contains(name));
    format!("#[derive({})]", ["Clone", "Copy"].into_iter().chain(kept).collect::<Vec<_>>().join(", "))
}

/// A line as Rust has it, in a crate with these modules; None for a line of the proofs.
fn line_of(line: &str, modules: &[&str]) -> Option<String> {
    let start = line.trim_start();
    if ["ghost ", "pub ghost ", "#![tactic(", "#[cycle(", "#[tactic("].iter().any(|word| start.starts_with(word)) {
        return None;
    }
    if start.starts_with("requires ") || start.starts_with("ensures ") {
        assert!(line.ends_with(['}', ';']), "a contract ends with its line: {line}");
        return line.ends_with(';').then(|| ";".to_string());
    }
    if start.starts_with("#[derive(") {
        return Some(derive_of(line));
    }
    match line.strip_prefix("use ") {
        Some(path) if path.starts_with("std::") || path.starts_with("super::") => Some(line.to_string()),
        Some(path) if modules.iter().any(|name| path.starts_with(&format!("{name}::"))) => Some(format!("use self::{path}")),
        Some(path) => Some(format!("use crate::{path}")),
        _ => Some(line.replace("std::num::wrapping_sub_u32(", "u32::wrapping_sub(")),
    }
}

/// The text of a file and of the modules that it names, with these changes, of which the count is added to `used`.
fn module(name: &str, path: &str, edits: &[Edit], used: &mut usize) -> String {
    let mut text = fs::read_to_string(path).expect("the source of a crate");
    for edit in edits.iter().filter(|edit| edit.file == path) {
        assert_eq!(text.matches(&edit.old).count(), 1, "{path} has just once: {}", edit.old);
        text = text.replace(&edit.old, &edit.new);
        *used += 1;
    }
    let modules: Vec<&str> = text.lines().filter_map(|line| line.strip_prefix("mod ")?.strip_suffix(';')).collect();
    let mut out = format!("mod {name} {{\nuse crate::{{{}}};\n", CRATES.join(", "));
    for line in text.lines().filter(|line| !line.starts_with("mod ")).filter_map(|line| line_of(line, &modules)) {
        out += &line;
        out.push('\n');
    }
    let folder = path.rsplit_once('/').map_or("", |(folder, _)| folder);
    for name in modules {
        out += &module(name, &format!("{folder}/{name}.rt"), edits, used);
    }
    out + "}\n"
}

fn main() {
    let words: Vec<String> = std::env::args().skip(1).collect();
    let edits = words.get(1).map_or(Vec::new(), |path| edits(path));
    let mut out = String::from("#![allow(unused, clippy::all)]\n");
    let mut used = 0;
    for name in CRATES {
        out += &module(name, &format!("crates/{name}/src/lib.rt"), &edits, &mut used);
    }
    assert_eq!(used, edits.len(), "every change names a crate of shex");
    out += "
/// Reads a chunk into three lent pools.
pub fn read(chunk: &[u8], four: u32, edition: u32, i: &mut [u32], o: &mut [u32], w: &mut [u32]) -> told::Reading {
    let r = shex::shex_decode(chunk, four, edition, i, o, w);
    told::Reading {
        number: r.number,
        place: r.place,
        version: r.version,
        instructions: r.instructions,
        operands: r.operands,
        words: r.words,
    }
}
";
    fs::write(&words[0], out).expect("the copy is written");
}
