//! The build script: takes the needed functions out of the source, changes what `taken` lists, and writes the
//! result, a list of it, and a second tree with the wrong oracles' switches to the build folder.

mod taken;
mod text;
mod wrong;
mod wrong_list;

use std::fmt::Write;
use std::path::{Path, PathBuf};
use std::{env, fs};

use taken::{File, Function, Part};
use text::{Edit, Piece};

fn main() {
    println!("cargo::rerun-if-changed=cutter");
    println!("cargo::rerun-if-env-changed=KARTSODI_SOURCE");
    // The source's attributes for a feature that is never on here.
    println!("cargo::rustc-check-cfg=cfg(feature, values(\"serde\"))");
    if let Err(why) = build() {
        eprintln!("the oracle cannot be built: {why}");
        std::process::exit(1);
    }
}

fn build() -> Result<(), String> {
    let home = PathBuf::from(env::var("CARGO_MANIFEST_DIR").map_err(|e| e.to_string())?);
    let out = PathBuf::from(env::var("OUT_DIR").map_err(|e| e.to_string())?);
    let source = source_folder(&home)?;
    let mut list = String::from(
        "What the oracle takes from the source, with the lines it stands on, and every change. What was private is\n\
         opened besides, and the `use` lines are written anew.\n",
    );
    let mut modules = Vec::new();
    for file in taken::FILES {
        let text = read(&source.join(file.name))?;
        if checksum(text.as_bytes()) != file.checksum {
            println!("cargo::warning={} is not that of commit b3358af718; the fixed list may differ", file.name);
        }
        let cut = cut_file(file, &text, &mut list).map_err(|why| format!("{}: {why}", file.name))?;
        write(&out.join(file.name), &cut)?;
        modules.push((file.name.to_string(), cut));
    }
    write(&out.join("taken.txt"), &list)?;
    for name in wrong::OWN_MODULES {
        let path = home.join("src").join(name);
        println!("cargo::rerun-if-changed={}", path.display());
        modules.push((name.to_string(), own_module(&read(&path)?)));
    }
    write_wrong(&out, modules)
}

/// The folder with coords.rs and the others: below the one that a variable names, or below the shared one.
fn source_folder(home: &Path) -> Result<PathBuf, String> {
    let named = env::var_os("KARTSODI_SOURCE").map(PathBuf::from);
    let root = named.unwrap_or_else(|| home.join("../../shared/docs/src"));
    let folder = root.join("src");
    println!("cargo::rerun-if-changed={}", folder.display());
    if folder.join("coords.rs").is_file() {
        Ok(folder)
    } else {
        Err("the source was not found: KARTSODI_SOURCE must name a folder with src/coords.rs".into())
    }
}

/// FNV-1a over 64 bits.
fn checksum(bytes: &[u8]) -> u64 {
    bytes.iter().fold(0xcbf2_9ce4_8422_2325, |sum, &byte| (sum ^ u64::from(byte)).wrapping_mul(0x0100_0000_01b3))
}

/// The taken parts of one file as a module.
fn cut_file(file: &File, text: &str, list: &mut String) -> Result<String, String> {
    let mut cut = format!("{}\n", file.uses);
    writeln!(list, "\n{}", file.name).unwrap();
    for part in file.parts {
        match part {
            Part::Item { head, edits } => {
                let piece = text::item(text, head)?;
                note(list, head, &piece, &[], edits);
                cut += &open_item(&edited(&piece.text, &[], edits)?);
            }
            Part::Struct { head, without } => {
                let piece = text::item(text, head)?;
                note(list, head, &piece, without, &[]);
                cut += &open_item(&edited(&piece.text, without, &[])?);
            }
            Part::Impl { head, functions } => cut += &cut_impl(head, functions, text, list)?,
        }
        cut.push('\n');
    }
    Ok(cut)
}

/// The taken functions of one type, each with its second copy behind it.
fn cut_impl(head: &str, functions: &[Function], text: &str, list: &mut String) -> Result<String, String> {
    writeln!(list, "  {head}").unwrap();
    let mut cut = format!("{head}\n");
    for function in functions {
        let piece = text::method(text, head, function.head)?;
        let without = [function.without, function.unassigned].concat();
        note(list, function.head, &piece, &without, function.edits);
        let mut once = edited(&piece.text, function.without, function.edits)?;
        for name in function.unassigned {
            once = text::drop_assignment(&once, name)?;
        }
        cut += &open_method(&once);
        if !function.copy.is_empty() {
            note(list, &format!("{} (second copy)", function.head), &piece, &[], function.copy);
            cut += &open_method(&edited(&once, &[], function.copy)?);
        }
    }
    cut += "}\n";
    Ok(cut)
}

fn edited(text: &str, without: &[&str], edits: &[Edit]) -> Result<String, String> {
    let mut text = text.to_string();
    for name in without {
        text = text::drop_field(&text, name)?;
    }
    for edit in edits {
        text = text::substitute(&text, edit)?;
    }
    Ok(text)
}

/// An item with itself, its fields and its functions open to everyone.
fn open_item(text: &str) -> String {
    let is_private = |line: &str| ["fn ", "struct ", "const "].iter().any(|word| line.starts_with(word));
    let is_struct = text.lines().any(|line| line.contains("struct ") && line.ends_with('{'));
    let is_impl = text.lines().any(|line| line.starts_with("impl ") && !line.contains(" for "));
    let mut open = String::new();
    for line in text.replace("pub(crate) ", "pub ").lines() {
        let field = is_struct && line.starts_with("    ") && starts_field(&line[4..]);
        let (indent, rest) = line.split_at(line.len() - line.trim_start().len());
        let private = is_private(line) || field || (is_impl && indent.len() == 4 && rest.starts_with("fn "));
        writeln!(open, "{indent}{}{rest}", if private { "pub " } else { "" }).unwrap();
    }
    open
}

/// Whether a line begins with a name and a colon.
fn starts_field(line: &str) -> bool {
    let name = line.split(':').next().unwrap_or("");
    line.len() > name.len() && !name.is_empty() && name.bytes().all(|b| b.is_ascii_lowercase() || b == b'_')
}

fn open_method(text: &str) -> String {
    let text = text.replace("pub(crate) fn ", "pub fn ");
    match text.strip_prefix("    fn ") {
        Some(rest) => format!("    pub fn {rest}"),
        None => text.replace("\n    fn ", "\n    pub fn "),
    }
}

/// One line of the list, and one for each change.
fn note(list: &mut String, head: &str, piece: &Piece, without: &[&str], edits: &[Edit]) {
    writeln!(list, "  {head}  lines {} to {}", piece.first_line, piece.last_line()).unwrap();
    if !without.is_empty() {
        writeln!(list, "      without the fields {}", without.join(", ")).unwrap();
    }
    for edit in edits {
        writeln!(list, "      {:?} -> {:?}, {} times", edit.old, edit.new, edit.times).unwrap();
    }
}

/// The program's own module without the comments that may only open a file.
fn own_module(text: &str) -> String {
    let kept = text.lines().filter(|line| !line.starts_with("//!"));
    kept.flat_map(|line| [line, "\n"]).collect()
}

/// The second tree, in which each wrong oracle's change stands behind a switch, and the table of them.
fn write_wrong(out: &Path, modules: Vec<(String, String)>) -> Result<(), String> {
    let (modules, table) = wrong::switched(modules)?;
    let folder = out.join("wrong");
    fs::create_dir_all(&folder).map_err(|e| e.to_string())?;
    for (name, text) in &modules {
        write(&folder.join(name), text)?;
    }
    write(&folder.join("table.rs"), &table)
}

fn read(path: &Path) -> Result<String, String> {
    fs::read_to_string(path).map_err(|e| format!("{}: {e}", path.display()))
}

fn write(path: &Path, text: &str) -> Result<(), String> {
    fs::write(path, text).map_err(|e| format!("{}: {e}", path.display()))
}
