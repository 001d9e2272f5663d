//! The wrong oracles: each has one comparison, constant or order changed, behind a switch.

use std::fmt::Write;

use crate::wrong_list::{EQUAL, WRONG};

/// Modules of our own that the wrong oracles change too.
pub const OWN_MODULES: &[&str] = &["zero.rs", "reader.rs", "bake.rs", "answer.rs", "print.rs"];

/// In `file`, at each of the `times` places where `within` stands, the next `old` is one of `new` instead.
pub struct Wrong {
    pub file: &'static str,
    pub within: &'static str,
    pub times: usize,
    pub old: &'static str,
    /// What stands for `old` when no switch is on: `old` itself, or the same with a type that fits the others.
    pub keep: &'static str,
    pub new: &'static [&'static str],
}

/// A wrong oracle that answers as the oracle does on every input, and why.
pub struct Equal {
    pub file: &'static str,
    pub old: &'static str,
    pub new: &'static str,
    pub why: &'static str,
}

/// Why nothing can tell this one apart, or an empty text.
fn reason(wrong: &Wrong, new: &str) -> &'static str {
    let found = EQUAL.iter().find(|e| (e.file, e.old, e.new) == (wrong.file, wrong.old, new));
    found.map_or("", |equal| equal.why)
}

/// The modules with their switches, and the table of wrong oracles as Rust text.
pub fn switched(mut modules: Vec<(String, String)>) -> Result<(Vec<(String, String)>, String), String> {
    let mut table = String::from("pub const TABLE: &[(&str, &str, &str, &str, &str)] = &[\n");
    let mut number = 0;
    for wrong in WRONG {
        let found = modules.iter_mut().find(|(name, _)| name == wrong.file);
        let (_, text) = found.ok_or_else(|| format!("no module {}", wrong.file))?;
        let mut switch = String::from("(match crate::switch::chosen() {");
        for new in wrong.new {
            number += 1;
            write!(switch, " {number} => {{ {new} }},").unwrap();
            let (file, within, old, why) = (wrong.file, wrong.within, wrong.old, reason(wrong, new));
            writeln!(table, "    ({file:?}, {within:?}, {old:?}, {new:?}, {why:?}),").unwrap();
        }
        write!(switch, " _ => {{ {} }} }})", wrong.keep).unwrap();
        for at in places(text, wrong)?.into_iter().rev() {
            text.replace_range(at..at + wrong.old.len(), &switch);
        }
    }
    table += "];\n";
    let listed = |e: &Equal| WRONG.iter().any(|w| (w.file, w.old) == (e.file, e.old) && w.new.contains(&e.new));
    if let Some(unlisted) = EQUAL.iter().find(|equal| !listed(equal)) {
        return Err(format!("no wrong oracle `{}` of {}", unlisted.new, unlisted.file));
    }
    Ok((modules, table))
}

/// Where `old` stands: the next after each `within`.
fn places(text: &str, wrong: &Wrong) -> Result<Vec<usize>, String> {
    let starts: Vec<usize> = text.match_indices(wrong.within).map(|(at, _)| at).collect();
    if starts.len() != wrong.times {
        return Err(format!("{}: `{}` stands {} times, not {}", wrong.file, wrong.within, starts.len(), wrong.times));
    }
    let next = |from: usize| text[from..].find(wrong.old).map(|at| from + at);
    let places: Option<Vec<usize>> = starts.into_iter().map(next).collect();
    places.ok_or_else(|| format!("{}: no `{}` past `{}`", wrong.file, wrong.old, wrong.within))
}
