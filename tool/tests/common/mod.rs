//! The program under test, run as a user runs it; and numbers that a seed gives.

// Each test program takes what it needs of this.
#![allow(dead_code)]

use std::io::Write;
use std::path::PathBuf;
use std::process::{Command, Stdio};

/// What a run printed, said and ended with.
#[derive(Debug)]
pub struct Ran {
    pub status: i32,
    pub out: Vec<u8>,
    pub err: String,
}

impl Ran {
    pub fn text(&self) -> String {
        String::from_utf8_lossy(&self.out).into_owned()
    }

    /// Printed, status 0, nothing said.
    pub fn done(self) -> Vec<u8> {
        assert_eq!((self.status, self.err.as_str()), (0, ""), "{}", self.text());
        self.out
    }

    /// The same, as text.
    pub fn done_text(self) -> String {
        String::from_utf8(self.done()).expect("text")
    }

    /// Nothing printed, status 1: what was said.
    pub fn refused(self) -> String {
        assert_eq!((self.status, self.text().as_str()), (1, ""), "{}", self.err);
        assert!(self.err.starts_with("kartsodi"), "{}", self.err);
        self.err
    }
}

/// Runs the program with these words and this standard input.
pub fn run(words: &[&str], input: &[u8]) -> Ran {
    let mut program = Command::new(env!("CARGO_BIN_EXE_kartsodi"));
    program.args(words).stdin(Stdio::piped()).stdout(Stdio::piped()).stderr(Stdio::piped());
    let mut child = program.spawn().expect("the program starts");
    let mut pipe = child.stdin.take().expect("a pipe");
    let input = input.to_vec();
    // A program that ends early closes its input: then the rest is not wanted.
    let writer = std::thread::spawn(move || drop(pipe.write_all(&input)));
    let output = child.wait_with_output().expect("the program ends");
    writer.join().expect("the writer ends");
    let status = output.status.code().expect("the program ends by itself");
    let err = String::from_utf8(output.stderr).expect("words");
    assert!(!err.contains("panicked"), "{err}");
    Ran { status, out: output.stdout, err }
}

/// Runs a line of shell, in which $K is the program.
pub fn shell(line: &str) -> Ran {
    let output = Command::new("sh").args(["-c", line]).env("K", env!("CARGO_BIN_EXE_kartsodi")).output().expect("sh");
    let err = String::from_utf8(output.stderr).expect("words");
    Ran { status: output.status.code().expect("a status"), out: output.stdout, err }
}

/// A file of the project.
pub fn path(name: &str) -> PathBuf {
    PathBuf::from(env!("CARGO_MANIFEST_DIR")).join("..").join(name)
}

pub fn file(name: &str) -> Vec<u8> {
    std::fs::read(path(name)).unwrap_or_else(|fault| panic!("{name}: {fault}"))
}

/// The plans of the oracle's fixed list, by name, with what `plan-run` prints of each.
pub fn fixed() -> Vec<(String, Vec<u8>, Vec<u8>)> {
    let folder = path("oracle/fixed");
    let names = std::fs::read_dir(&folder).expect("oracle/fixed").map(|entry| entry.expect("an entry").path());
    let mut plans: Vec<PathBuf> =
        names.filter(|name| name.extension().is_some_and(|ending| ending == "plan")).collect();
    plans.sort();
    assert!(plans.len() > 400, "{} plans", plans.len());
    let read = |path: PathBuf| std::fs::read(&path).unwrap_or_else(|fault| panic!("{}: {fault}", path.display()));
    let all = plans.into_iter().map(|plan| {
        let name = plan.file_stem().expect("a name").to_string_lossy().into_owned();
        (name, read(plan.clone()), read(plan.with_extension("txt")))
    });
    all.collect()
}

/// Numbers that a seed gives, the same on every machine (SplitMix64).
pub struct Random(pub u64);

impl Random {
    pub fn bits(&mut self) -> u64 {
        self.0 = self.0.wrapping_add(0x9E37_79B9_7F4A_7C15);
        let mut z = self.0;
        z = (z ^ (z >> 30)).wrapping_mul(0xBF58_476D_1CE4_E5B9);
        z = (z ^ (z >> 27)).wrapping_mul(0x94D0_49BB_1331_11EB);
        z ^ (z >> 31)
    }

    /// A number below `most`.
    pub fn below(&mut self, most: usize) -> usize {
        (self.bits() % most as u64) as usize
    }

    pub fn pick<'a, T>(&mut self, all: &'a [T]) -> &'a T {
        &all[self.below(all.len())]
    }
}
