//! Times whole runs of `plan-run` beside the Rust's on the same files, process start included, and an empty program beside them.
//!
//! `bench-run [ROUNDS]`, in the project's root. As `bench-run rust` it is the Rust's side: a program that prints what `plan-run` must, and
//! answers each query once, where `oracle-run` runs the source's function and its second copy. As `bench-run nothing` it is the empty program.

mod files;

use kartsodi_oracle::answer::Originals;
use kartsodi_oracle::print::run_with;
use std::fs::File;
use std::io::{Read, Write};
use std::path::Path;
use std::process::{Command, Stdio};
use std::time::Instant;

const FOLDER: &str = "target/compare/bench-run-plans";

/// The programs: `plan-run`, the Rust's, `oracle-run`, the empty one.
fn programs() -> [Vec<String>; 4] {
    let own = std::env::current_exe().expect("a program has its path").display().to_string();
    let words = |words: &[&str]| words.iter().map(|word| word.to_string()).collect();
    [
        words(&["crates/plan_run/out/plan_run"]),
        words(&[&own, "rust"]),
        words(&["oracle/target/release/oracle-run"]),
        words(&[&own, "nothing"]),
    ]
}

fn command(words: &[String], plan: &Path) -> Command {
    let mut command = Command::new(&words[0]);
    command.args(&words[1..]).stdin(File::open(plan).expect("the plan was written"));
    command
}

/// Seconds from a program's start to its end; what it prints goes nowhere.
fn timed(words: &[String], plan: &Path) -> f64 {
    let mut command = command(words, plan);
    command.stdout(Stdio::null());
    let start = Instant::now();
    let status = command.status().unwrap_or_else(|e| panic!("{}: {e}", words[0]));
    let seconds = start.elapsed().as_secs_f64();
    assert!(status.success(), "{words:?} fails");
    seconds
}

fn median(mut times: Vec<f64>) -> f64 {
    times.sort_by(f64::total_cmp);
    times[times.len() / 2]
}

fn shown(seconds: f64) -> String {
    format!("{:.2} ms", seconds * 1e3)
}

/// One line of the table: all programs in turn, the median of each.
fn row(name: &str, plan: &Path, rounds: usize) {
    let programs = programs();
    let printed = |words: &[String]| command(words, plan).output().unwrap_or_else(|e| panic!("{}: {e}", words[0])).stdout;
    let expected = printed(&programs[0]);
    assert!(programs[1..3].iter().all(|words| printed(words) == expected), "{name}: the programs differ");
    let mut times: [Vec<f64>; 4] = Default::default();
    for _ in 0..rounds {
        for (all, words) in times.iter_mut().zip(&programs) {
            all.push(timed(words, plan));
        }
    }
    let [ours, rust, oracle, nothing] = times.map(median);
    let [a, b, c, d] = [ours, rust, oracle, nothing].map(shown);
    println!("| {name} | {a} | {b} | {c} | {d} | {:.2} |", ours / rust);
}

fn bench(rounds: usize) {
    std::fs::create_dir_all(FOLDER).expect("target can be written");
    println!("| file | plan-run | Rust | oracle-run | empty program | plan-run to Rust |\n|---|---|---|---|---|---|");
    for (name, bytes) in files::all() {
        let path = Path::new(FOLDER).join(name.replace([' ', ','], "-") + ".plan");
        std::fs::write(&path, &bytes).expect("target can be written");
        let queries = files::queries(&bytes);
        row(&format!("{name}: {} bytes, {queries} queries", bytes.len()), &path, rounds);
    }
}

/// The Rust's side: answers the plan on standard input by the source's functions, each query once (the oracle's copies where it has one).
fn rust() {
    let mut file = Vec::new();
    std::io::stdin().read_to_end(&mut file).expect("standard input can be read");
    let text = run_with(&file, Originals::NotRun);
    std::io::stdout().write_all(text.as_bytes()).expect("standard output can be written");
}

fn main() {
    match std::env::args().nth(1).as_deref() {
        Some("rust") => rust(),
        Some("nothing") => {}
        rounds => bench(rounds.map_or(51, |word| word.parse().expect("a number of rounds"))),
    }
}
