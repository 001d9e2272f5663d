//! Runs two programs over the same plans and reports the first difference, on the smallest plan that shows it; where
//! there is none, how often each number was given.

use std::collections::BTreeMap;
use std::io::{Read, Write};
use std::process::{Command, ExitCode, Stdio};
use std::sync::mpsc;
use std::time::Duration;
use std::{env, fs, thread};

use kartsodi_oracle::gen::{plans, random_case, Case};
use kartsodi_oracle::print;
use kartsodi_oracle::reader::scan;
use kartsodi_oracle::shrink::{pieces, shrink};

const USAGE: &str = "\
plan-compare [--seed S] [--count N] [--random] [--folder FOLDER] [--keep FILE] A B
  A, B       programs that read a plan on standard input, as one word each, arguments behind blanks; `oracle` is
             the one built in
  --seed     which random plans (1); --count: how many plans (1000); --random: without the cases that need no seed
  --folder   the files *.plan of a folder instead
  --keep     write the smallest differing plan to a file";

/// How long a program may take for one plan.
const TIME_LIMIT: Duration = Duration::from_secs(20);

#[derive(Default)]
struct Options {
    seed: Option<u64>,
    count: Option<usize>,
    random: bool,
    folder: Option<String>,
    keep: Option<String>,
    programs: Vec<String>,
}

fn main() -> ExitCode {
    match run() {
        Ok(true) => ExitCode::SUCCESS,
        Ok(false) => ExitCode::from(1),
        Err(why) => {
            eprintln!("{why}");
            ExitCode::from(2)
        }
    }
}

/// Whether the programs agreed on every plan.
fn run() -> Result<bool, String> {
    let options = parse()?;
    let [a, b] = &options.programs[..] else {
        return Err(USAGE.to_string());
    };
    let mut agreed = 0;
    let mut seen = BTreeMap::new();
    for case in cases(&options)? {
        let (left, right) = (output(a, &case.file)?, output(b, &case.file)?);
        if left != right {
            report(&case, a, b, options.keep.as_deref())?;
            println!("{agreed} passed, 1 failed");
            return Ok(false);
        }
        agreed += 1;
        count(&left, &mut seen);
    }
    for (word, numbers) in seen {
        let each: Vec<String> = numbers.iter().map(|(number, times)| format!("{times} with {number}")).collect();
        println!("{word}: {}", each.join(", "));
    }
    println!("{agreed} passed, 0 failed");
    Ok(true)
}

/// How often each number was printed, by the line's word.
type Seen = BTreeMap<String, BTreeMap<usize, usize>>;

fn count(text: &[u8], seen: &mut Seen) {
    for line in String::from_utf8_lossy(text).lines() {
        let mut words = line.split(' ');
        if let Some(word @ ("plan" | "route" | "advance" | "beside")) = words.next() {
            let number = words.next().and_then(|number| number.parse().ok());
            *seen.entry(word.to_string()).or_default().entry(number.unwrap_or_default()).or_default() += 1;
        }
    }
}

fn parse() -> Result<Options, String> {
    let mut options = Options::default();
    let mut words = env::args().skip(1);
    while let Some(word) = words.next() {
        let mut value = || words.next().ok_or_else(|| USAGE.to_string());
        let number = |word: String| word.parse::<u64>().map_err(|_| format!("`{word}` is no number"));
        match word.as_str() {
            "--seed" => options.seed = Some(number(value()?)?),
            "--count" => options.count = Some(number(value()?)? as usize),
            "--random" => options.random = true,
            "--folder" => options.folder = Some(value()?),
            "--keep" => options.keep = Some(value()?),
            _ if word.starts_with("--") => return Err(USAGE.to_string()),
            _ => options.programs.push(word),
        }
    }
    Ok(options)
}

fn cases(options: &Options) -> Result<Box<dyn Iterator<Item = Case>>, String> {
    let (seed, count) = (options.seed.unwrap_or(1), options.count.unwrap_or(1000));
    match &options.folder {
        Some(folder) => Ok(Box::new(folder_cases(folder)?.into_iter())),
        None if options.random => Ok(Box::new((0..count as u64).map(move |index| random_case(seed, index)))),
        None => Ok(Box::new(plans(seed, count))),
    }
}

fn folder_cases(folder: &str) -> Result<Vec<Case>, String> {
    let mut cases = Vec::new();
    for entry in fs::read_dir(folder).map_err(|e| format!("{folder}: {e}"))? {
        let path = entry.map_err(|e| e.to_string())?.path();
        if path.extension().is_some_and(|end| end == "plan") {
            let name = path.file_stem().unwrap_or_default().to_string_lossy().into_owned();
            let file = fs::read(&path).map_err(|e| e.to_string())?;
            cases.push(Case { name, file, queries: Vec::new() });
        }
    }
    cases.sort_by(|a, b| a.name.cmp(&b.name));
    Ok(cases)
}

/// What a program prints for a plan; a program that fails or takes too long prints that.
fn output(program: &str, file: &[u8]) -> Result<Vec<u8>, String> {
    if program == "oracle" {
        return Ok(print::run(file).into_bytes());
    }
    let mut words = program.split_ascii_whitespace();
    let name = words.next().ok_or(USAGE)?;
    let mut child = Command::new(name)
        .args(words)
        .stdin(Stdio::piped())
        .stdout(Stdio::piped())
        .stderr(Stdio::null())
        .spawn()
        .map_err(|e| format!("{name}: {e}"))?;
    let (mut stdin, mut stdout) = (child.stdin.take().expect("piped"), child.stdout.take().expect("piped"));
    let input = file.to_vec();
    // A program may stop reading early, so a failed write says nothing.
    thread::spawn(move || drop(stdin.write_all(&input)));
    let (send, printed) = mpsc::channel();
    thread::spawn(move || {
        let mut text = Vec::new();
        let read = stdout.read_to_end(&mut text);
        drop(send.send(read.map(|_| text)));
    });
    match printed.recv_timeout(TIME_LIMIT) {
        Ok(text) => {
            let mut text = text.map_err(|e| e.to_string())?;
            let status = child.wait().map_err(|e| e.to_string())?;
            if !status.success() {
                text.extend(format!("failed: {status}\n").bytes());
            }
            Ok(text)
        }
        Err(_) => {
            child.kill().and_then(|()| child.wait()).map_err(|e| e.to_string())?;
            Ok(b"took too long\n".to_vec())
        }
    }
}

fn report(case: &Case, a: &str, b: &str, keep: Option<&str>) -> Result<(), String> {
    let differs = |file: &[u8]| matches!((output(a, file), output(b, file)), (Ok(left), Ok(right)) if left != right);
    let small = shrink(&case.file, differs);
    println!("difference on {}: {} bytes, shrunk to {}", case.name, case.file.len(), small.len());
    match scan(&small) {
        Ok(plan) => println!("{plan:#?}"),
        Err(number) => println!("the file is refused with {number}"),
    }
    for record in pieces(&small) {
        let digits: Vec<String> = record.iter().map(|byte| format!("{byte:02X}")).collect();
        println!("record {}", digits.concat());
    }
    for program in [a, b] {
        println!("--- {program}\n{}", String::from_utf8_lossy(&output(program, &small)?));
    }
    match keep {
        Some(name) => fs::write(name, &small).map_err(|e| format!("{name}: {e}")),
        None => Ok(()),
    }
}
