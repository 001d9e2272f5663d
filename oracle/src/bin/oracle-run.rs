//! What `plan-run` must print for a plan, and answers to the caller's queries.

use std::io::{self, BufRead, BufWriter, Read, Write};
use std::process::ExitCode;
use std::{env, fs};

use kartsodi_oracle::answer::Loaded;
use kartsodi_oracle::{print, query};

const USAGE: &str = "\
oracle-run [PLAN]                  print what plan-run must print for the plan (standard input without a name)
oracle-run --query QUERIES [PLAN]  answer the queries in a file, one a line
oracle-run --batch                 read lines `plan HEX`, `run` and queries; answer each
oracle-run --taken                 print what was cut out of the source, and every change";

fn main() -> ExitCode {
    let arguments: Vec<String> = env::args().skip(1).collect();
    let words: Vec<&str> = arguments.iter().map(String::as_str).collect();
    let done = match words[..] {
        ["--taken"] => put(kartsodi_oracle::TAKEN),
        ["--batch"] => batch(),
        ["--query", queries] => answer_file(queries, None),
        ["--query", queries, plan] => answer_file(queries, Some(plan)),
        [] => plan_bytes(None).and_then(|file| put(&print::run(&file))),
        [plan] if !plan.starts_with('-') => plan_bytes(Some(plan)).and_then(|file| put(&print::run(&file))),
        _ => Err(USAGE.to_string()),
    };
    match done {
        Ok(()) => ExitCode::SUCCESS,
        Err(why) => {
            eprintln!("{why}");
            ExitCode::from(2)
        }
    }
}

fn put(text: &str) -> Result<(), String> {
    io::stdout().write_all(text.as_bytes()).map_err(|e| e.to_string())
}

fn plan_bytes(name: Option<&str>) -> Result<Vec<u8>, String> {
    match name {
        Some(name) => fs::read(name).map_err(|e| format!("{name}: {e}")),
        None => {
            let mut file = Vec::new();
            io::stdin().read_to_end(&mut file).map_err(|e| e.to_string())?;
            Ok(file)
        }
    }
}

fn answer_file(queries: &str, plan: Option<&str>) -> Result<(), String> {
    let lines = fs::read_to_string(queries).map_err(|e| format!("{queries}: {e}"))?;
    let loaded = Loaded::new(&plan_bytes(plan)?);
    let mut text = String::new();
    for line in lines.lines() {
        print::answer(&mut text, &loaded.answer(&query::parse(line)?));
    }
    put(&text)
}

/// One process for many plans: each line is a plan, `run`, or a query to the plan before it.
fn batch() -> Result<(), String> {
    let mut file = Vec::new();
    let mut loaded = Loaded::new(&file);
    let mut out = BufWriter::new(io::stdout().lock());
    let mut text = String::new();
    for line in io::stdin().lock().lines() {
        let line = line.map_err(|e| e.to_string())?;
        text.clear();
        if let Some(digits) = line.strip_prefix("plan") {
            file = hex(digits.trim())?;
            loaded = Loaded::new(&file);
            print::plan_line(&mut text, &loaded);
        } else if line == "run" {
            text = print::run(&file);
        } else {
            print::answer(&mut text, &loaded.answer(&query::parse(&line)?));
        }
        out.write_all(text.as_bytes()).map_err(|e| e.to_string())?;
    }
    out.flush().map_err(|e| e.to_string())
}

fn hex(digits: &str) -> Result<Vec<u8>, String> {
    let digit = |byte: u8| char::from(byte).to_digit(16).map(|d| d as u8);
    let byte = |pair: &[u8]| match *pair {
        [high, low] => Some(digit(high)? * 16 + digit(low)?),
        _ => None,
    };
    let bytes: Option<Vec<u8>> = digits.as_bytes().chunks(2).map(byte).collect();
    bytes.ok_or_else(|| "a plan is an even number of hexadecimal digits".to_string())
}
