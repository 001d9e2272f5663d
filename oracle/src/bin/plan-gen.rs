//! Writes generated plans: as files, or as lines for `oracle-run --batch`.

use std::fmt::Write as _;
use std::io::{self, BufWriter, Write};
use std::path::Path;
use std::process::ExitCode;
use std::{env, fs};

use kartsodi_oracle::answer::Loaded;
use kartsodi_oracle::gen::{family_case, fixed_cases, list, plans, random_case, Case, FAMILIES};
use kartsodi_oracle::{print, query};

const USAGE: &str = "\
plan-gen [--seed S] [--count N] [--family NAME | --random | --fixed] (--out FOLDER | --batch QUERIES)
  --seed     which random plans (1)
  --count    how many plans (1000)
  --family   undamaged plans of one family; --random: random plans only; --fixed: the cases without a seed
  --out      write FOLDER/NAME.plan
  --batch    print lines for `oracle-run --batch`, with up to so many caller's queries for each plan
plan-gen --families
plan-gen --list FOLDER  write the fixed list: NAME.plan with what plan-run prints in NAME.txt, and where the caller
                        has queries these in NAME.query with the answers in NAME.answer";

struct Options {
    seed: u64,
    count: usize,
    which: Which,
    out: Option<String>,
    batch: Option<usize>,
}

enum Which {
    All,
    Random,
    Fixed,
    Family(String),
}

fn main() -> ExitCode {
    match run() {
        Ok(()) => ExitCode::SUCCESS,
        Err(why) => {
            eprintln!("{why}");
            ExitCode::from(2)
        }
    }
}

fn run() -> Result<(), String> {
    let arguments: Vec<String> = env::args().skip(1).collect();
    if arguments == ["--families"] {
        FAMILIES.iter().for_each(|(name, _)| println!("{name}"));
        return Ok(());
    }
    if let [list, folder] = &arguments[..] {
        if list == "--list" {
            return write_list(Path::new(folder));
        }
    }
    let options = parse(&arguments)?;
    match (&options.out, options.batch) {
        (Some(folder), None) => write_files(Path::new(folder), cases(&options)?),
        (None, Some(count)) => write_lines(count, cases(&options)?),
        _ => Err(USAGE.to_string()),
    }
}

fn parse(arguments: &[String]) -> Result<Options, String> {
    let mut options = Options { seed: 1, count: 1000, which: Which::All, out: None, batch: None };
    let mut words = arguments.iter();
    while let Some(word) = words.next() {
        let mut value = || words.next().ok_or_else(|| USAGE.to_string());
        let number = |word: &String| word.parse::<u64>().map_err(|_| format!("`{word}` is no number"));
        match word.as_str() {
            "--seed" => options.seed = number(value()?)?,
            "--count" => options.count = number(value()?)? as usize,
            "--family" => options.which = Which::Family(value()?.clone()),
            "--random" => options.which = Which::Random,
            "--fixed" => options.which = Which::Fixed,
            "--out" => options.out = Some(value()?.clone()),
            "--batch" => options.batch = Some(number(value()?)? as usize),
            _ => return Err(USAGE.to_string()),
        }
    }
    Ok(options)
}

fn cases(options: &Options) -> Result<Box<dyn Iterator<Item = Case>>, String> {
    let (seed, count) = (options.seed, options.count);
    Ok(match &options.which {
        Which::All => Box::new(plans(seed, count)),
        Which::Random => Box::new((0..count as u64).map(move |index| random_case(seed, index))),
        Which::Fixed => Box::new(fixed_cases().into_iter().take(count)),
        Which::Family(name) => {
            family_case(name, seed, 0).ok_or_else(|| format!("no family `{name}`"))?;
            let name = name.clone();
            Box::new((0..count as u64).filter_map(move |index| family_case(&name, seed, index)))
        }
    })
}

fn write_files(folder: &Path, cases: impl Iterator<Item = Case>) -> Result<(), String> {
    fs::create_dir_all(folder).map_err(|e| e.to_string())?;
    for case in cases {
        fs::write(folder.join(format!("{}.plan", case.name)), &case.file).map_err(|e| e.to_string())?;
    }
    Ok(())
}

/// Boundary cases are about the file, so their queries are not kept.
fn write_list(folder: &Path) -> Result<(), String> {
    fs::create_dir_all(folder).map_err(|e| e.to_string())?;
    let write = |name: String, text: &[u8]| fs::write(folder.join(name), text).map_err(|e| e.to_string());
    for case in list::fixed_list() {
        let name = &case.name;
        write(format!("{name}.plan"), &case.file)?;
        write(format!("{name}.txt"), print::run(&case.file).as_bytes())?;
        if case.queries.is_empty() || name.starts_with("bounds-") {
            continue;
        }
        let loaded = Loaded::new(&case.file);
        let (mut asked, mut answers) = (String::new(), String::new());
        for query in &case.queries {
            asked += &query::to_line(query);
            asked.push('\n');
            print::answer(&mut answers, &loaded.answer(query));
        }
        write(format!("{name}.query"), asked.as_bytes())?;
        write(format!("{name}.answer"), answers.as_bytes())?;
    }
    Ok(())
}

fn write_lines(count: usize, cases: impl Iterator<Item = Case>) -> Result<(), String> {
    let mut out = BufWriter::new(io::stdout().lock());
    for case in cases {
        let mut lines = String::from("plan ");
        case.file.iter().for_each(|byte| write!(lines, "{byte:02x}").expect("a string takes every text"));
        lines += "\nrun\n";
        for asked in case.queries.iter().take(count) {
            lines += &query::to_line(asked);
            lines.push('\n');
        }
        out.write_all(lines.as_bytes()).map_err(|e| e.to_string())?;
    }
    out.flush().map_err(|e| e.to_string())
}
