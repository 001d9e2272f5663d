//! Runs every wrong oracle over generated plans until one tells it apart from the oracle.

mod switch;

macro_rules! switched {
    ($name:ident, $file:literal) => {
        // Taken whole, with switches between braces; this program calls only some of it.
        #[allow(dead_code, unused_parens, unused_braces, unused_imports, clippy::all)]
        mod $name {
            include!(concat!(env!("OUT_DIR"), "/wrong/", $file));
        }
    };
}

switched!(coords, "coords.rs");
switched!(geometry, "geometry.rs");
switched!(grid, "grid.rs");
switched!(network, "network.rs");
switched!(road, "road.rs");
switched!(route, "route.rs");
switched!(advance, "advance.rs");
switched!(zero, "zero.rs");
switched!(reader, "reader.rs");
switched!(bake, "bake.rs");
switched!(answer, "answer.rs");
switched!(print, "print.rs");
switched!(table, "table.rs");

use std::env;
use std::io::{self, Read};
use std::panic::{catch_unwind, set_hook, AssertUnwindSafe};
use std::process::ExitCode;

use kartsodi_oracle as oracle;
use oracle::gen::{family_case, fixed_cases, random_case, Case};
use table::TABLE;

const USAGE: &str = "\
wrong-oracles [--seed S] [--count N] [--only NUMBER] [--quick yes] [--family NAME]
wrong-oracles --run NUMBER
  --count    random plans for each wrong oracle, past the cases without a seed (3000)
  --only     one of them
  --family   random plans of one family
  --quick    stop at the first plan that tells one apart, and try those
             that nothing can tell apart on a tenth of the plans
  --run      be one of them: read a plan on standard input and print its answers";

struct Options {
    seed: u64,
    count: u64,
    only: Option<usize>,
    quick: bool,
    family: Option<String>,
    run: Option<usize>,
}

/// A plan and what the oracle answers, to the caller's queries too.
struct Trial {
    case: Case,
    answers: String,
}

fn main() -> ExitCode {
    match parse() {
        Ok(Options { run: Some(number), .. }) => answer_as(number),
        Ok(options) => try_all(&options),
        Err(why) => {
            eprintln!("{why}");
            ExitCode::from(2)
        }
    }
}

fn parse() -> Result<Options, String> {
    let mut options = Options { seed: 1, count: 3000, only: None, quick: false, family: None, run: None };
    let mut words = env::args().skip(1);
    while let Some(word) = words.next() {
        let value = words.next().ok_or(USAGE)?;
        let number = || value.parse::<u64>().map_err(|_| USAGE.to_string());
        match word.as_str() {
            "--seed" => options.seed = number()?,
            "--count" => options.count = number()?,
            "--only" => options.only = Some(number()? as usize),
            "--run" => options.run = Some(number()? as usize),
            "--family" => options.family = Some(value),
            "--quick" => options.quick = value == "yes",
            _ => return Err(USAGE.to_string()),
        }
    }
    Ok(options)
}

/// Answers as one wrong oracle does.
fn answer_as(number: usize) -> ExitCode {
    let mut file = Vec::new();
    if io::stdin().read_to_end(&mut file).is_err() {
        return ExitCode::from(2);
    }
    switch::choose(number);
    print!("{}", print::run(&file));
    ExitCode::SUCCESS
}

fn try_all(options: &Options) -> ExitCode {
    // A wrong oracle may fail; that tells it apart, and its message says nothing.
    set_hook(Box::new(|_| {}));
    let fixed: Vec<Trial> = fixed_cases().into_iter().map(trial).collect();
    let draw = |i: u64| match &options.family {
        Some(family) => family_case(family, options.seed, i),
        None => Some(random_case(options.seed, i)),
    };
    let random: Vec<Trial> = (0..options.count).filter_map(draw).map(trial).collect();
    let (mut passed, mut failed) = (0, 0);
    let mut judge = |good: bool, line: String| {
        println!("{}{line}", if good { "" } else { "FAILED " });
        *(if good { &mut passed } else { &mut failed }) += 1;
    };
    let differs = fixed.iter().chain(&random).find(|trial| told_apart(0, trial));
    judge(differs.is_none(), "0 no change".to_string());
    for (i, (file, within, old, new, why)) in TABLE.iter().enumerate() {
        let number = i + 1;
        if options.only.is_some_and(|only| only != number) {
            continue;
        }
        let known = !why.is_empty();
        let tried = if options.quick && known { random.len() / 10 } else { random.len() };
        let by_fixed = fixed.iter().find(|trial| told_apart(number, trial));
        let enough = options.quick && by_fixed.is_some();
        let by_random = random.iter().take(if enough { 0 } else { tried }).find(|trial| told_apart(number, trial));
        let name = |trial: Option<&Trial>| trial.map_or("-", |trial| &trial.case.name).to_string();
        let told = if known { why.to_string() } else { format!("{} | {}", name(by_fixed), name(by_random)) };
        let line = format!("{number} | {file} | {within} | {old} | {new} | {told}");
        judge((by_fixed.is_some() || by_random.is_some()) != known, line.replace('\n', " "));
    }
    println!("{passed} passed, {failed} failed");
    ExitCode::from(u8::from(failed > 0))
}

fn trial(case: Case) -> Trial {
    let mut answers = oracle::print::run(&case.file);
    let loaded = oracle::answer::Loaded::new(&case.file);
    for query in &case.queries {
        oracle::print::answer(&mut answers, &loaded.answer(query));
    }
    Trial { case, answers }
}

/// Whether the wrong oracle answers otherwise, fails, or does not end.
fn told_apart(number: usize, trial: &Trial) -> bool {
    switch::choose(number);
    let answers = catch_unwind(AssertUnwindSafe(|| {
        let mut answers = print::run(&trial.case.file);
        let loaded = answer::Loaded::new(&trial.case.file);
        for query in &trial.case.queries {
            print::answer(&mut answers, &loaded.answer(&own(query)));
        }
        answers
    }));
    answers.map_or(true, |answers| answers != trial.answers)
}

/// The query in the switched tree's type.
fn own(query: &oracle::reader::Query) -> reader::Query {
    use oracle::reader::Query as Theirs;
    use reader::Query as Own;
    match *query {
        Theirs::Route { from, to } => Own::Route { from, to },
        Theirs::Advance { lane, s, offset, distance } => Own::Advance { lane, s, offset, distance },
        Theirs::Beside { lane, s, side } => Own::Beside { lane, s, side },
        Theirs::Nearest { point } => Own::Nearest { point },
        Theirs::Pose { lane, s } => Own::Pose { lane, s },
    }
}
