//! kartsodi: junction plans made of text, shown, checked, answered and drawn. Every answer is the proved library's.

mod args;
mod bits;
mod draw;
mod failure;
mod fault;
mod geometry;
mod help;
mod input;
mod markup;
mod paper;
mod sha256;
mod sheet;
mod streams;
mod text;
mod ties;
mod warnings;
mod words;

use args::{Asked, Command, Job};
use failure::Failure;
use input::Input;
use kartsodi::{records, Plan, VERSION};
use paper::{Answered, Paper};
use std::io::Write;
use std::process::ExitCode;
use words::counted;

fn main() -> ExitCode {
    let asked = args::parse(std::env::args_os().skip(1));
    let name = match &asked {
        Ok(Asked::Run(job)) => format!("kartsodi {}", job.command.name()),
        _ => "kartsodi".into(),
    };
    let done = asked.and_then(|asked| match asked {
        Asked::Help(command) => streams::write(None, help::help(command).as_bytes()),
        Asked::Version => streams::write(None, format!("kartsodi {VERSION}\n").as_bytes()),
        Asked::Run(job) => run(&job),
    });
    match done {
        Ok(()) => ExitCode::SUCCESS,
        Err(failure) => {
            for line in failure.lines() {
                // Where not even this can be written, the status still tells.
                let _ = writeln!(std::io::stderr(), "{name}: {line}");
            }
            ExitCode::from(failure.status())
        }
    }
}

fn run(job: &Job) -> Result<(), Failure> {
    if let Some(to) = job.output.as_deref().filter(|to| streams::is_source(to, &job.source)) {
        return Err(Failure::Use(format!("{} is what is read: -o names another file", to.display())));
    }
    match job.command {
        Command::Make => make(job),
        Command::Show => show(job),
        Command::Check => check(job),
        Command::Answer => answer(job),
        Command::Draw => write(job, draw::svg(&open(&read(job)?)?)),
        Command::Sheet => {
            let input = read(job)?;
            let title = job.title.clone().unwrap_or_else(|| job.source.title());
            write(job, sheet::html(&open(&input)?, &title))
        }
    }
}

fn write(job: &Job, bytes: impl AsRef<[u8]>) -> Result<(), Failure> {
    streams::write(job.output.as_deref(), bytes.as_ref())
}

fn read(job: &Job) -> Result<Input, Failure> {
    Input::read(&job.source, job.form)
}

/// The paper of a plan, or what is said of one that the library refuses.
fn open(input: &Input) -> Result<Paper, Failure> {
    Paper::new(input.file.clone()).map_err(|refusal| Failure::Refused(fault::told(input, refusal)))
}

fn make(job: &Job) -> Result<(), Failure> {
    if job.output.is_none() && streams::output_is_terminal() {
        return Err(Failure::Use("standard output is a terminal, and a plan is no text: -o PLAN writes a file".into()));
    }
    let input = Input::of_text(job.source.name(), &streams::read(&job.source)?)?;
    if !job.unchecked {
        Plan::new(&input.file).map_err(|refusal| Failure::Refused(fault::told(&input, refusal)))?;
    }
    write(job, &input.file)
}

fn show(job: &Job) -> Result<(), Failure> {
    let (name, file) = (job.source.name(), streams::read(&job.source)?);
    let records = records::read(&file).map_err(|error| {
        let hint = if file.contains(&0) { "" } else { " (it has no zero byte: is it a text, and no plan?)" };
        Failure::refused(format!("{name}, record {} (byte {}): {}{hint}", error.index + 1, error.offset, error.fault))
    })?;
    write(job, text::print(&records))
}

fn check(job: &Job) -> Result<(), Failure> {
    let input = read(job)?;
    let paper = open(&input)?;
    let counts = paper.plan.counts();
    let parts = [
        counted(counts.lanes, "lane"),
        counted(counts.points, "point"),
        counted(counts.links, "link"),
        counted(counts.sections, "section"),
        counted(counts.stations, "station"),
        counted(counts.places, "place"),
        counted(paper.answers.len(), "question"),
    ];
    let mut report = format!("{} is a plan (number 0): {}\n", input.name, parts.join(", "));
    let warnings = warnings::of(&paper);
    for warning in &warnings {
        let place = warning.spot.map_or(String::new(), |spot| format!(", {}", input.place(spot)));
        report += &format!("warning: {}{place}: {}\n", input.name, warning.words);
    }
    report += &format!("{}\n", counted(warnings.len(), "warning"));
    write(job, report)
}

fn answer(job: &Job) -> Result<(), Failure> {
    let input = read(job)?;
    match Paper::new(input.file.clone()) {
        Ok(paper) if job.bits => write(job, bits::paper(&paper)),
        Ok(paper) => write(job, answers(&input.name, &paper)),
        Err(refusal) => {
            if job.bits {
                write(job, bits::refused(refusal))?;
            }
            Err(Failure::Refused(fault::told(&input, refusal)))
        }
    }
}

/// Each question with its answer, in words.
fn answers(name: &str, paper: &Paper) -> String {
    let counts = paper.plan.counts();
    let parts =
        [counted(counts.lanes, "lane"), counted(counts.links, "link"), counted(paper.answers.len(), "question")];
    let mut page = format!("{name}: {}\n", parts.join(", "));
    for (number, answered) in (1..).zip(&paper.answers) {
        page += &format!("\n{number}. {}\n", words::question(answered));
        for line in words::answer(paper, answered) {
            page += &format!("   {line}\n");
        }
        if let Answered::Route { answer: Ok(route), .. } = answered {
            page += "   points:\n";
            for line in words::points(route) {
                page += &format!("     {line}\n");
            }
        }
    }
    page
}
