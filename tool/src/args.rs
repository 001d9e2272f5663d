//! The command line.

use crate::failure::Failure;
use crate::help::help;
use std::ffi::{OsStr, OsString};
use std::os::unix::ffi::OsStrExt;
use std::path::PathBuf;

/// What is asked for.
#[derive(Debug, PartialEq)]
pub enum Asked {
    Help(Option<Command>),
    Version,
    Run(Job),
}

/// A command with its options.
#[derive(Debug, PartialEq)]
pub struct Job {
    pub command: Command,
    pub source: Source,
    /// Where to write; standard output where none is named.
    pub output: Option<PathBuf>,
    /// What the input is, where the command line says it.
    pub form: Option<Form>,
    pub bits: bool,
    pub unchecked: bool,
    pub title: Option<String>,
}

#[derive(Debug, Clone, PartialEq)]
pub enum Source {
    Input,
    File(PathBuf),
}

impl Source {
    /// Its name in words.
    pub fn name(&self) -> String {
        match self {
            Source::Input => "standard input".into(),
            Source::File(path) => path.display().to_string(),
        }
    }

    /// The name that its page has where no title is given: of a file, without the folders that it lies in.
    pub fn title(&self) -> String {
        match self {
            Source::File(path) => path.file_name().map_or_else(|| self.name(), |name| name.to_string_lossy().into()),
            Source::Input => "Junction plan".into(),
        }
    }
}

#[derive(Debug, Clone, Copy, PartialEq, Eq)]
pub enum Form {
    Text,
    Plan,
}

#[derive(Debug, Clone, Copy, PartialEq, Eq)]
pub enum Command {
    Make,
    Show,
    Check,
    Answer,
    Draw,
    Sheet,
}

const EITHER: &[&str] = &["--text", "--plan"];
/// The options that take a value.
const VALUED: &[&str] = &["--output", "--title"];

impl Command {
    pub const ALL: [Command; 6] =
        [Command::Make, Command::Show, Command::Check, Command::Answer, Command::Draw, Command::Sheet];

    pub fn name(self) -> &'static str {
        match self {
            Command::Make => "make",
            Command::Show => "show",
            Command::Check => "check",
            Command::Answer => "answer",
            Command::Draw => "draw",
            Command::Sheet => "sheet",
        }
    }

    /// Whether it takes an option.
    fn takes(self, option: &str) -> bool {
        let own: &[&str] = match self {
            Command::Make => &["--output", "--unchecked"],
            Command::Show | Command::Draw => &["--output"],
            Command::Check => &[],
            Command::Answer => &["--output", "--bits"],
            Command::Sheet => &["--output", "--title"],
        };
        own.contains(&option) || (EITHER.contains(&option) && !matches!(self, Command::Make | Command::Show))
    }
}

/// Reads the command line, without the program's own name.
pub fn parse(words: impl IntoIterator<Item = OsString>) -> Result<Asked, Failure> {
    let mut words = words.into_iter();
    let first =
        words.next().ok_or_else(|| Failure::Use(format!("no command was given\n\n{}", help(None).trim_end())))?;
    match first.to_str() {
        Some("--help" | "-h" | "help") => {
            return words.next().map_or(Ok(Asked::Help(None)), |of| Ok(Asked::Help(Some(command(&of)?))))
        }
        Some("--version" | "-V") => return Ok(Asked::Version),
        _ => {}
    }
    parse_job(command(&first)?, words)
}

/// The command of this name.
fn command(name: &OsStr) -> Result<Command, Failure> {
    let unknown = || format!("there is no command '{}': kartsodi --help lists them", name.to_string_lossy());
    Command::ALL.into_iter().find(|command| name == command.name()).ok_or_else(|| Failure::Use(unknown()))
}

/// The options and the file of a command.
fn parse_job(command: Command, mut words: impl Iterator<Item = OsString>) -> Result<Asked, Failure> {
    let mut job =
        Job { command, source: Source::Input, output: None, form: None, bits: false, unchecked: false, title: None };
    let (mut named, mut only_names) = (false, false);
    while let Some(word) = words.next() {
        let is_option = !only_names && word != "-" && word.as_encoded_bytes().starts_with(b"-");
        match option(&word).filter(|_| is_option) {
            Some(("--help", None)) => return Ok(Asked::Help(Some(command))),
            Some(("--version", None)) => return Ok(Asked::Version),
            Some(("--", None)) => only_names = true,
            Some((option, value)) if command.takes(option) => job.set(option, value.map(Into::into), &mut words)?,
            _ if is_option => return Err(unknown_option(command, &word)),
            _ if named => {
                return Err(Failure::Use(format!("one FILE is enough: '{}' is one more", word.to_string_lossy())))
            }
            _ if word.is_empty() => return Err(Failure::Use("the name of FILE is empty (- is standard input)".into())),
            _ => {
                named = true;
                job.source = if word == "-" && !only_names { Source::Input } else { Source::File(word.into()) };
            }
        }
    }
    if !named && crate::streams::input_is_terminal() {
        return Err(Failure::Use("no FILE was named, and nothing is piped in (- reads what is typed)".into()));
    }
    Ok(Asked::Run(job))
}

/// An option by its long name, with the value that is written to it: `--output=FILE`, `-oFILE`.
fn option(word: &OsStr) -> Option<(&str, Option<&OsStr>)> {
    let word = word.as_bytes();
    let equals = word.iter().position(|byte| *byte == b'=').filter(|_| word.starts_with(b"--"));
    let (name, value) = match equals {
        Some(at) => (&word[..at], Some(&word[at + 1..])),
        None if word.starts_with(b"-o") && word.len() > 2 => (&word[..2], Some(&word[2..])),
        None => (word, None),
    };
    let name = match std::str::from_utf8(name).ok()? {
        "-h" => "--help",
        "-V" => "--version",
        "-o" => "--output",
        long => long,
    };
    Some((name, value.map(OsStr::from_bytes)))
}

fn unknown_option(command: Command, word: &OsStr) -> Failure {
    let (name, word) = (command.name(), word.to_string_lossy());
    Failure::Use(format!("{name} has no option '{word}': kartsodi {name} --help lists them"))
}

impl Job {
    /// Takes an option, whose value is written to it or is the next word.
    fn set(
        &mut self,
        option: &str,
        written: Option<OsString>,
        words: &mut impl Iterator<Item = OsString>,
    ) -> Result<(), Failure> {
        if written.is_some() && !VALUED.contains(&option) {
            return Err(Failure::Use(format!("{option} takes no value")));
        }
        let lacks = |what: &str| Failure::Use(format!("{option} needs {what}"));
        let next = || written.or_else(|| words.next());
        let value = |what: &str| next().filter(|word| !word.is_empty()).ok_or_else(|| lacks(what));
        match option {
            "--output" => {
                self.output = Some(value("a file to write")?.into()).filter(|name: &PathBuf| name.as_os_str() != "-")
            }
            "--title" => self.title = Some(value("a title")?.to_string_lossy().into_owned()),
            "--bits" => self.bits = true,
            "--unchecked" => self.unchecked = true,
            form => {
                let form = if form == "--text" { Form::Text } else { Form::Plan };
                if self.form.is_some_and(|other| other != form) {
                    return Err(Failure::Use("--text and --plan exclude each other".into()));
                }
                self.form = Some(form);
            }
        }
        Ok(())
    }
}

#[cfg(test)]
mod tests {
    use super::{parse, Asked, Command, Form, Source};
    use crate::failure::Failure;

    fn of(line: &str) -> Result<Asked, Failure> {
        parse(line.split_whitespace().map(Into::into))
    }

    #[test]
    fn options_are_read() {
        let Ok(Asked::Run(job)) = of("answer --bits my.plan --text -o out") else { panic!("no job") };
        assert_eq!((job.command, job.bits, job.form), (Command::Answer, true, Some(Form::Text)));
        assert_eq!((job.source, job.output), (Source::File("my.plan".into()), Some("out".into())));
        let Ok(Asked::Run(job)) = of("make -- -o") else { panic!("no job") };
        assert_eq!(job.source, Source::File("-o".into()));
        assert!(matches!(of("show a -o -"), Ok(Asked::Run(job)) if job.output.is_none()));
        assert!(matches!(of("show -"), Ok(Asked::Run(job)) if job.source == Source::Input));
    }

    #[test]
    fn values_are_written_to_their_options() {
        for line in ["draw a -o b=c", "draw a -ob=c", "draw a --output b=c", "draw a --output=b=c", "draw -ob=c a"] {
            let Ok(Asked::Run(job)) = of(line) else { panic!("{line}") };
            assert_eq!((job.source, job.output), (Source::File("a".into()), Some("b=c".into())), "{line}");
        }
        let words = ["sheet", "--title=two words", "-"];
        assert!(matches!(parse(words.map(Into::into)), Ok(Asked::Run(job)) if job.title == Some("two words".into())));
        assert!(matches!(of("show a -o-"), Ok(Asked::Run(job)) if job.output.is_none()));
        assert!(
            matches!(of("show -- --output=b"), Ok(Asked::Run(job)) if job.source == Source::File("--output=b".into()))
        );
        assert!(of("answer --bits=yes x") == Err(Failure::Use("--bits takes no value".into())));
    }

    #[test]
    fn help_and_version_are_everywhere() {
        assert_eq!((of("--help"), of("-V")), (Ok(Asked::Help(None)), Ok(Asked::Version)));
        for command in Command::ALL {
            let name = command.name();
            assert_eq!(of(&format!("{name} my.plan --help")), Ok(Asked::Help(Some(command))));
            assert_eq!(of(&format!("{name} --version")), Ok(Asked::Version));
            assert_eq!(of(&format!("help {name}")), Ok(Asked::Help(Some(command))));
        }
    }

    #[test]
    fn wrong_use_is_told() {
        for line in [
            "",
            "maek x",
            "make --bits x",
            "make x y",
            "show --text x",
            "answer -o",
            "answer --output= x",
            "check --output=y x",
            "check -oy x",
            "make --help=y x",
            "make --=y x",
            "answer --text --plan x",
            "-x",
            "help maek",
        ] {
            assert!(matches!(of(line), Err(Failure::Use(_))), "{line}");
        }
        for words in [&["make", ""][..], &["make", "-o", "", "x"], &["sheet", "--title", "", "x"]] {
            assert!(matches!(parse(words.iter().map(Into::into)), Err(Failure::Use(_))), "{words:?}");
        }
    }
}
