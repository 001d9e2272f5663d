//! Why a command did not do what was asked, and the status that the program ends with.

/// What is said on standard error, without the program's name before it.
#[derive(Debug, Clone, PartialEq)]
pub enum Failure {
    /// The input was refused, or could not be read, or the output not be written: status 1.
    Refused(Vec<String>),
    /// The command line is wrong: status 2.
    Use(String),
}

impl Failure {
    /// One line, refused.
    pub fn refused(line: impl Into<String>) -> Failure {
        Failure::Refused(vec![line.into()])
    }

    /// The lines to say.
    pub fn lines(&self) -> &[String] {
        match self {
            Failure::Refused(lines) => lines,
            Failure::Use(line) => std::slice::from_ref(line),
        }
    }

    /// The status to end with.
    pub fn status(&self) -> u8 {
        match self {
            Failure::Refused(_) => 1,
            Failure::Use(_) => 2,
        }
    }
}
