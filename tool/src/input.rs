//! A plan as it was given: as its file, or as its text. The library is always asked with the file's bytes.

use crate::args::{Form, Source};
use crate::failure::Failure;
use crate::streams;
use crate::text;
use kartsodi::records;

/// A plan file, and where its records stand in what was given.
pub struct Input {
    /// What was given, in words.
    pub name: String,
    /// The plan file's bytes.
    pub file: Vec<u8>,
    /// The line of each record, where a text was given.
    lines: Option<Vec<usize>>,
}

/// Which record of a file, and the byte that it begins at, both from 0 on.
#[derive(Debug, Clone, Copy, PartialEq, Eq)]
pub struct Spot {
    pub index: usize,
    pub offset: usize,
}

impl Input {
    /// Reads a plan or a text.
    pub fn read(source: &Source, form: Option<Form>) -> Result<Input, Failure> {
        let (name, bytes) = (source.name(), streams::read(source)?);
        match form.unwrap_or_else(|| form_of(source, &bytes)) {
            Form::Plan => Ok(Input { name, file: bytes, lines: None }),
            Form::Text => Input::of_text(name, &bytes),
        }
    }

    /// The plan of a text.
    pub fn of_text(name: String, bytes: &[u8]) -> Result<Input, Failure> {
        let text = decoded(&name, bytes)?;
        let lines = text::parse(text).map_err(|faults| told(&name, &faults))?;
        let (numbers, records): (Vec<usize>, Vec<_>) = lines.into_iter().map(|line| (line.number, line.record)).unzip();
        let file = records::write(&records)
            .map_err(|error| Failure::refused(format!("{name}, line {}: {}", numbers[error.index], error.fault)))?;
        Ok(Input { name, file, lines: Some(numbers) })
    }

    /// Whether it was taken for a plan, and is more likely a text.
    pub fn looks_like_text(&self) -> bool {
        self.lines.is_none() && !self.file.is_empty() && !self.file.contains(&0)
    }

    /// Where a record stands, in words: its line, or its number and its byte.
    pub fn place(&self, spot: Spot) -> String {
        match self.lines.as_ref().and_then(|lines| lines.get(spot.index)) {
            Some(line) => format!("line {line}"),
            None => format!("record {} (byte {})", spot.index + 1, spot.offset),
        }
    }
}

/// What a file is, by its name, or by its bytes: every plan that is not empty has zero bytes, in the length of its first record, and no text has.
fn form_of(source: &Source, bytes: &[u8]) -> Form {
    let ending = match source {
        Source::File(path) => path.extension().and_then(|ending| ending.to_str()),
        Source::Input => None,
    };
    match ending {
        Some("txt") => Form::Text,
        Some("plan") => Form::Plan,
        _ if bytes.contains(&0) && !is_utf_16(bytes) => Form::Plan,
        _ => Form::Text,
    }
}

fn is_utf_16(bytes: &[u8]) -> bool {
    bytes.starts_with(&[0xFF, 0xFE]) || bytes.starts_with(&[0xFE, 0xFF])
}

/// The text of bytes, without a mark of their order.
fn decoded<'a>(name: &str, bytes: &'a [u8]) -> Result<&'a str, Failure> {
    const SAVE: &str = "save the text as UTF-8";
    if is_utf_16(bytes) {
        return Err(Failure::refused(format!("{name} is UTF-16: {SAVE}")));
    }
    if let Some(at) = bytes.iter().position(|byte| *byte == 0) {
        let line = line_of(bytes, at);
        return Err(Failure::refused(format!(
            "{name}, line {line}: a zero byte stands in no text: is this a plan, or UTF-16?"
        )));
    }
    let text = std::str::from_utf8(bytes).map_err(|error| {
        let (at, line) = (error.valid_up_to(), line_of(bytes, error.valid_up_to()));
        Failure::refused(format!("{name}, line {line}: the byte {:02X} is not UTF-8: {SAVE}", bytes[at]))
    })?;
    Ok(text.strip_prefix('\u{FEFF}').unwrap_or(text))
}

/// The line that a byte stands on.
fn line_of(bytes: &[u8], at: usize) -> usize {
    1 + bytes[..at].iter().filter(|byte| **byte == b'\n').count()
}

/// What is said of a text with faults.
fn told(name: &str, faults: &[text::Fault]) -> Failure {
    const MOST: usize = 20;
    let mut lines: Vec<String> = faults.iter().take(MOST).map(|fault| format!("{name}, {fault}")).collect();
    if faults.len() > MOST {
        lines.push(format!("{name}: and {} more lines have faults", faults.len() - MOST));
    }
    Failure::Refused(lines)
}

#[cfg(test)]
mod tests {
    use super::{form_of, Input, Spot};
    use crate::args::{Form, Source};

    fn of(text: &[u8]) -> Result<Input, String> {
        Input::of_text("my.txt".into(), text).map_err(|failure| failure.lines().join("\n"))
    }

    #[test]
    fn plans_and_texts_are_told_apart() {
        let named = |name: &str, bytes| form_of(&Source::File(name.into()), bytes);
        assert_eq!((named("a.txt", b"\0"), named("a.plan", b"lane")), (Form::Text, Form::Plan));
        assert_eq!((named("a", b"lane 1"), named("a", b"\x05\0\0\0\x02\0")), (Form::Text, Form::Plan));
        assert_eq!(form_of(&Source::Input, b"\xFF\xFEl\0a\0"), Form::Text);
    }

    #[test]
    fn what_is_no_text_is_told_with_its_line() {
        assert_eq!(
            of(b"# caf\xE9\n").err().unwrap(),
            "my.txt, line 1: the byte E9 is not UTF-8: save the text as UTF-8"
        );
        assert_eq!(of(b"\xFF\xFEl\0").err().unwrap(), "my.txt is UTF-16: save the text as UTF-8");
        assert!(of(b"\nlane\0").err().unwrap().starts_with("my.txt, line 2: a zero byte"));
        assert!(of("\u{FEFF}link 1 successor 2\r\n".as_bytes()).is_ok());
    }

    #[test]
    fn records_stand_on_their_lines() {
        let input = of(b"# first\n\nlink 1 successor 2\n\nlink 2 successor 3").unwrap();
        assert_eq!(input.place(Spot { index: 1, offset: 11 }), "line 5");
    }

    #[test]
    fn more_points_than_a_record_holds_are_told() {
        let lane = format!("\nlane 1 driving forward{}", " 0 0 0".repeat(65536));
        assert_eq!(of(lane.as_bytes()).err().unwrap(), "my.txt, line 2: 65536 points or stations are more than 65,535");
    }
}
