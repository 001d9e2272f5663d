//! What `--help` prints, in lines that fit a terminal of 80 columns.

use crate::args::Command;
use crate::text;

/// The help of a command, or of the whole program.
pub fn help(command: Option<Command>) -> String {
    let parts: &[&str] = match command {
        None => &[PROGRAM, STATUS],
        Some(Command::Make) => &[MAKE, text::FORM, MADE, OUTPUT, UNCHECKED, ALWAYS, STATUS],
        Some(Command::Show) => &[SHOW, OUTPUT, ALWAYS, STATUS],
        Some(Command::Check) => &[CHECK, EITHER, ALWAYS, STATUS],
        Some(Command::Answer) => &[ANSWER, BITS, OUTPUT, EITHER, ALWAYS, STATUS],
        Some(Command::Draw) => &[DRAW, OUTPUT, EITHER, ALWAYS, STATUS],
        Some(Command::Sheet) => &[SHEET, TITLE, OUTPUT, EITHER, ALWAYS, STATUS],
    };
    parts.concat()
}

const PROGRAM: &str = "\
kartsodi COMMAND [OPTION ..] [FILE]

Junction plans, with every answer the proved library's.

  make     a plan of its text
  show     the text of a plan
  check    whether a plan is accepted, else the record that is wrong; and what
           looks like a mistake in the drawing
  answer   each question of a plan with its answer, in metres and in words
  draw     a plan as a picture (SVG)
  sheet    a plan as a page to print (HTML): drawing, questions, answers

kartsodi COMMAND --help says more of each.
";

const MAKE: &str = "\
kartsodi make [-o PLAN] [--unchecked] [TEXT]

Writes the plan of a text, a record a line:

";

const MADE: &str = "
All of the text is read before anything is written. Each line with a fault is
named (of more than 20, the first 20), with the word and what was expected in
its place. A plan that the library refuses is not written; what is said then is
what `kartsodi check` says. A plan is no text: it goes to a file or into a pipe,
and not to a terminal. What comes after a pipe reads a plan without lanes where
nothing was written; -o leaves no such doubt, nor does `kartsodi answer --bits
TEXT`, which needs no pipe.

";

const SHOW: &str = "\
kartsodi show [-o TEXT] [PLAN]

Prints the text of a plan, a record a line, of which `kartsodi make` makes the
same bytes. Floats have the fewest digits that read back to the same bits; a NaN
is `nan`, or `bits:` and its bits where they are others than 7FC00000 or
7FF8000000000000. A plan that the library refuses is shown too, as long as its
records can be read.

";

const CHECK: &str = "\
kartsodi check [--text|--plan] [FILE]

Says whether the library accepts a plan. Of one that is refused: the number (2
to 8), the record with its line, or its place in the file, what is wrong and
what to do. Of one that is accepted: its counts, and warnings of what looks like
a mistake in the drawing, which do not change the status.

";

const ANSWER: &str = "\
kartsodi answer [--bits] [-o FILE] [--text|--plan] [FILE]

Answers the questions of a plan in file order, in metres to the millimetre and
in words; of a route also how far its ends are from the lanes that they were
taken to. A refused question is answered with its number in words; the status is
1 only where the plan is refused.

";

const DRAW: &str = "\
kartsodi draw [-o SVG] [--text|--plan] [FILE]

Draws a plan as an SVG picture: its lanes by type with numbers and arrows, stop
lines at lane ends, routes and positions.

";

const SHEET: &str = "\
kartsodi sheet [-o HTML] [--title WORDS] [--text|--plan] [FILE]

Writes a page to print: the drawing, the questions, the answers, refusals in
words, the SHA-256 of the plan, the version of the library.

";

const BITS: &str = "      --bits         prints what `plan-run` prints, to the byte, floats as bits,
                     of a refused plan too, though with status 1
";

const TITLE: &str = "      --title WORDS  the page's title, in place of the file's name
";

const OUTPUT: &str = "  -o, --output FILE  writes there in place of standard output, once all is well
";

const UNCHECKED: &str = "      --unchecked    writes the plan whether the library accepts it or not
";

const EITHER: &str = "      --text         FILE is the text of a plan
      --plan         FILE is a plan. Without either, a name that ends with .txt
                     is a text and one that ends with .plan is a plan; of other
                     names, a file with a zero byte is a plan, which every plan
                     has that is not empty, and one without is a text
";

const ALWAYS: &str = "  -h, --help         this
  -V, --version      the version
";

const STATUS: &str = "
Without FILE, or with -, standard input is read. Status 0: done; 1: refused, or
a file cannot be read or written; 2: wrong use.
";

#[cfg(test)]
mod tests {
    use super::help;
    use crate::args::Command;

    #[test]
    fn every_command_has_help_that_fits() {
        for command in Command::ALL {
            let name = command.name();
            assert!(help(Some(command)).starts_with(&format!("kartsodi {name} ")));
            assert!(help(None).contains(&format!("\n  {name} ")));
        }
        for command in Command::ALL.into_iter().map(Some).chain([None]) {
            assert!(help(command).lines().all(|line| line.chars().count() <= 80), "{}", help(command));
        }
    }
}
