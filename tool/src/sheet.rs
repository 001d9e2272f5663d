//! `kartsodi sheet`: a plan with its questions and answers as a page to print. The page is HTML and well-formed XML, and stands alone: it has no
//! script and reads nothing from elsewhere. The same plan and title give the same bytes.

use crate::draw::{Drawing, Entry, Part, Rect, FONTS, SIGN};
use crate::markup::{escaped, number};
use crate::paper::{Answered, Paper};
use crate::sha256::sha256;
use crate::words;
use kartsodi::VERSION;

/// The page as an HTML document: the drawing, the questions, the answers, refusals in words, the SHA-256 of the plan file, the library's version.
/// `title` is the name of the file, or the like.
pub fn html(paper: &Paper, title: &str) -> String {
    let title = escaped(title);
    let drawing = Drawing::new(paper);
    let plan = drawing.as_ref().map_or("<p>The plan has no lanes.</p>\n".into(), plan);
    let questions: String = (0..paper.answers.len()).map(|i| question(paper, drawing.as_ref(), i)).collect();
    let questions = if questions.is_empty() { "<p>The plan asks nothing.</p>\n".into() } else { questions };
    format!(
        "<!DOCTYPE html>\n<html xmlns=\"http://www.w3.org/1999/xhtml\" lang=\"en\" xml:lang=\"en\">\n<head>\n\
         <meta charset=\"utf-8\"/>\n<meta name=\"viewport\" content=\"width=device-width, initial-scale=1\"/>\n\
         <title>{title}</title>\n<style>\n{STYLE}</style>\n</head>\n<body>\n<header>\n<h1>{title}</h1>\n<p>{}</p>\n{}</header>\n\
         {plan}<main>\n<h2>Questions and answers</h2>\n{questions}</main>\n</body>\n</html>\n",
        counts(paper),
        origin(paper),
    )
}

/// How much the plan has.
fn counts(paper: &Paper) -> String {
    let counted = |count: usize, one: &str| match count {
        1 => format!("1 {one}"),
        _ => format!("{count} {one}s"),
    };
    let counts = paper.plan.counts();
    format!(
        "A junction plan with {}, {} and {}. Lengths are in metres, x to the east and y to the north.",
        counted(counts.lanes, "lane"),
        counted(counts.links, "link"),
        counted(paper.answers.len(), "question")
    )
}

/// The plan with its lanes, its scale and its legend. The pictures of the questions take ground and numbers from here.
fn plan(drawing: &Drawing) -> String {
    let area = drawing.area();
    let (scale, below) = drawing.scale(area.bottom);
    let left_out = drawing.left_out().map_or(String::new(), |words| format!("<p>{}</p>\n", escaped(&words)));
    let legend: String = drawing.legend().iter().map(legend_entry).collect();
    let numbers = drawing.numbers.iter();
    let numbers = numbers.map(|number| format!("<g id=\"lane-{}\">\n{}</g>\n", number.lane, number.markup));
    format!(
        "<figure class=\"plan\">\n{}<g id=\"ground\">\n{}</g>\n<g id=\"numbers\">\n{}</g>\n{scale}</svg>\n\
         <figcaption>\n{left_out}<ul class=\"legend\">\n{legend}</ul>\n</figcaption>\n</figure>\n",
        picture("The plan, with the numbers of its lanes", Rect { bottom: area.bottom + below, ..area }),
        drawing.ground,
        numbers.collect::<String>(),
    )
}

/// The opening tag of a picture of this part of the drawing.
fn picture(words: &str, view: Rect) -> String {
    let view = [view.left, view.top, view.width(), view.height()].map(number).join(" ");
    let words = escaped(words);
    format!("<svg xmlns=\"http://www.w3.org/2000/svg\" viewBox=\"{view}\" font-family=\"{FONTS}\" role=\"img\" aria-label=\"{words}\">\n")
}

fn legend_entry(entry: &Entry) -> String {
    let [width, height] = SIGN.map(number);
    format!(
        "<li><svg xmlns=\"http://www.w3.org/2000/svg\" viewBox=\"0 0 {width} {height}\" aria-hidden=\"true\">\n{}</svg> {}</li>\n",
        entry.sign,
        escaped(&entry.means)
    )
}

/// A question with its answer in words and its picture, and the points of a route.
fn question(paper: &Paper, drawing: Option<&Drawing>, i: usize) -> String {
    let answered = &paper.answers[i];
    let lines = words::answer(paper, answered);
    let (first, rest) = lines.split_first().map_or(("", &[][..]), |(first, rest)| (first.as_str(), rest));
    let class = if is_refused(answered) { "answer refused" } else { "answer" };
    let parts: String = rest.iter().map(|line| format!("<li>{}</li>\n", escaped(line))).collect();
    // The branches of an advance are numbered: their marks in the picture have the same numbers.
    let list = if matches!(answered, Answered::Advance { .. }) { "ol" } else { "ul" };
    let parts = if parts.is_empty() { parts } else { format!("<{list}>\n{parts}</{list}>\n") };
    let picture = drawing.and_then(|drawing| drawing.question(i));
    let wide = picture.as_ref().is_some_and(|part| part.wide);
    format!(
        "<section{}>\n<div class=\"words\">\n<h3>{}. {}</h3>\n<p class=\"{class}\">{}</p>\n{parts}</div>\n{}{}</section>\n",
        if wide { " class=\"wide\"" } else { "" },
        i + 1,
        escaped(&capital(&words::question(answered))),
        escaped(&capital(first)),
        picture.map_or(String::new(), |part| question_picture(&part, i)),
        points(answered),
    )
}

fn is_refused(answered: &Answered) -> bool {
    match answered {
        Answered::Route { answer, .. } => answer.is_err(),
        Answered::Advance { answer, .. } => answer.is_err(),
        Answered::Beside { answer, .. } => answer.is_err(),
    }
}

/// The picture of a question.
fn question_picture(part: &Part, i: usize) -> String {
    let numbers = part.numbered.iter().map(|lane| format!("<use href=\"#lane-{lane}\"/>\n"));
    format!(
        "<figure>\n{}<use href=\"#ground\"/>\n{}{}{}</svg>\n</figure>\n",
        picture(&format!("Question {} in the plan", i + 1), part.view),
        part.lines,
        numbers.collect::<String>(),
        part.marks
    )
}

fn points(answered: &Answered) -> String {
    let Answered::Route { answer: Ok(route), .. } = answered else { return String::new() };
    let points = route.points.iter().map(|p| format!("<span>{}</span>\n", escaped(&words::point(p))));
    format!("<p class=\"points\"><b>Points, in order:</b>\n{}</p>\n", points.collect::<String>())
}

/// The words with a capital letter first.
fn capital(words: &str) -> String {
    let mut letters = words.chars();
    letters.next().map_or(String::new(), |first| first.to_uppercase().chain(letters).collect())
}

/// What the page was made of, and by what: enough to make it again and compare.
fn origin(paper: &Paper) -> String {
    format!(
        "<p class=\"origin\">Made of a plan file of {} bytes with the SHA-256 <code>{}</code> by kartsodi, version {VERSION}. Every answer is that \
         of the proved library of this version. Metres are rounded to the millimetre; <code>kartsodi answer --bits</code> prints the exact bits.</p>\n",
        paper.file.len(),
        sha256(&paper.file)
    )
}

/// For A4 paper and for screens down to a phone's.
const STYLE: &str = "\
@page { size: A4; margin: 15mm; }
* { box-sizing: border-box; }
body { margin: 0 auto; padding: 1rem; max-width: 56rem; color: #111111; background: #ffffff;
  font: 1rem/1.4 Helvetica, Arial, 'Liberation Sans', 'DejaVu Sans', sans-serif; overflow-wrap: break-word; }
h1 { font-size: 1.5rem; margin: 0 0 0.5rem; overflow-wrap: anywhere; }
h2 { font-size: 1.2rem; margin: 1.2rem 0 0.5rem; break-after: avoid; }
h3 { font-size: 1rem; margin: 0 0 0.4rem; break-after: avoid; }
p { margin: 0 0 0.5rem; }
ul, ol { margin: 0 0 0.5rem; padding-left: 1.4rem; }
figure { margin: 0; break-inside: avoid; }
svg { display: block; width: 100%; height: auto; }
.legend { display: flex; flex-wrap: wrap; gap: 0.2rem 1.2rem; margin: 0.5rem 0 0; padding: 0; list-style: none; font-size: 0.9rem; }
.legend li { display: flex; align-items: center; gap: 0.4rem; }
.legend svg { width: 2.6rem; }
section { display: grid; grid-template-columns: 9fr 11fr; gap: 0 1rem; border-top: 1px solid #999999; padding: 0.7rem 0; break-inside: avoid; }
section.wide { grid-template-columns: minmax(0, 1fr); gap: 0.5rem; }
section figure { border: 1px solid #cccccc; align-self: start; }
.answer { font-weight: bold; }
.points { grid-column: 1 / -1; display: grid; grid-template-columns: repeat(auto-fill, minmax(11.5em, 1fr)); gap: 0 0.8em;
  margin: 0.6rem 0 0; font-size: 0.8rem; font-variant-numeric: tabular-nums; }
.points b { grid-column: 1 / -1; }
.points span { white-space: nowrap; }
.origin { font-size: 0.8rem; }
code { overflow-wrap: anywhere; }
@media (max-width: 40rem) {
  body { padding: 0.6rem; }
  section { grid-template-columns: minmax(0, 1fr); gap: 0.5rem; }
  figure { margin: 0 -0.6rem; }
  figcaption { padding: 0 0.6rem; }
}
@media print {
  html { font-size: 10pt; }
  body { padding: 0; max-width: none; }
  .plan { max-width: 165mm; margin: 0 auto; }
}
";
