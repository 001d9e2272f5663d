//! Text as records. Every line is read before anything is said, so that one run names every line that has a fault.

use super::numbers::{float, whole};
use kartsodi::records::{
    AdvanceQuery, BesideQuery, Direction, Kind, Lane, LaneType, Link, Place, Record, Role, RouteQuery, Section,
};
use kartsodi::{LaneId, LanePosition, Point, Side, Vector};
use std::fmt;
use std::str::SplitWhitespace;

/// A record, and the line that it stands on, from 1 on.
#[derive(Debug, Clone, PartialEq)]
pub struct Line {
    pub number: usize,
    pub record: Record,
}

/// What is wrong with a line: the word that does not fit, or none where the line ends too early, and what was expected there.
#[derive(Debug, Clone, PartialEq)]
pub struct Fault {
    pub line: usize,
    pub word: Option<String>,
    pub expected: String,
}

impl fmt::Display for Fault {
    fn fmt(&self, f: &mut fmt::Formatter<'_>) -> fmt::Result {
        match &self.word {
            Some(word) => write!(f, "line {}: '{}': expected {}", self.line, word.escape_debug(), self.expected),
            None => write!(f, "line {}: the line ends, and expected was {}", self.line, self.expected),
        }
    }
}

/// The records of a text with their lines, or a fault of each line that has one.
pub fn parse(text: &str) -> Result<Vec<Line>, Vec<Fault>> {
    let (mut lines, mut faults) = (Vec::new(), Vec::new());
    for (number, line) in (1..).zip(text.lines()) {
        let code = line.split('#').next().unwrap_or_default();
        let mut words = Words(code.split_whitespace());
        match words.0.next().map(|name| record(name, &mut words)) {
            None => {}
            Some(Ok(record)) => lines.push(Line { number, record }),
            Some(Err(Unfit { word, expected })) => {
                faults.push(Fault { line: number, word: word.map(shortened), expected });
            }
        }
    }
    if faults.is_empty() {
        Ok(lines)
    } else {
        Err(faults)
    }
}

/// A word as a message shows it.
fn shortened(word: &str) -> String {
    const MOST: usize = 40;
    if word.chars().count() <= MOST {
        return word.into();
    }
    word.chars().take(MOST).chain("..".chars()).collect()
}

/// A word that does not fit.
struct Unfit<'a> {
    word: Option<&'a str>,
    expected: String,
}

/// The words of a line that are still to be read.
struct Words<'a>(SplitWhitespace<'a>);

impl<'a> Words<'a> {
    /// The next word by its reading, which says what it expects of a word that it cannot take. `what` is the field.
    fn take<T>(&mut self, what: &str, read: impl Fn(&str) -> Result<T, String>) -> Result<T, Unfit<'a>> {
        let word = self.0.next().ok_or_else(|| Unfit { word: None, expected: what.into() })?;
        read(word).map_err(|expected| Unfit { word: Some(word), expected: format!("{what}: {expected}") })
    }

    /// Asks for the end of the line.
    fn end(&mut self, form: &str) -> Result<(), Unfit<'a>> {
        let expected = || format!("the end of the line: {form}");
        self.0.next().map_or(Ok(()), |word| Err(Unfit { word: Some(word), expected: expected() }))
    }

    /// Whether there are no more words.
    fn is_done(&self) -> bool {
        self.0.clone().next().is_none()
    }

    /// Whether the next word is this one.
    fn is_next(&self, word: &str) -> bool {
        self.0.clone().next() == Some(word)
    }

    fn number(&mut self, what: &str) -> Result<u16, Unfit<'a>> {
        self.take(what, |word| whole(word, 0..=65535))
    }

    fn lane_id(&mut self, what: &str) -> Result<LaneId, Unfit<'a>> {
        self.number(what).map(|number| LaneId(number.into()))
    }

    fn double(&mut self, what: &str) -> Result<f64, Unfit<'a>> {
        self.take(what, float)
    }

    fn point(&mut self, what: &str) -> Result<Point, Unfit<'a>> {
        let mut axis = |axis: &str| self.take(&format!("{axis} of {what}"), float);
        Ok(Point { x: axis("x")?, y: axis("y")?, z: axis("z")? })
    }

    fn vector(&mut self, what: &str) -> Result<Vector, Unfit<'a>> {
        self.point(what).map(|Point { x, y, z }| Vector { x, y, z })
    }
}

/// The record of a line that begins with this name.
fn record<'a>(name: &'a str, words: &mut Words<'a>) -> Result<Record, Unfit<'a>> {
    let names = names(Kind::ALL.iter().map(|kind| kind.name()));
    let kind = Kind::from_name(name).ok_or_else(|| Unfit { word: Some(name), expected: one_of(name, &names) })?;
    match kind {
        Kind::Lane => lane(words).map(Record::Lane),
        Kind::Link => link(words).map(Record::Link),
        Kind::Section => section(words).map(Record::Section),
        Kind::Place => place(words).map(Record::Place),
        Kind::Route => route(words).map(Record::Route),
        Kind::Advance => advance(words).map(Record::Advance),
        Kind::Beside => beside(words).map(Record::Beside),
    }
}

fn lane<'a>(words: &mut Words<'a>) -> Result<Lane, Unfit<'a>> {
    let lane = words.lane_id("the lane's number")?;
    let kind = words.take("the lane's type", lane_type)?;
    let direction = words.take("the lane's direction", |word| named(word, Direction::ALL, Direction::name))?;
    let mut points = Vec::new();
    while !words.is_done() && !words.is_next("ends") {
        points.push(words.point(&format!("point {}", points.len() + 1))?);
    }
    let mut ends = None;
    if words.0.next().is_some() {
        ends = Some([words.vector("the tangent at the start")?, words.vector("the tangent at the end")?]);
        words.end("behind `ends` stand two tangents of three numbers")?;
    }
    Ok(Lane { lane, kind, direction, points, ends })
}

/// A lane type by its name or its number.
fn lane_type(word: &str) -> Result<LaneType, String> {
    let number = || whole(word, 0..=27).ok().and_then(LaneType::from_number);
    let names = names(LaneType::ALL.iter().map(|kind| kind.name()));
    let expected = || format!("a name as driving or bus{}, or a number from 0 to 27", meant(word, &names));
    LaneType::from_name(word).or_else(number).ok_or_else(expected)
}

fn link<'a>(words: &mut Words<'a>) -> Result<Link, Unfit<'a>> {
    let from = words.lane_id("the lane that the link is from")?;
    let role = words.take("what the other lane is to it", |word| named(word, Role::ALL, Role::name))?;
    let to = words.lane_id("the lane that the link is to")?;
    words.end("a link has FROM, its role, TO")?;
    Ok(Link { from, role, to })
}

fn section<'a>(words: &mut Words<'a>) -> Result<Section, Unfit<'a>> {
    let (road, index) = (words.number("the section's road")?, words.number("the section's index")?);
    let (start, end) = (words.double("the section's start")?, words.double("the section's end")?);
    let mut stations = Vec::new();
    while !words.is_done() {
        stations.push(words.double(&format!("station {}", stations.len() + 1))?);
    }
    Ok(Section { road, index, start, end, stations })
}

fn place<'a>(words: &mut Words<'a>) -> Result<Place, Unfit<'a>> {
    let lane = words.lane_id("the lane that has the place")?;
    let (road, index) = (words.number("the lane's road")?, words.number("the index of the lane's section")?);
    let range = i64::from(i32::MIN)..=i64::from(i32::MAX);
    let number = words.take("the lane's OpenDRIVE number", |word| whole(word, range.clone()))?;
    words.end("a place has LANE ROAD INDEX NUMBER")?;
    Ok(Place { lane, road, index, number })
}

fn route<'a>(words: &mut Words<'a>) -> Result<RouteQuery, Unfit<'a>> {
    let (from, to) = (words.point("the start")?, words.point("the goal")?);
    words.end("a route has the three numbers of its start and the three of its goal")?;
    Ok(RouteQuery { from, to })
}

fn advance<'a>(words: &mut Words<'a>) -> Result<AdvanceQuery, Unfit<'a>> {
    let lane = words.lane_id("the lane to start on")?;
    let (s, offset) = (words.double("the station to start at")?, words.double("the offset to the left")?);
    let distance = words.double("the distance to go")?;
    words.end("an advance has LANE S OFFSET DISTANCE")?;
    Ok(AdvanceQuery { from: LanePosition { lane, s, offset }, distance })
}

fn beside<'a>(words: &mut Words<'a>) -> Result<BesideQuery, Unfit<'a>> {
    let (lane, s) = (words.lane_id("the lane")?, words.double("the station")?);
    let side = words.take("the side", |word| named(word, &[Side::Left, Side::Right], Side::name))?;
    words.end("a beside has LANE S and a side")?;
    Ok(BesideQuery { lane, s, side })
}

/// The one of these that has this word for its name, in small or capital letters.
fn named<T: Copy>(word: &str, all: &[T], name: impl Fn(T) -> &'static str) -> Result<T, String> {
    let found = all.iter().copied().find(|one| name(*one).eq_ignore_ascii_case(word));
    found.ok_or_else(|| one_of(word, &names(all.iter().map(|one| name(*one)))))
}

fn names(all: impl Iterator<Item = &'static str>) -> Vec<&'static str> {
    all.collect()
}

/// The words that were expected, and the one that may have been meant.
fn one_of(word: &str, names: &[&str]) -> String {
    let (last, front) = names.split_last().map_or(("", &[][..]), |(last, front)| (*last, front));
    format!("{} or {last}{}", front.join(", "), meant(word, names))
}

/// The name that a word is nearest to, if it is near.
fn meant(word: &str, names: &[&str]) -> String {
    let nearest = names.iter().map(|name| (edits(word, name), name)).min();
    nearest.filter(|(edits, _)| *edits <= 2).map_or(String::new(), |(_, name)| format!(" ({name}?)"))
}

/// How many letters have to be put in, left out or changed to make one word of the other.
fn edits(a: &str, b: &str) -> usize {
    const LONGEST: usize = 20;
    let (a, b): (Vec<char>, Vec<char>) = (a.to_lowercase().chars().collect(), b.to_lowercase().chars().collect());
    if a.len() > LONGEST {
        return a.len();
    }
    let mut row: Vec<usize> = (0..=b.len()).collect();
    for (i, x) in a.iter().enumerate() {
        let mut diagonal = row[0];
        row[0] = i + 1;
        for (j, y) in b.iter().enumerate() {
            let changed = diagonal + usize::from(x != y);
            diagonal = row[j + 1];
            row[j + 1] = changed.min(row[j] + 1).min(diagonal + 1);
        }
    }
    row[b.len()]
}

#[cfg(test)]
mod tests {
    use super::{edits, parse};

    /// What is said of one line.
    fn said(line: &str) -> String {
        parse(line).unwrap_err()[0].to_string()
    }

    #[test]
    fn a_fault_names_line_word_and_what_was_expected() {
        assert_eq!(
            said("# a lane\n\nlnk 1 successor 2"),
            "line 3: 'lnk': expected lane, link, section, place, route, advance or beside (link?)"
        );
        assert_eq!(
            said("link 1 next 2"),
            "line 1: 'next': expected what the other lane is to it: successor, predecessor or neighbour"
        );
        assert_eq!(said("lane 1 bicycle forward").split(": ").nth(1), Some("'bicycle'"));
        assert!(said("lane 1 drivin forward").ends_with("as driving or bus (driving?), or a number from 0 to 27"));
        assert!(said("lane 1 28 forward").ends_with("a name as driving or bus, or a number from 0 to 27"));
    }

    /// Finding 6: too many and too few words.
    #[test]
    fn every_word_is_wanted_and_no_other() {
        assert_eq!(
            said("link 1 successor 2 3"),
            "line 1: '3': expected the end of the line: a link has FROM, its role, TO"
        );
        assert_eq!(said("route 2 0 0 6 0"), "line 1: the line ends, and expected was z of the goal");
        assert_eq!(said("lane 1 driving forward 0 0 0 8 0"), "line 1: the line ends, and expected was z of point 2");
        for whole in ["link 1 successor 2", "place 1 1 0 -1", "route 0 0 0 1 1 1", "advance 1 2 3 4", "beside 1 2 left"]
        {
            assert!(parse(whole).is_ok(), "{whole}");
            assert!(said(&format!("{whole} 5")).contains("'5': expected the end of the line"), "{whole}");
            let cut = &whole[..whole.rfind(' ').unwrap()];
            assert!(said(cut).contains("the line ends"), "{cut}");
        }
        let lane = "lane 1 driving forward 0 0 0 8 0 0 ends 1 0 0 1 0";
        assert_eq!(said(lane), "line 1: the line ends, and expected was z of the tangent at the end");
        assert!(parse(&format!("{lane} 0")).is_ok());
        assert!(said(&format!("{lane} 0 0")).contains("'0': expected the end of the line"));
    }

    #[test]
    fn numbers_out_of_range_are_told_with_the_range() {
        assert!(said("lane 65536 driving forward").ends_with("a whole number from 0 to 65535"));
        assert!(said("place 1 1 0 2147483648").ends_with("a whole number from -2147483648 to 2147483647"));
        assert!(said("route 1e40 0 0 0 0 0").contains("'1e40': expected x of the start: a number from -3.4028235e38"));
        assert!(said("advance 1 1e400 0 0").contains("a number from -1.7976931348623157e308"));
    }

    #[test]
    fn every_line_with_a_fault_is_told() {
        let faults = parse("lane\nlink 1 successor 2\nroute x\n").unwrap_err();
        assert_eq!(faults.iter().map(|fault| fault.line).collect::<Vec<_>>(), [1, 3]);
    }

    #[test]
    fn names_and_numbers_of_types_are_the_same() {
        let of = |kind| parse(&format!("lane 1 {kind} forward 0 0 0 8 0 0")).unwrap();
        assert_eq!(of("3"), of("bus"));
        assert_eq!(of("8"), of("onramp"));
        assert_eq!(of("5"), of("HOV"));
    }

    #[test]
    fn words_that_are_near() {
        assert_eq!(
            (edits("lnk", "link"), edits("link", "link"), edits("", "lane"), edits("rotue", "route")),
            (1, 0, 4, 2)
        );
    }
}
