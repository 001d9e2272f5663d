//! What stands below a drawing: the scale, the north, and what each sign means.

use crate::draw::frame::{Frame, WIDTH};
use crate::draw::lanes::{both_heads, broken, head, Lanes};
use crate::draw::line::path;
use crate::draw::marks::{shape, Drawn, Shape};
use crate::draw::style;
use crate::markup::{escaped, number};
use kartsodi::records::Direction;

/// A sign, drawn in a box of [`SIGN`], and what it means.
pub struct Entry {
    pub sign: String,
    pub means: String,
}

/// How wide and how high the sign of an entry is.
pub const SIGN: [f64; 2] = [64.0, 30.0];
const TEXT: f64 = 20.0;
/// How wide a column of entries is.
const COLUMN: f64 = 310.0;
/// What lies between a sign and its words.
const GAP: f64 = 10.0;
/// The colour of signs that questions have in their own colours.
const COLOUR: &str = "#0b5cad";

/// What the signs of a drawing mean: those of its lanes, then those of the questions drawn.
pub fn entries(lanes: &Lanes, drawn: &Drawn) -> Vec<Entry> {
    let mut entries: Vec<Entry> =
        lanes.types().map(|kind| surface(kind.name(), style::surface(kind, &line(), 22.0))).collect();
    entries.extend(ways(lanes));
    entries.extend(ends(lanes));
    if drawn.routes {
        entries.push(Entry { sign: route(), means: "route with its points".into() });
    }
    let marks = [
        (Shape::Asked, "asked from here"),
        (Shape::Answer, "goal or answer"),
        (Shape::DeadEnd, "dead end"),
        (Shape::Off, "point off its lane"),
    ];
    let used = marks.into_iter().filter(|(mark, _)| drawn.shapes.contains(mark));
    entries.extend(used.map(|(mark, means)| Entry { sign: shape(mark, middle(), COLOUR, 28.0), means: means.into() }));
    entries
}

fn middle() -> [f64; 2] {
    [0.5 * SIGN[0], 0.5 * SIGN[1]]
}

/// A line through the sign's box.
fn line() -> String {
    path([[2.0, middle()[1]], [SIGN[0] - 2.0, middle()[1]]].into_iter())
}

fn surface(name: &str, surface: String) -> Entry {
    let edge = format!("<path d=\"{}\" stroke=\"{}\" stroke-width=\"24\"/>\n", line(), style::EDGE);
    Entry { sign: format!("<g fill=\"none\">\n{edge}{surface}</g>\n"), means: format!("lane: {name}") }
}

/// The arrows of one-way lanes and of lanes for both ways.
fn ways(lanes: &Lanes) -> Vec<Entry> {
    let has = |both: bool| lanes.drawn.iter().any(|drawn| (drawn.lane.direction == Direction::Both) == both);
    let dark = |heads: String| format!("<g fill=\"#3a3f45\">\n{heads}</g>\n");
    let mut out = Vec::new();
    if has(false) {
        out.push(Entry { sign: dark(head(middle(), [1.0, 0.0], 18.0)), means: "way of the traffic".into() });
    }
    if has(true) {
        out.push(Entry { sign: dark(both_heads(middle(), [1.0, 0.0], 18.0)), means: "traffic both ways".into() });
    }
    out
}

fn ends(lanes: &Lanes) -> Vec<Entry> {
    let bar = path([[middle()[0], 2.0], [middle()[0], SIGN[1] - 2.0]].into_iter());
    let bar = |more: &str| format!("<path d=\"{bar}\" stroke=\"#1b1d20\" stroke-width=\"4.5\"{more}/>\n");
    let mut out = Vec::new();
    if lanes.has_exit(true) {
        out.push(Entry { sign: bar(""), means: "lane end, stop line".into() });
    }
    if lanes.has_exit(false) {
        out.push(Entry { sign: bar(&broken(28.0)), means: "no lane follows".into() });
    }
    out
}

fn route() -> String {
    let dots = "M12 15h0M25.33 15h0M38.67 15h0M52 15h0";
    format!(
        "<path d=\"M12 15L52 15\" stroke=\"{COLOUR}\" stroke-width=\"3.9\"/>\n\
         <path d=\"{dots}\" stroke=\"{COLOUR}\" stroke-width=\"7.8\" stroke-linecap=\"round\"/>\n"
    )
}

/// The scale bar and the north, below a drawing from this height on, and the height that they take.
pub fn scale(frame: &Frame, top: f64) -> (String, f64) {
    let metres = bar_length(frame);
    let length = frame.units(metres);
    let (left, base) = (60.0, top + 34.0);
    let ticks = path([[left, base - 8.0], [left, base + 8.0]].into_iter())
        + &path([[left, base], [left + length, base]].into_iter())
        + &path([[left + length, base - 8.0], [left + length, base + 8.0]].into_iter());
    let name =
        if metres >= 1000.0 { format!("{} km", number(metres / 1000.0)) } else { format!("{} m", number(metres)) };
    let north = WIDTH - 60.0;
    let out = format!(
        "<path d=\"{ticks}\" fill=\"none\" stroke=\"#1b1d20\" stroke-width=\"3\"/>\n{}\
         <path d=\"M{n} {b}L{n} {}\" stroke=\"#1b1d20\" stroke-width=\"3\"/>\n<g fill=\"#1b1d20\">\n{}</g>\n{}",
        text(left + length + 16.0, base, &name),
        number(base - 26.0),
        head([north, base - 26.0], [0.0, -1.0], 18.0),
        text_before(north - 16.0, base, "north"),
        n = number(north),
        b = number(base + 10.0),
    );
    (out, 60.0)
}

/// The longest of 1, 2, 5, 10 and so on metres that is at most a quarter of the drawing's width.
fn bar_length(frame: &Frame) -> f64 {
    let lengths = [1.0, 2.0, 5.0, 10.0, 20.0, 50.0, 100.0, 200.0, 500.0, 1000.0, 2000.0];
    let fits = |metres: &&f64| frame.units(**metres) <= 0.25 * WIDTH;
    *lengths.iter().rfind(fits).unwrap_or(&lengths[0])
}

fn text(x: f64, base: f64, words: &str) -> String {
    format!(
        "<text x=\"{}\" y=\"{}\" font-size=\"{TEXT}\">{}</text>\n",
        number(x),
        number(base + 0.35 * TEXT),
        escaped(words)
    )
}

fn text_before(x: f64, base: f64, words: &str) -> String {
    let (x, y) = (number(x), number(base + 0.35 * TEXT));
    format!("<text x=\"{x}\" y=\"{y}\" font-size=\"{TEXT}\" text-anchor=\"end\">{}</text>\n", escaped(words))
}

/// The entries in three columns from this height on, and the height that they take.
pub fn rows(entries: &[Entry], top: f64) -> (String, f64) {
    let (left, row) = (40.0, 42.0);
    let mut out = String::new();
    for (i, entry) in entries.iter().enumerate() {
        let (x, y) = (left + COLUMN * (i % 3) as f64, top + row * (i / 3) as f64);
        out += &format!("<g transform=\"translate({} {})\">\n{}", number(x), number(y), entry.sign);
        out += &text(SIGN[0] + GAP, 0.5 * SIGN[1], &entry.means);
        out += "</g>\n";
    }
    (out, row * entries.len().div_ceil(3) as f64)
}

#[cfg(test)]
mod tests {
    use super::{surface, COLUMN, GAP, SIGN, TEXT};
    use crate::draw::labels::text_width;
    use kartsodi::records::LaneType;

    #[test]
    fn the_words_of_every_type_fit_their_column() {
        for kind in LaneType::ALL {
            let words = surface(kind.name(), String::new()).means;
            assert!(SIGN[0] + GAP + text_width(&words, TEXT) < COLUMN, "{words}");
        }
    }
}
