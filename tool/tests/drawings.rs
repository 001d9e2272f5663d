//! Pictures and pages: well formed, the same every time, finite, and with labels that can be read.

mod common;
mod xml;

use common::{file, fixed, path, run, shell};
use kartsodi::records::LaneType;
use xml::{parse, Element, Node};

const EXAMPLES: [&str; 4] = ["junction", "crossing", "roundabout", "tee"];

/// The texts of docs/drawing, without their ending.
fn rules() -> Vec<String> {
    let folder = std::fs::read_dir(path("docs/drawing")).expect("docs/drawing");
    let names = folder.map(|entry| entry.expect("an entry").file_name().to_string_lossy().into_owned());
    let mut names: Vec<String> = names.filter_map(|name| name.strip_suffix(".txt").map(Into::into)).collect();
    names.sort();
    assert!(names.len() >= 7, "{names:?}");
    names
}

/// Every text that has its picture beside it, with its folder.
fn pictures() -> Vec<String> {
    let examples = EXAMPLES.iter().map(|name| format!("examples/{name}"));
    examples.chain(rules().iter().map(|name| format!("docs/drawing/{name}"))).collect()
}

fn drawn(input: &[u8]) -> Element {
    let root = parse(&run(&["draw"], input).done_text());
    assert_eq!(root.name, "svg");
    assert_finite(&root);
    assert_apart(&labels(&root));
    assert_inside(&root, &labels(&root));
    root
}

fn page(input: &[u8]) -> Element {
    let root = parse(&run(&["sheet"], input).done_text());
    assert_eq!(root.name, "html");
    assert_finite(&root);
    assert_alone(&root);
    assert_questions_apart(&root);
    root
}

const NUMBERS: [&str; 15] = [
    "x",
    "y",
    "cx",
    "cy",
    "r",
    "rx",
    "width",
    "height",
    "font-size",
    "stroke-width",
    "x1",
    "x2",
    "y1",
    "y2",
    "font-weight",
];

/// Every number of a drawing is finite and not far outside it.
fn assert_finite(root: &Element) {
    for element in root.all() {
        for (key, value) in &element.attributes {
            let list = match key.as_str() {
                "d" | "viewBox" | "stroke-dasharray" | "transform" => value,
                _ if NUMBERS.contains(&key.as_str()) => value,
                _ => continue,
            };
            let words =
                list.split(|c: char| c.is_whitespace() || "MLHVhvZ()".contains(c)).filter(|word| !word.is_empty());
            for word in words.filter(|word| *word != "translate") {
                let number: f64 = word.parse().unwrap_or_else(|_| panic!("{key} of {} has {word}", element.name));
                assert!(number.abs() < 1e4, "{key} of {} has {word}", element.name);
            }
        }
    }
}

/// A label: its plate as left, top, right, bottom, and its text.
struct Label {
    plate: [f64; 4],
    text: String,
}

/// The labels of a picture: plates with round corners, each with its text after it.
fn labels(root: &Element) -> Vec<Label> {
    let all = root.all();
    let plates =
        all.iter().enumerate().filter(|(_, element)| element.name == "rect" && element.attribute("rx").is_some());
    let labels = plates.map(|(i, rect)| {
        let text = all[i + 1];
        assert_eq!(text.name, "text");
        let (left, top) = (rect.number("x"), rect.number("y"));
        let label =
            Label { plate: [left, top, left + rect.number("width"), top + rect.number("height")], text: text.text() };
        assert_fits(&label, text.number("font-size"));
        label
    });
    labels.collect()
}

/// A label's text fits on its plate, by the widths of Helvetica's bold letters, which are wider than its others, and of DejaVu's bold digits.
fn assert_fits(label: &Label, size: f64) {
    let width: f64 = label.text.chars().map(|c| size * bold_width(c) / 1000.0).sum();
    assert!(width < label.plate[2] - label.plate[0], "{}", label.text);
    assert!(size <= label.plate[3] - label.plate[1], "{}", label.text);
}

fn bold_width(c: char) -> f64 {
    match c {
        ' ' | '.' | ',' | 'i' | 'j' | 'l' | 'I' => 278.0,
        'f' | 't' | '(' | ')' | '-' => 333.0,
        'r' => 389.0,
        'z' => 500.0,
        '0'..='9' => 696.0,
        'a' | 'c' | 'e' | 'k' | 's' | 'v' | 'x' | 'y' => 556.0,
        'w' | 'O' => 778.0,
        'm' => 889.0,
        'A'..='Z' => 722.0,
        _ => 611.0,
    }
}

/// No label overlaps another.
fn assert_apart(labels: &[Label]) {
    for (i, one) in labels.iter().enumerate() {
        let [left, top, right, bottom] = one.plate;
        for other in &labels[..i] {
            let [l, t, r, b] = other.plate;
            let apart = left > r || l > right || top > b || t > bottom;
            assert!(apart, "{} overlaps {}", one.text, other.text);
        }
    }
}

/// The marks of a picture that have an inside, rings, discs and squares, each as left, top, right, bottom; without those of the legend.
fn marks(element: &Element) -> Vec<[f64; 4]> {
    if element.attribute("transform").is_some() {
        return vec![];
    }
    if element.name == "circle" {
        let [x, y, r] = ["cx", "cy", "r"].map(|name| element.number(name));
        return vec![[x - r, y - r, x + r, y + r]];
    }
    // Stripes of a lane's surface are white too, and are not filled.
    if element.name == "path" && element.attribute("stroke") == Some("#ffffff") && element.attribute("fill").is_some() {
        let places = element.attribute("d").expect("places").split(['M', 'L', 'Z', ' ']);
        let numbers: Vec<f64> = places.filter_map(|word| word.parse().ok()).collect();
        let least = |axis: usize| numbers.iter().skip(axis).step_by(2).copied().fold(f64::INFINITY, f64::min);
        let most = |axis: usize| numbers.iter().skip(axis).step_by(2).copied().fold(f64::NEG_INFINITY, f64::max);
        return vec![[least(0), least(1), most(0), most(1)]];
    }
    element.children.iter().filter_map(Node::element).flat_map(marks).collect()
}

/// No mark hides a part of a label.
fn assert_unmarked(labels: &[Label], marks: &[[f64; 4]]) {
    for Label { plate: [left, top, right, bottom], text } in labels {
        for [l, t, r, b] in marks {
            assert!(left > r || l > right || top > b || t > bottom, "a mark at {l} {t} lies on {text}");
        }
    }
}

/// The lines from labels of questions to their marks: straight ones that start in the middle of a label.
fn leaders(picture: &Element, labels: &[Label]) -> Vec<[[f64; 2]; 2]> {
    let straight = picture.named("path").filter_map(|path| {
        let places = path.attribute("d")?.strip_prefix('M')?;
        let numbers: Vec<f64> = places.split(['L', ' ']).map_while(|word| word.parse().ok()).collect();
        match numbers[..] {
            [x, y, to_x, to_y] => Some([[x, y], [to_x, to_y]]),
            _ => None,
        }
    });
    let middle = |x: f64, y: f64| {
        let off = |low: f64, high: f64, at: f64| (0.5 * (low + high) - at).abs() < 0.02;
        labels.iter().any(|Label { plate: [l, t, r, b], .. }| off(*l, *r, x) && off(*t, *b, y))
    };
    straight.filter(|[[x, y], _]| middle(*x, *y)).collect()
}

/// No line from a label to its mark goes under one of these labels, by places along it.
fn assert_seen(leaders: &[[[f64; 2]; 2]], labels: &[Label]) {
    for [from, to] in leaders {
        let along = |part: u32, axis: usize| from[axis] + f64::from(part) / 200.0 * (to[axis] - from[axis]);
        for Label { plate: [left, top, right, bottom], text } in labels {
            let inside = |x: f64, y: f64| *left < x && x < *right && *top < y && y < *bottom;
            let own = inside(from[0], from[1]);
            let hidden = !own && (0..=200).any(|part| inside(along(part, 0), along(part, 1)));
            assert!(!hidden, "a line from {from:?} to {to:?} goes under {text}");
        }
    }
}

/// All labels lie in the picture's part of the drawing.
fn assert_inside(picture: &Element, labels: &[Label]) {
    let view = picture.attribute("viewBox").expect("a part").split(' ').map(|x| x.parse().expect("a number"));
    let [x, y, width, height] = view.collect::<Vec<f64>>()[..] else { panic!("four numbers") };
    for Label { plate: [left, top, right, bottom], text } in labels {
        assert!(*left >= x - 0.02 && *top >= y - 0.02 && *right <= x + width + 0.02, "{text}");
        assert!(*bottom <= y + height + 0.02, "{text}");
    }
}

/// The picture of each question has its own labels and the lane numbers of the whole plan.
fn assert_questions_apart(page: &Element) {
    let all = page.all();
    let numbers = all.iter().find(|element| element.attribute("id") == Some("numbers"));
    for picture in page.named("section").flat_map(|section| section.named("svg").collect::<Vec<_>>()) {
        let mut together = labels(picture);
        for number in picture.named("use").filter_map(|part| part.attribute("href")?.strip_prefix("#lane-")) {
            let id = format!("lane-{number}");
            let lane = all.iter().find(|element| element.attribute("id") == Some(&id)).expect("a number");
            together.extend(labels(lane));
        }
        assert_inside(picture, &together);
        let mut together = labels(picture);
        together.extend(numbers.map_or(Vec::new(), |numbers| labels(numbers)));
        assert_apart(&together);
    }
}

/// A page has a language, an encoding and a size for phones, runs nothing, and reads nothing from elsewhere.
fn assert_alone(root: &Element) {
    assert_eq!((root.attribute("lang"), root.attribute("xml:lang")), (Some("en"), Some("en")));
    let meta: Vec<_> = root.named("meta").collect();
    assert_eq!(meta[0].attribute("charset"), Some("utf-8"));
    assert_eq!(meta[1].attribute("name"), Some("viewport"));
    let elements = root.all();
    let ids: Vec<&str> = elements.iter().filter_map(|element| element.attribute("id")).collect();
    assert!(ids.iter().enumerate().all(|(i, id)| !ids[..i].contains(id)), "{ids:?}");
    for element in elements {
        assert!(!["script", "link", "img", "iframe", "object", "image", "base"].contains(&element.name.as_str()));
        for (key, value) in &element.attributes {
            assert!(!key.starts_with("on") && key != "src" && key != "style", "{key} of {}", element.name);
            if key == "href" {
                assert!(ids.contains(&value.strip_prefix('#').expect("a part of the page")), "{value}");
            }
        }
        assert!(element.name != "style" || !["@import", "url("].iter().any(|word| element.text().contains(word)));
    }
}

#[test]
fn the_examples_are_made_of_their_texts() {
    for name in EXAMPLES {
        let name = format!("examples/{name}");
        let text = file(&format!("{name}.txt"));
        let plan = run(&["make"], &text).done();
        assert_eq!(plan, file(&format!("{name}.plan")), "{name}");
        assert_eq!(run(&["answer", "--bits"], &plan).done(), file(&format!("{name}.answer")), "{name}");
    }
}

/// What docs/DRAWING.md shows is there, and nothing of docs/drawing goes unshown; its table has every type.
#[test]
fn the_rules_are_shown() {
    let page = String::from_utf8(file("docs/DRAWING.md")).expect("text");
    let shown: Vec<&str> =
        page.split("](drawing/").skip(1).filter_map(|rest| rest.split_once(".svg)")).map(|part| part.0).collect();
    let mut sorted = shown.clone();
    sorted.sort();
    assert_eq!(sorted, rules());
    for kind in LaneType::ALL {
        let row = format!("| {} | `{}` | ", kind.number(), kind.name());
        assert!(page.contains(&row), "{row}");
    }
}

/// Drawn from the text and from the plan, and drawn again: the same bytes as those kept.
#[test]
fn the_pictures_are_made_of_their_texts() {
    for name in pictures() {
        let text = file(&format!("{name}.txt"));
        let plan = run(&["make"], &text).done();
        let kept = file(&format!("{name}.svg"));
        assert_eq!(run(&["draw", "--text"], &text).done(), kept, "{name}");
        assert_eq!(run(&["draw", "--plan"], &plan).done(), kept, "{name}");
    }
}

/// Nothing in the examples looks like a mistake but what they are to show: points off their lanes, and chains of the same cost; and that the
/// junction has no predecessor links.
#[test]
fn the_examples_are_drawn_rightly() {
    for name in EXAMPLES {
        let said = run(&["check"], &file(&format!("examples/{name}.txt"))).done_text();
        let warnings: Vec<&str> = said.lines().filter(|line| line.starts_with("warning")).collect();
        let meant = |warning: &&str| {
            let unmirrored = name == "junction" && warning.contains("has its mirror, a predecessor link");
            warning.contains("is taken to lane") || warning.contains("at the same cost") || unmirrored
        };
        assert!(warnings.iter().all(meant), "{name}: {warnings:?}");
    }
}

/// In the pictures of this project, and on the pages made of them. Nor does a lane number lie on the line from a label to its mark.
#[test]
fn no_mark_lies_on_a_label() {
    let (mut seen, mut led) = (0, 0);
    for name in pictures() {
        let text = file(&format!("{name}.txt"));
        let root = drawn(&text);
        assert_unmarked(&labels(&root), &marks(&root));
        let page = page(&text);
        let all = page.all();
        let numbers = labels(all.iter().find(|element| element.attribute("id") == Some("numbers")).expect("numbers"));
        for picture in page.named("section").flat_map(|section| section.named("svg").collect::<Vec<_>>()) {
            let marks = marks(picture);
            assert_unmarked(&numbers, &marks);
            assert_unmarked(&labels(picture), &marks);
            seen += marks.len();
            let lines = leaders(picture, &labels(picture));
            assert_seen(&lines, &numbers);
            led += lines.len();
        }
        // In the whole picture too, but for the tee, of which a place has five labels.
        if name != "examples/tee" {
            assert_seen(&leaders(&root, &labels(&root)), &numbers);
        }
    }
    assert!(seen > 50 && led > 50, "{seen} marks, {led} lines");
}

/// On A4 paper, a picture is 97 mm wide beside its words and 180 mm wide below them: labels have 7 points at least.
#[test]
fn labels_of_questions_can_be_read_on_paper() {
    let (mut wide, mut beside) = (0, 0);
    for name in EXAMPLES {
        let page = page(&file(&format!("examples/{name}.plan")));
        for section in page.named("section") {
            let is_wide = section.attribute("class") == Some("wide");
            let width = if is_wide { 180.0 } else { 97.0 } / 25.4 * 72.0;
            for picture in section.named("svg") {
                let view: f64 =
                    picture.attribute("viewBox").expect("a part").split(' ').nth(2).unwrap().parse().unwrap();
                for text in picture.named("text") {
                    let points = text.number("font-size") / view * width;
                    assert!(points > 7.0, "{name}: {} has {points} points", section.text());
                }
                *if is_wide { &mut wide } else { &mut beside } += 1;
            }
        }
    }
    assert!(wide >= 5 && beside > 2 * wide, "{wide} below their words, {beside} beside them");
}

#[test]
fn every_lane_has_its_number() {
    for name in pictures() {
        let text = String::from_utf8(file(&format!("{name}.txt"))).expect("text");
        let labels = labels(&drawn(text.as_bytes()));
        let lanes = text
            .lines()
            .filter_map(|line| line.strip_prefix("lane "))
            .map(|line| line.split(' ').next().expect("a number"));
        for lane in lanes {
            let named = |label: &&Label| {
                label.text == lane
                    || label.text.split_once(' ').is_some_and(|(first, kind)| {
                        first == lane && kind != "from" && kind != "to" && kind != "left" && kind != "right"
                    })
            };
            assert_eq!(labels.iter().filter(named).count(), 1, "{name}: lane {lane}");
        }
    }
}

#[test]
fn the_pages_of_the_examples() {
    for name in EXAMPLES {
        let plan = file(&format!("examples/{name}.plan"));
        let root = page(&plan);
        let questions = root.named("section").count();
        let text = root.text();
        assert!(text.contains(&format!("{questions} questions")), "{name}");
        let answer = String::from_utf8(file(&format!("examples/{name}.answer"))).expect("text");
        let refused = answer.lines().filter(|line| {
            let mut words = line.split(' ');
            ["route", "advance", "beside"].contains(&words.next().expect("a word")) && words.next() != Some("0")
        });
        let said = root.named("p").filter(|p| p.attribute("class") == Some("answer refused")).count();
        assert_eq!(said, refused.count(), "{name}");
        // The branches of an advance have the numbers of their marks.
        let advances = answer.lines().filter_map(|line| line.strip_prefix("advance 0 "));
        let positions: usize = advances
            .map(|counts| counts.split(' ').nth(1).expect("positions").parse::<usize>().expect("a count"))
            .sum();
        assert_eq!(root.named("ol").map(|branches| branches.named("li").count()).sum::<usize>(), positions, "{name}");
        let printed = shell(&format!("sha256sum {}", path(&format!("examples/{name}.plan")).display())).done_text();
        assert!(text.contains(&printed[..64]), "{name}");
        let version = run(&["--version"], b"").done_text();
        assert!(text.contains(&version.trim().replace(' ', ", version ")), "{name}");
        // Each question and each part of its answer, as `answer` prints them, but for capital letters.
        let shown = text.to_lowercase();
        let answered = run(&["answer"], &plan).done_text();
        let lines = answered.lines().skip(1).map(str::trim).filter(|line| !line.is_empty());
        for line in lines.filter(|line| *line != "points:") {
            for part in line.to_lowercase().split_inclusive(") ").map(str::trim) {
                assert!(shown.contains(part), "{name}: {part}");
            }
        }
    }
}

#[test]
fn a_title_is_escaped() {
    let title = "<b>Sitting 7 & \"8\"</b>\u{1b}";
    let page = run(&["sheet", "--title", title], &file("examples/junction.plan")).done_text();
    let root = parse(&page);
    for name in ["title", "h1"] {
        assert_eq!(root.named(name).next().expect(name).text(), "<b>Sitting 7 & \"8\"</b>\u{fffd}");
    }
}

/// A page has no folder of the one who made it.
#[test]
fn a_page_is_named_after_its_file_alone() {
    let heading = |page: &str| parse(page).named("h1").next().expect("h1").text();
    let example = path("examples/junction.plan");
    assert_eq!(heading(&run(&["sheet", example.to_str().expect("a name")], b"").done_text()), "junction.plan");
    assert_eq!(heading(&run(&["sheet"], &file("examples/junction.plan")).done_text()), "Junction plan");
}

/// North is up: of two lanes the northern one has its number higher in the picture.
#[test]
fn north_is_up() {
    let labels = labels(&drawn(b"lane 1 driving forward 0 20 0 40 20 0\nlane 2 driving forward 0 0 0 40 0 0\n"));
    let top = |lane: &str| labels.iter().find(|label| label.text == lane).expect(lane).plate[1];
    assert!(top("1") < top("2"));
}

#[test]
fn plans_of_every_size() {
    let texts = [
        "",
        "route 0 0 0  1 1 1",
        "lane 1 driving forward  0 0 0  8 0 0",
        "lane 1 driving both  0 0 0  0 0 0\nroute 0 0 0  0 0 0",
        "lane 65535 connectingRamp backward  5 5 0  5 5 9  5 5 0",
        "lane 1 driving forward  0 0 0  0.001 0 0",
        "lane 1 driving forward  0 -4096 0  0 4096 0",
        "lane 1 driving both  -4096 -4096 -4096  4096 4096 4096\nlane 2 bus forward  0 0 0  1 1 0",
        "lane 1 driving forward  4095.9 4095.9 0  4096 4096 0\nroute 3e38 -3e38 3e38  -3e38 0 0",
        "lane 1 driving forward  0 0 0  9 0 0\nroute nan 0 0  inf -inf 0",
        "lane 1 driving forward  0 0 0  9 0 0  ends  0 0 0  inf nan 0\nlink 1 successor 1\nlink 1 successor 7",
    ];
    for text in texts {
        drawn(text.as_bytes());
        page(text.as_bytes());
    }
}

/// Positions that lie nowhere near the lanes, or nowhere.
#[test]
fn offsets_of_every_size() {
    let lane = "lane 1 driving forward  0 0 0  9 0 0\nsection 1 0  0 9  0 9\nplace 1 1 0 -1\n";
    for offset in ["nan", "inf", "-inf", "1e300", "-12", "1e-300", "bits:FFF8000000000001"] {
        let text = format!("{lane}advance 1 4 {offset} 2\nadvance 1 4 {offset} 60\nbeside 1 nan left\n");
        drawn(text.as_bytes());
        page(text.as_bytes());
    }
}

/// 256 lanes, side by side, and all on one place: the numbers that there is room for do not overlap, and the others are counted.
#[test]
fn as_many_lanes_as_there_can_be() {
    let beside: String = (0..256).map(|i| format!("lane {i} driving forward  0 {i} 0  250 {i} 0\n")).collect();
    assert_eq!(labels(&drawn(beside.as_bytes())).len(), 256);
    page(beside.as_bytes());
    let heap: String = (0..256).map(|i| format!("lane {i} unknown both  0 0 0  1 1 0\n")).collect();
    let root = drawn(heap.as_bytes());
    let numbered = labels(&root).len();
    assert!(numbered > 20, "{numbered}");
    assert!(numbered == 256 || root.text().contains(&format!("numbers of {} lanes", 256 - numbered)), "{numbered}");
}

/// The plans of the oracle's fixed list that are accepted: odd ones of every kind.
#[test]
fn odd_plans() {
    let mut accepted = 0;
    for (name, plan, printed) in fixed() {
        if printed.starts_with(b"plan 0 ") {
            eprintln!("{name}");
            drawn(&plan);
            page(&plan);
            accepted += 1;
        }
    }
    assert!(accepted > 200, "{accepted}");
}
