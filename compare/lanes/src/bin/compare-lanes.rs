//! Compares the public calls with the oracle, query by query: number, counts, floats by their bits, lists and tables entry by entry,
//! those past the counts and those of a refused call too.
//!
//! `compare-lanes [rows] pose|nearest|route|advance|beside [COUNT [SEED]]`, built by `compare/build lanes`.
//! With `rows` the plan is loaded once, and the query asked of its rows.

use compare_common::tables::{Tables, SIZES};
use compare_lanes::answer::{expected, filled, Answer, Lists, MOST};
use compare_lanes::draw::{self, kind_of, Kind};
use compare_lanes::ours;
use kartsodi_oracle::answer::{Loaded, Originals, Room};
use kartsodi_oracle::gen::Case;
use kartsodi_oracle::query::to_line;
use kartsodi_oracle::reader::{scan, Query};
use kartsodi_oracle::rng::Rng;
use std::time::Instant;

/// What tables and lists are full of before a call.
const MARKS: [(usize, f32); 3] = [(usize::MAX, -77.5), (0, 0.0), (3, 1e30)];

#[derive(Default)]
struct Tally {
    numbers: [usize; 16],
    /// Answers longer than the program's lists, and the points or positions of the longest.
    longer: usize,
    longest: usize,
    passed: usize,
    failed: usize,
}

impl Tally {
    fn note(&mut self, case: &Case, query: &Query, wanted: &Answer, gave: &Answer, lists: Result<(), &str>, tables: Result<(), &str>) {
        self.numbers[wanted.number] += 1;
        let lent = match query {
            Query::Route { .. } => Room::PLAN_RUN.points,
            Query::Advance { .. } => Room::PLAN_RUN.positions,
            _ => usize::MAX,
        };
        if wanted.wholes[1] > lent {
            self.longer += 1;
            self.longest = self.longest.max(wanted.wholes[1]);
        }
        if gave.same(wanted) && lists.is_ok() && tables.is_ok() {
            self.passed += 1;
            return;
        }
        self.failed += 1;
        if self.failed < 10 {
            println!("{}: {}\n  gave {gave:?}\n  not  {wanted:?}", case.name, to_line(query));
            if let Err(name) = lists {
                println!("  the list {name} differs");
            }
            if let Err(name) = tables {
                println!("  the table {name} differs");
            }
        }
    }
}

/// The queries of one plan, loaded once.
fn over_rows(rng: &mut Rng, case: &Case, loaded: &Loaded, queries: &[Query], tally: &mut Tally) {
    let (whole, float) = rng.pick(&MARKS);
    let rows = match (ours::Rows::open(&case.file, Tables::full_of(whole, float)), loaded.network()) {
        (Ok(rows), Ok(_)) => rows,
        (Err(n), Err(m)) if n == usize::from(m) => return,
        (_, there) => {
            println!("{}: one side refuses the file, or with another number; the oracle {:?}", case.name, there.err());
            tally.failed += 1;
            return;
        }
    };
    for query in queries {
        // A side above 1 is the public call's to refuse.
        if matches!(query, Query::Beside { side, .. } if *side > 1) {
            continue;
        }
        let said = loaded.answer_with(query, MOST, Originals::Compared);
        let mut lists = Lists::full_of(draw::room(rng, filled(&said)), whole, float);
        let mut after = lists.clone();
        let wanted = expected(&said, &mut after);
        let gave = rows.ask(query, &mut lists);
        tally.note(case, query, &wanted, &gave, lists.same(&after), Ok(()));
    }
}

/// The queries of one plan, each by the public call, with tables and lists that held marks or another plan.
fn by_call(rng: &mut Rng, case: &Case, loaded: &Loaded, queries: &[Query], lent: &mut Lent, tally: &mut Tally) {
    let (whole, float) = rng.pick(&MARKS);
    let before = if rng.once_in(4) { lent.last.clone() } else { Tables::full_of(whole, float) };
    let mut after = before.clone();
    if let Ok(plan) = loaded.plan() {
        after.load(plan);
        after.load_lines(plan);
    }
    for query in queries {
        let said = loaded.answer_with(query, MOST, Originals::Compared);
        let mut lists = Lists::full_of(draw::room(rng, filled(&said)), whole, float);
        let mut filled = lists.clone();
        // number 1: a table one entry shorter than its limit
        if rng.once_in(64) {
            let k = rng.below(SIZES.len());
            let mut short = before.clone();
            short.cut(k, SIZES[k] - 1);
            let kept = short.clone();
            let gave = ours::call(&case.file, query, &mut short, &mut lists);
            tally.note(case, query, &Answer::refused(1), &gave, lists.same(&filled), short.same(&kept));
            continue;
        }
        let wanted = expected(&said, &mut filled);
        lent.tables.set(&before);
        let gave = ours::call(&case.file, query, &mut lent.tables, &mut lists);
        // a side above 1 refuses a plan that is accepted otherwise
        let refused = matches!(wanted.number, 1..=8);
        let held = if refused { &before } else { &after };
        tally.note(case, query, &wanted, &gave, lists.same(&filled), lent.tables.same(held));
    }
    lent.last = after;
}

/// The tables of every call, and those of the plan before.
struct Lent {
    tables: Tables,
    last: Tables,
}

fn usage() -> ! {
    println!("compare-lanes [rows] pose|nearest|route|advance|beside [COUNT [SEED]]");
    std::process::exit(2);
}

fn main() {
    let mut words: Vec<String> = std::env::args().skip(1).collect();
    let rows = words.first().is_some_and(|w| w == "rows");
    if rows {
        words.remove(0);
    }
    let Some(kind) = words.first().and_then(|w| kind_of(w)) else { usage() };
    let numbers: Vec<u64> = words[1..].iter().map(|a| a.parse().unwrap_or_else(|_| usage())).collect();
    if rows && kind == Kind::Pose {
        usage();
    }
    let count = numbers.first().copied().unwrap_or(100_000) as usize;
    let seed = numbers.get(1).copied().unwrap_or(2026);
    let mut tally = Tally::default();
    let mut rng = Rng::new(seed);
    let mut lent = Lent { tables: Tables::marked(), last: Tables::marked() };
    let start = Instant::now();
    let mut files = 0;
    for case in draw::cases(kind, seed) {
        if tally.passed + tally.failed >= count {
            break;
        }
        files += 1;
        let loaded = Loaded::new(&case.file);
        let plan = scan(&case.file).unwrap_or_default();
        let most = match (loaded.network(), kind) {
            (Err(_), _) => 2,
            (_, Kind::Pose | Kind::Nearest) => 40,
            _ => 16,
        };
        let queries = draw::queries(&mut rng, kind, &case, &plan, loaded.network().ok(), most);
        if rows {
            over_rows(&mut rng, &case, &loaded, &queries, &mut tally);
            continue;
        }
        by_call(&mut rng, &case, &loaded, &queries, &mut lent, &mut tally);
    }
    let seconds = start.elapsed().as_secs_f64();
    println!("{kind:?}: {files} plans, seed {seed}, {:.0} calls a second with the oracle's", (tally.passed + tally.failed) as f64 / seconds);
    println!("numbers seen, 0 to 15: {:?}", tally.numbers);
    if let Kind::Route | Kind::Advance = kind {
        let Tally { longer, longest, .. } = tally;
        let what = if kind == Kind::Route { "points" } else { "positions" };
        println!("answers longer than the program's lists: {longer}, with up to {longest} {what}");
    }
    println!("{} passed, {} failed", tally.passed, tally.failed);
    std::process::exit(i32::from(tally.failed != 0));
}
