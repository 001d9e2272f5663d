//! Times the proved queries beside the source's own, in one run on the same plans and queries. `bench-lanes [ROUNDS]`.

use compare_common::plans::town;
use compare_common::tables::Tables;
use compare_lanes::answer::{Lists, ROOM};
use compare_lanes::ours::Rows;
use kartsodi_oracle::answer::Loaded;
use kartsodi_oracle::coords::Point;
use kartsodi_oracle::gen::sketch::{lane, point_near};
use kartsodi_oracle::network::{LaneId, LaneIndex};
use kartsodi_oracle::reader::{Plan, Query};
use kartsodi_oracle::rng::Rng;
use kartsodi_oracle::road::LanePosition;
use kartsodi_oracle::write::Records;
use std::hint::black_box;
use std::time::Instant;

/// Lanes of `each` points that go `length` metres in a random direction from anywhere within `reach`.
fn spread(count: usize, each: usize, reach: f32, length: f32) -> Plan {
    let mut rng = Rng::new(1);
    let step = length / (each - 1) as f32;
    let lanes = (0..count as u16).map(|number| {
        let mut at = [rng.spread(reach), rng.spread(reach), rng.spread(5.0)];
        let mut heading = rng.unit() as f32 * 6.3;
        let points: Vec<[f32; 3]> = (0..each)
            .map(|_| {
                let here = at;
                heading += rng.spread(0.2);
                at = [at[0] + step * heading.cos(), at[1] + step * heading.sin(), at[2]];
                here
            })
            .collect();
        lane(number, &points)
    });
    Plan { lanes: lanes.collect(), ..Plan::default() }
}

/// Lanes side by side, 3.5 m apart and 500 m long.
fn parallel(count: usize, each: usize) -> Plan {
    let lanes = (0..count as u16).map(|number| {
        let points: Vec<[f32; 3]> = (0..each).map(|k| [500.0 * k as f32 / (each - 1) as f32, 3.5 * f32::from(number), 0.0]).collect();
        lane(number, &points)
    });
    Plan { lanes: lanes.collect(), ..Plan::default() }
}

/// Lanes on one line, back and forth over all of it.
fn one_line(count: usize, each: usize) -> Plan {
    let mut rng = Rng::new(2);
    let lanes = (0..count as u16).map(|number| {
        let points: Vec<[f32; 3]> = (0..each).map(|_| [rng.spread(2000.0), 0.0, 0.0]).collect();
        lane(number, &points)
    });
    Plan { lanes: lanes.collect(), ..Plan::default() }
}

/// Nanoseconds a query, each the least of all rounds, taken in turn.
fn timed<const N: usize>(rounds: usize, queries: usize, mut all: [&mut dyn FnMut(usize); N]) -> [f64; N] {
    let mut least = [f64::MAX; N];
    for _ in 0..rounds {
        for (side, run) in all.iter_mut().enumerate() {
            let start = Instant::now();
            for k in 0..queries {
                run(k);
            }
            least[side] = least[side].min(start.elapsed().as_secs_f64() * 1e9 / queries as f64);
        }
    }
    least
}

/// Keeps a value from being left out by the compiler.
fn done<T>(value: T) {
    black_box(value);
}

fn shown(ns: f64) -> String {
    match ns {
        _ if ns < 1e3 => format!("{ns:.0} ns"),
        _ if ns < 1e6 => format!("{:.2} us", ns / 1e3),
        _ => format!("{:.2} ms", ns / 1e6),
    }
}

fn row(name: &str, what: &str, ours: f64, theirs: f64) {
    println!("| {name} | {what} | {} | {} | {:.2} |", shown(ours), shown(theirs), ours / theirs);
}

/// Both sides of a plan, loaded.
fn load(plan: &Plan) -> (Vec<u8>, Rows, Loaded) {
    let file = Records::from(plan).bytes();
    let rows = Rows::open(&file, Tables::marked()).expect("the plan is accepted");
    let loaded = Loaded::new(&file);
    assert!(loaded.network().is_ok());
    (file, rows, loaded)
}

fn nearest(name: &str, plan: &Plan, reach: f32, rounds: usize) {
    let (file, mut rows, loaded) = load(plan);
    let net = loaded.network().expect("accepted");
    let mut rng = Rng::new(3);
    let points: Vec<[f32; 3]> = (0..256).map(|_| point_near(&mut rng, plan, reach)).collect();
    let mut lists = Lists::full_of([0; 4], 0, 0.0);
    let mut told = 0;
    let [ours, theirs] = timed(
        rounds,
        points.len(),
        [
            &mut |k| told += rows.ask(&Query::Nearest { point: black_box(points[k]) }, &mut lists).wholes[0],
            &mut |k| done(net.nearest_lane(Point::from_array(black_box(points[k])))),
        ],
    );
    black_box(told);
    row(name, "query, index built", ours, theirs);
    let [build, built] = timed(
        rounds,
        4,
        [&mut |_| rows.build(), &mut |_| done(LaneIndex::driving(black_box(&net.lanes)))],
    );
    row(name, "index and query", build + ours, built + theirs);
    let [open, opened] = timed(
        rounds,
        1,
        [
            &mut |_| {
                black_box(rows.load(black_box(&file)));
                rows.build();
            },
            &mut |_| done(Loaded::new(black_box(&file))),
        ],
    );
    row(name, "file, index and query", open + ours, opened + theirs);
}

fn routes(count: usize, rounds: usize) {
    let plan = town(count);
    let (_, rows, loaded) = load(&plan);
    let net = loaded.network().expect("accepted");
    let mut rng = Rng::new(4);
    let pairs: Vec<[[f32; 3]; 2]> = (0..64).map(|_| [0, 1].map(|_| point_near(&mut rng, &plan, 2.0))).collect();
    let mut lists = Lists::full_of(ROOM, 0, 0.0);
    let [ours, theirs] = timed(
        rounds,
        pairs.len(),
        [
            &mut |k| done(rows.ask(&Query::Route { from: pairs[k][0], to: pairs[k][1] }, &mut lists)),
            &mut |k| done(net.route(Point::from_array(pairs[k][0]), Point::from_array(pairs[k][1]))),
        ],
    );
    row(&format!("{count} lanes, {} links", plan.links.len()), "plan loaded", ours, theirs);
}

fn advances(name: &str, count: usize, distance: f64, rounds: usize) {
    let plan = town(count);
    let (_, rows, loaded) = load(&plan);
    let net = loaded.network().expect("accepted");
    let from: Vec<usize> = (0..32).map(|k| k * count / 32).collect();
    let mut lists = Lists::full_of(ROOM, 0, 0.0);
    let asked = |k: usize| Query::Advance { lane: from[k], s: 20.0, offset: 0.0, distance };
    let (mut keys, mut ends) = (0, 0);
    for k in 0..from.len() {
        let said = rows.ask(&asked(k), &mut lists);
        assert_eq!(said.number, 0);
        keys = keys.max(said.wholes[0]);
        ends = ends.max(said.wholes[1]);
    }
    let [ours, theirs] = timed(
        rounds,
        from.len(),
        [
            &mut |k| done(rows.ask(&asked(k), &mut lists)),
            &mut |k| done(net.advance(LanePosition { lane: LaneId(from[k]), s: 20.0, offset: 0.0 }, black_box(distance))),
        ],
    );
    row(&format!("{name}: {distance} m, up to {keys} keys, {ends} positions"), "plan loaded", ours, theirs);
}

fn main() {
    let rounds = std::env::args().nth(1).map_or(30, |n| n.parse().expect("a number"));
    println!("| plan | what | Kartsodi | Rust | ratio |\n|---|---|---|---|---|");
    nearest("spread: 64 lanes of 17 points", &spread(64, 17, 3000.0, 300.0), 50.0, rounds);
    nearest("compact: 48 lanes of 9 points", &spread(48, 9, 20.0, 40.0), 5.0, rounds);
    nearest("parallel: 64 lanes of 17 points", &parallel(64, 17), 5.0, rounds);
    nearest("one line: 256 lanes of 16 points", &one_line(256, 16), 5.0, rounds);
    for count in [16, 64, 256] {
        routes(count, rounds);
    }
    advances("short", 256, 10.0, rounds);
    advances("next lane", 256, 60.0, rounds);
    advances("many branches", 256, 300.0, rounds);
}
