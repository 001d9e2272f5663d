//! `make` of `show` gives the same bytes, and `answer --bits` prints what `plan-run` prints: over the oracle's fixed list, the examples and
//! generated plans.

mod common;

use common::{file, fixed, path, run, Random};
use kartsodi::records::{
    self, AdvanceQuery, BesideQuery, Direction, Lane, LaneType, Link, Place, Record, Role, RouteQuery, Section,
};
use kartsodi::{LaneId, LanePosition, Plan, Point, Side, Vector};

/// `make` of `show`.
fn round(plan: &[u8]) -> Vec<u8> {
    run(&["make"], &run(&["show"], plan).done()).done()
}

#[test]
fn accepted_plans_of_the_fixed_list() {
    let accepted: Vec<_> = fixed().into_iter().filter(|(_, plan, _)| Plan::new(plan).is_ok()).collect();
    assert!(accepted.len() > 200, "{} accepted", accepted.len());
    for (name, plan, _) in accepted {
        assert_eq!(records::write(&records::read(&plan).unwrap()).unwrap(), plan, "{name}");
        assert_eq!(round(&plan), plan, "{name}");
    }
}

/// Refused plans whose records can be read are the same again too, where `make` is told not to ask.
#[test]
fn refused_plans_of_the_fixed_list() {
    let mut shown = 0;
    for (name, plan, _) in fixed().into_iter().filter(|(_, plan, _)| Plan::new(plan).is_err()) {
        if records::read(&plan).is_ok() {
            let text = run(&["show"], &plan).done();
            assert_eq!(run(&["make", "--unchecked"], &text).done(), plan, "{name}");
            run(&["make"], &text).refused();
            shown += 1;
        } else {
            run(&["show"], &plan).refused();
        }
    }
    assert!(shown > 10, "{shown} shown");
}

#[test]
fn bits_are_those_of_plan_run() {
    for (name, plan, printed) in fixed() {
        let ran = run(&["answer", "--bits", "--plan"], &plan);
        assert_eq!(ran.out, printed, "{name}");
        let refused = !printed.starts_with(b"plan 0 ");
        assert_eq!((ran.status, ran.err.is_empty()), (refused.into(), !refused), "{name}: {}", ran.err);
    }
}

#[test]
fn the_example() {
    let (text, plan) = (file("examples/junction.txt"), file("examples/junction.plan"));
    assert_eq!(run(&["make"], &text).done(), plan);
    let bits = file("examples/junction.answer");
    for name in ["examples/junction.txt", "examples/junction.plan"] {
        let name = path(name);
        assert_eq!(run(&["answer", "--bits", name.to_str().unwrap()], b"").done(), bits);
    }
    assert_eq!(run(&["answer", "--bits"], &text).done(), bits);
    assert_eq!(run(&["answer", "--bits"], &plan).done(), bits);
}

#[test]
fn an_empty_plan() {
    for input in [&b""[..], b"# nothing\n\n"] {
        assert_eq!(run(&["make"], input).done(), b"");
        assert_eq!(run(&["answer", "--bits"], input).done(), b"plan 0 0 0\n");
    }
    assert_eq!(run(&["show"], b"").done(), b"");
}

/// A coordinate of a lane: any float from -4,096 to 4,096, zeros of both signs and the smallest numbers among them.
fn coordinate(random: &mut Random) -> f32 {
    const ODD: [f32; 6] = [0.0, -0.0, 4096.0, -4096.0, 1e-45, -1.5e-39];
    match random.below(4) {
        0 => *random.pick(&ODD),
        _ => (random.bits() as i32) as f32 / 524_288.0,
    }
}

/// Any bits, as questions and tangents may have.
fn any(random: &mut Random) -> f32 {
    f32::from_bits(random.bits() as u32)
}

fn any_wide(random: &mut Random) -> f64 {
    f64::from_bits(random.bits())
}

fn point(random: &mut Random, mut axis: impl FnMut(&mut Random) -> f32) -> Point {
    Point { x: axis(random), y: axis(random), z: axis(random) }
}

fn vector(random: &mut Random) -> Vector {
    Vector { x: any(random), y: any(random), z: any(random) }
}

fn lane(random: &mut Random, number: usize, count: usize) -> Record {
    Record::Lane(Lane {
        lane: LaneId(number),
        kind: *random.pick(LaneType::ALL),
        direction: *random.pick(Direction::ALL),
        points: (0..count).map(|_| point(random, coordinate)).collect(),
        ends: (random.below(3) == 0).then(|| [vector(random), vector(random)]),
    })
}

fn section(random: &mut Random, road: u16, count: usize) -> Record {
    let mut stations: Vec<f64> = (0..count).map(|i| i as f64 * 1000.0 + random.below(1 << 30) as f64 / 1e7).collect();
    stations[0] = *random.pick(&[0.0, -0.0, 5e-324]);
    let end = *random.pick(&[1_048_576.0, 100.0, 1.0 / 3.0]);
    Record::Section(Section { road, index: random.bits() as u16, start: -0.0, end, stations })
}

fn question(random: &mut Random) -> Record {
    let lane = LaneId(random.below(65536));
    match random.below(3) {
        0 => Record::Route(RouteQuery { from: point(random, any), to: point(random, any) }),
        1 => {
            let from = LanePosition { lane, s: any_wide(random), offset: any_wide(random) };
            Record::Advance(AdvanceQuery { from, distance: any_wide(random) })
        }
        _ => Record::Beside(BesideQuery { lane, s: any_wide(random), side: *random.pick(&[Side::Left, Side::Right]) }),
    }
}

/// An accepted plan with every kind of record, in any order.
fn generated(random: &mut Random) -> Vec<Record> {
    let mut all = Vec::new();
    for road in 0..1 + random.below(4) as u16 {
        let count = 2 + random.below(5);
        let section = section(random, road, count);
        let Record::Section(Section { index, .. }) = section else { unreachable!() };
        all.push(section);
        for k in 0..random.below(4) {
            let number = usize::from(road) * 100 + k;
            all.push(lane(random, number, count));
            let place = Place { lane: LaneId(number), road, index, number: (random.bits() as i32) & !7 | k as i32 };
            all.push(Record::Place(place));
            let to = LaneId(random.below(65536));
            all.push(Record::Link(Link { from: LaneId(number), role: *random.pick(Role::ALL), to }));
        }
    }
    all.extend((0..random.below(6)).map(|_| question(random)).collect::<Vec<_>>());
    for i in (1..all.len()).rev() {
        all.swap(i, random.below(i + 1));
    }
    all
}

#[test]
fn generated_plans() {
    let mut random = Random(17);
    for _ in 0..300 {
        let all = generated(&mut random);
        let plan = records::write(&all).unwrap();
        assert!(Plan::new(&plan).is_ok(), "{all:?}");
        assert_eq!(round(&plan), plan, "{all:?}");
    }
}
