//! The cases that document 01 prints and works out.

use kartsodi_oracle::answer::{beside, nearest, Answer, Loaded, Originals, Room};
use kartsodi_oracle::gen::{junction, Case};
use kartsodi_oracle::grid::Grid;
use kartsodi_oracle::network::LaneId;
use kartsodi_oracle::print;
use kartsodi_oracle::reader::{scan, Query};

fn case(name: &str) -> Case {
    let name = format!("junction-{name}");
    junction::cases().into_iter().find(|case| case.name == name).expect(&name)
}

fn printed(name: &str) -> String {
    print::run(&case(name).file)
}

#[test]
fn the_printed_case() {
    let expected = "\
plan 0 2 1
route 0 2 6 41000000
lane 1
lane 2
point 40000000 00000000 00000000
point 40800000 00000000 00000000
point 40C00000 00000000 00000000
point 41000000 00000000 00000000
point 41200000 00000000 00000000
point 41400000 00000000 00000000
";
    assert_eq!(printed("printed"), expected);
    assert_eq!(printed("queries-first"), expected);
}

#[test]
fn root_and_rounding() {
    assert_eq!(2f32.sqrt().to_bits(), 0x3FB5_04F3);
    assert_eq!(0f32.sqrt().to_bits(), 0);
    assert_eq!((0.5f64.round(), (-0.5f64).round()), (1.0, -1.0));
}

#[test]
fn buckets() {
    let bucket = |offset: f32| Grid::bucket(offset, 1.0, 4);
    assert_eq!([-1.0, 3.5, 9.0, f32::NAN, f32::INFINITY].map(bucket), [0, 3, 3, 0, 3]);
}

#[test]
fn coordinates_and_points() {
    let lane = |x: f32, count: u16| {
        let mut payload = vec![1, 0, 1, 0, 0];
        payload.extend(count.to_le_bytes());
        for _ in 0..count {
            payload.extend([x, 0.0, 0.0].iter().flat_map(|c: &f32| c.to_le_bytes()));
        }
        kartsodi_oracle::write::record(1, &payload)
    };
    assert!(scan(&lane(4096.0, 2)).is_ok());
    assert_eq!(scan(&lane(4096.0f32.next_up(), 2)), Err(5));
    assert_eq!(scan(&lane(0.0, 1)), Err(5));
}

/// Chain, points along x, and length of a case's one route.
fn route_of(name: &str) -> Result<(Vec<usize>, Vec<f32>, f32), u8> {
    let loaded = Loaded::new(&case(name).file);
    let Answer::Route(found) = loaded.answer(&loaded.plan()?.queries[0]) else { panic!("the case asks for a route") };
    let found = found?;
    let chain = found.chain.iter().map(|lane| lane.0).collect();
    Ok((chain, found.points.iter().map(|p| p.x).collect(), found.length))
}

#[test]
fn routes() {
    let (chain, _, cost) = route_of("equal-costs").unwrap();
    assert_eq!((chain, cost), (vec![1, 3, 4], 16.0));
    let (chain, _, cost) = route_of("successor-and-neighbour").unwrap();
    assert_eq!((chain, cost), (vec![1, 2], 30.0));
    assert_eq!(route_of("closed-chain"), Ok((vec![1, 1], vec![6.0, 8.0], 8.0)));
    assert_eq!(route_of("closed-chain-without-link"), Err(11));
    assert_eq!(route_of("empty-route"), Err(10));
    let (chain, _, length) = route_of("midway").unwrap();
    assert_eq!((chain, length), (vec![5], 0.0), "the first span, and no length for one lane");
}

#[test]
fn advances() {
    let text = |metres: f64| printed(&format!("advance-{metres}"));
    let at = |lane: usize, s: f64| format!("at {lane} {:016X} 0000000000000000\n", s.to_bits());
    assert_eq!(text(6.0), format!("plan 0 2 1\nadvance 0 0 1\n{}", at(1, 8.0)));
    assert_eq!(text(6.5), format!("plan 0 2 1\nadvance 0 1 1\n{}", at(2, 8.5)));
    let end = "end 2 4030000000000000 0000000000000000 4018000000000000\n";
    assert_eq!(text(20.0), format!("plan 0 2 1\nadvance 0 1 1\n{end}"));
    assert_eq!(text(0.0), format!("plan 0 2 1\nadvance 0 0 1\n{}", at(1, 2.0)));
}

#[test]
fn sides() {
    let loaded = Loaded::new(&case("sides").file);
    let net = loaded.network().unwrap();
    let of = |lane: usize, side: u8| {
        let at = kartsodi_oracle::road::LanePosition { lane: LaneId(lane), s: 4.0, offset: 0.0 };
        beside(net, at, side).map(|found| found.lane.0)
    };
    // Lane 7 is OpenDRIVE's 1 and runs backward, 8 is -1 and 9 is -2.
    assert_eq!([of(8, 0), of(8, 1), of(7, 0), of(7, 1)], [Ok(7), Ok(9), Ok(8), Err(15)]);
}

#[test]
fn one_row_finds_the_nearest() {
    let loaded = Loaded::new(&case("one-row-of-1024").file);
    let grid = &loaded.network().unwrap().index.grid;
    assert_eq!((grid.cols, grid.rows), (1024, 1));
    assert!(nearest(loaded.network().unwrap(), [0.0, 100.0, 0.0]).is_ok());
}

#[test]
fn limits_of_answers() {
    let number = |name: &str| printed(name).lines().nth(1).unwrap().to_string();
    assert_eq!(number("keys-1024"), "advance 0 1024 1");
    assert_eq!(number("keys-1025"), "advance 14 0 0");
    assert_eq!(number("positions-256"), "advance 0 258 256");
    assert_eq!(number("positions-257"), "advance 14 0 0");
    assert_eq!(number("points-4096"), "route 0 1 4096 00000000");
    assert_eq!(number("points-4097"), "route 14 0 0 00000000");
    assert_eq!(number("chain-257"), "route 0 257 512 44800000");
    let text = printed("longest-answer");
    let routes: Vec<&str> = text.lines().filter(|line| line.starts_with("route")).collect();
    assert_eq!(routes, ["route 0 257 4096 46000000", "route 14 0 0 00000000"]);
}

#[test]
fn limits_are_those_of_the_room() {
    let count = |name: &str, room: Room| {
        let loaded = Loaded::new(&case(name).file);
        match loaded.answer_with(&loaded.plan()?.queries[0], room, Originals::Compared) {
            Answer::Route(found) => found.map(|route| route.points.len()),
            Answer::Advance(found) => found.map(|advanced| advanced.positions.len()),
            _ => panic!("the case asks for a route or an advance"),
        }
    };
    let longer = Room { points: 4_097, positions: 257, ..Room::PLAN_RUN };
    assert_eq!([count("points-4097", longer), count("positions-257", longer)], [Ok(4_097), Ok(257)]);
    assert_eq!(count("chain-257", Room { lanes: 256, ..longer }), Err(14));
    assert_eq!(count("keys-1025", Room { positions: 2_000, ..longer }), Err(14), "keys have their own limit");
}

#[test]
fn an_advance_may_be_empty() {
    assert_eq!(printed("nothing-advanced").lines().nth(1), Some("advance 0 1 0"));
    let loaded = Loaded::new(&case("nothing-advanced").file);
    let asked = Query::Advance { lane: 1, s: 2.0, offset: 0.0, distance: 7.0 };
    let Answer::Advance(Ok(found)) = loaded.answer(&asked) else { panic!("an advance is answered") };
    assert_eq!((found.keys, found.positions.len()), (1, 0));
}
