//! The plan file as records: read, written back, compared with what the library reads of it.

use kartsodi::records::{self, Direction, Kind, Lane, LaneType, Link, Place, ReadFault, Reader, Record, Role, Section};
use kartsodi::records::{WriteError, WriteFault};
use kartsodi::{LaneId, Plan, Point, Refusal, Vector};
use std::path::Path;

/// The plans of the oracle's fixed list.
fn fixed() -> Vec<Vec<u8>> {
    let folder = Path::new(env!("CARGO_MANIFEST_DIR")).join("../oracle/fixed");
    let names = std::fs::read_dir(folder).unwrap().map(|entry| entry.unwrap().path());
    let plans = names.filter(|name| name.extension().is_some_and(|ending| ending == "plan"));
    plans.map(|name| std::fs::read(name).unwrap()).collect()
}

fn straight(number: usize) -> Lane {
    let points = [0.0, 8.0].map(|x| Point { x, y: 0.0, z: 0.0 }).to_vec();
    Lane { lane: LaneId(number), kind: LaneType::Driving, direction: Direction::Forward, points, ends: None }
}

/// Floats by their bits, all NaNs as one: so the library has them.
fn bits(x: f32) -> u32 {
    if x.is_nan() { f32::NAN } else { x }.to_bits()
}

/// A lane, without its floats, and the floats of its points and its tangents by their bits.
fn lane_bits(lane: &Lane) -> (Lane, Vec<u32>) {
    let points = lane.points.iter().flat_map(|p| [p.x, p.y, p.z]);
    let ends = lane.ends.iter().flatten().flat_map(|v| [v.x, v.y, v.z]);
    let floats = points.chain(ends).map(bits).collect();
    (Lane { points: vec![], ends: lane.ends.map(|_| [Vector { x: 0.0, y: 0.0, z: 0.0 }; 2]), ..lane.clone() }, floats)
}

#[test]
fn accepted_files_are_written_back() {
    let mut accepted = 0;
    for file in fixed().iter().filter(|file| Plan::new(file).is_ok()) {
        let all = records::read(file).unwrap();
        assert_eq!(records::write(&all).unwrap(), *file);
        accepted += 1;
    }
    assert!(accepted > 200);
}

/// Of every accepted file the records are those that the library reads.
#[test]
fn records_of_a_plan() {
    for file in fixed() {
        let Ok(plan) = Plan::new(&file) else { continue };
        let (mut lanes, mut links, mut sections, mut places) = (vec![], vec![], vec![], vec![]);
        for record in records::read(&file).unwrap() {
            match record {
                Record::Lane(it) => lanes.push(it),
                Record::Link(it) => links.push(it),
                Record::Section(it) => sections.push(it),
                Record::Place(it) => places.push(it),
                Record::Route(_) | Record::Advance(_) | Record::Beside(_) => {}
            }
        }
        let order = |link: &Link| (lanes.iter().position(|lane| lane.lane == link.from), link.role.number());
        links.sort_by_key(order);
        let opened = plan.lanes();
        assert!(opened.iter().map(lane_bits).eq(lanes.iter().map(lane_bits)));
        assert_eq!((plan.links(), plan.sections(), plan.places()), (links, sections, places));
    }
}

/// A file that cannot be read is refused by the library with the number that the fault has, unless a record before it is refused.
#[test]
fn the_library_refuses_what_cannot_be_read() {
    let mut unread = 0;
    for file in fixed().iter().filter(|file| file.len() <= 65536) {
        if let Err(error) = records::read(file) {
            let number = Plan::new(file).map_or_else(Refusal::number, |_| 0);
            let before = Plan::new(&file[..error.offset]).map_or_else(Refusal::number, |_| 0);
            assert_eq!(number, if (2..=6).contains(&before) { before } else { error.refusal().number() });
            unread += 1;
        }
    }
    assert!(unread > 100);
}

/// Every file of every length gives an answer.
#[test]
fn reading_is_total() {
    let mut state = 1u64;
    let mut random = move || {
        state = state.wrapping_mul(6_364_136_223_846_793_005).wrapping_add(1_442_695_040_888_963_407);
        (state >> 33) as usize
    };
    let files = fixed();
    for round in 0..100_000 {
        let mut file = files[random() % files.len()].clone();
        file.truncate(300 + random() % 300);
        for _ in 0..1 + random() % 5 {
            if !file.is_empty() {
                let at = random() % file.len();
                file[at] = random() as u8;
            }
        }
        if let Ok(all) = records::read(&file) {
            assert_eq!(records::write(&all).unwrap(), file, "round {round}");
        }
    }
}

#[test]
fn what_cannot_be_read() {
    let fault = |file: &[u8]| Reader::new(file).last().unwrap().unwrap_err();
    assert_eq!(fault(&[1, 0]).fault, ReadFault::Cut { needs: 6, has: 2 });
    assert_eq!(fault(&[255, 255, 255, 255, 1, 0]).fault, ReadFault::Cut { needs: 6 + 0xFFFF_FFFF, has: 6 });
    assert_eq!(fault(&[0, 0, 0, 0, 9, 0]).fault, ReadFault::Unknown(9));
    let short = ReadFault::Length { kind: Kind::Link, needs: 5, has: 1 };
    assert_eq!(fault(&[1, 0, 0, 0, 2, 0, 7]).fault, short);
    let mut file = records::write(&[Record::Lane(straight(1)), Record::Lane(straight(2))]).unwrap();
    file[37 + 8] = 28;
    let error = fault(&file);
    assert_eq!((error.index, error.offset), (1, 37));
    assert_eq!(error.fault, ReadFault::Meaning { field: "type", is: 28, most: 27 });
    assert_eq!(error.to_string(), "record 2 at byte 37: its type is 28, and may be 0 to 27");
    assert_eq!(Reader::new(&file).count(), 2);
}

#[test]
fn what_has_no_bytes() {
    let lane = |number| Record::Lane(straight(number));
    assert!(records::write(&[lane(65535)]).is_ok());
    let too_large = WriteError { index: 1, fault: WriteFault::LaneNumber(LaneId(65536)) };
    assert_eq!(records::write(&[lane(1), lane(65536)]), Err(too_large));
    let link = Record::Link(Link { from: LaneId(1), role: Role::Neighbour, to: LaneId(1 << 40) });
    assert_eq!(records::write(&[link]).unwrap_err().fault, WriteFault::LaneNumber(LaneId(1 << 40)));
    let stations = vec![0.0; 65536];
    let section = Record::Section(Section { road: 1, index: 0, start: 0.0, end: 8.0, stations });
    assert_eq!(
        records::write(&[section]).unwrap_err().to_string(),
        "record 1: 65536 points or stations are more than 65,535"
    );
}

#[test]
fn numbers_and_names() {
    assert_eq!(LaneType::ALL.len(), 28);
    for (number, kind) in (0..).zip(LaneType::ALL) {
        assert_eq!((kind.number(), LaneType::from_number(number)), (number, Some(*kind)));
        assert_eq!(LaneType::from_name(&kind.name().to_uppercase()), Some(*kind));
        assert_eq!(kind.drives(), number == 1);
    }
    assert_eq!((LaneType::from_number(28), LaneType::from_name("bicycle")), (None, None));
    assert_eq!(LaneType::from_name("bus").map(LaneType::number), Some(3));
}

#[test]
fn places_keep_their_numbers() {
    for number in [i32::MIN, -1, 0, 1, i32::MAX] {
        let place = Place { lane: LaneId(1), road: 65535, index: 65535, number };
        let section = Section { road: 65535, index: 65535, start: 0.0, end: 8.0, stations: vec![0.0, 8.0] };
        let all = [Record::Lane(straight(1)), Record::Section(section), Record::Place(place)];
        assert_eq!(Plan::new(&records::write(&all).unwrap()).unwrap().places(), [place]);
    }
}
