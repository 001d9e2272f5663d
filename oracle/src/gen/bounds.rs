//! Every number of document 01 that a file can get, with its boundaries from both sides.

use super::sketch::*;
use super::Case;
use crate::reader::{LaneRecord, LinkRecord, PlaceRecord, Plan, Query, SectionRecord};
use crate::write::{lane_payload, link_payload, place_payload, query_payload, record, section_payload, Records};

/// A plan with one record of each kind, all of them good.
fn good() -> Plan {
    let mut plan = Plan {
        lanes: vec![lane(1, &[[0.0; 3], [8.0, 0.0, 0.0]])],
        links: vec![link(1, SUCCESSOR, 1)],
        queries: vec![route([6.0, 0.0, 0.0], [2.0, 0.0, 0.0]), advance(1, 2.0, 0.5, 3.0), beside(1, 2.0, 0)],
        ..Plan::default()
    };
    place_alone(&mut plan, 1, 0, &[0.0, 8.0]);
    plan
}

/// One record of each kind, the lane also with tangents.
fn kinds() -> Vec<(&'static str, u16, Vec<u8>)> {
    let plan = good();
    let with_ends =
        LaneRecord { number: 9, ends: Some([[1.0, 0.0, 0.0], [f32::NAN, 2.0, -0.0]]), ..plan.lanes[0].clone() };
    let queries = plan.queries.iter().filter_map(query_payload).collect::<Vec<_>>();
    let lane_9 = LaneRecord { number: 9, ..plan.lanes[0].clone() };
    let section = SectionRecord { index: 7, ..plan.sections[0].clone() };
    let place = PlaceRecord { od_id: -2, lane: 1, road: 0, index: 7 };
    vec![
        ("lane", 1, lane_payload(&lane_9)),
        ("lane-ends", 1, lane_payload(&with_ends)),
        ("link", 2, link_payload(&plan.links[0])),
        ("section", 3, section_payload(&section)),
        ("place", 4, place_payload(&place)),
        ("route", 16, queries[0].1.clone()),
        ("advance", 17, queries[1].1.clone()),
        ("beside", 18, queries[2].1.clone()),
    ]
}

pub fn cases() -> Vec<Case> {
    let mut cases = Vec::new();
    cut_short(&mut cases);
    other_lengths(&mut cases);
    other_kinds(&mut cases);
    lane_fields(&mut cases);
    coordinates(&mut cases);
    small_fields(&mut cases);
    section_fields(&mut cases);
    station_rows(&mut cases);
    section_ends(&mut cases);
    section_counts(&mut cases);
    limits(&mut cases);
    faults_past_limits(&mut cases);
    twice(&mut cases);
    not_twice(&mut cases);
    absent(&mut cases);
    sizes(&mut cases);
    order_of_numbers(&mut cases);
    cases
}

fn add(cases: &mut Vec<Case>, name: String, file: Vec<u8>) {
    let queries = [0, 1, 2].map(|side| Query::Beside { lane: 1, s: 2.0, side }).to_vec();
    cases.push(Case { name: format!("bounds-{name}"), file, queries });
}

fn add_plan(cases: &mut Vec<Case>, name: &str, plan: &Plan) {
    add(cases, name.to_string(), Records::from(plan).bytes());
}

/// A good plan, then a record that ends after each of its bytes.
fn cut_short(cases: &mut Vec<Case>) {
    for (name, kind, payload) in kinds() {
        let whole = record(kind, &payload);
        for end in 1..=whole.len() {
            add(cases, format!("cut-{name}-{end}"), [&whole[..end]].concat());
        }
        let behind = [Records::from(&good()).bytes(), whole[..whole.len() - 1].to_vec()].concat();
        add(cases, format!("cut-behind-{name}"), behind);
    }
}

/// Payloads of every length up to three bytes too long, with a header that says so.
fn other_lengths(cases: &mut Vec<Case>) {
    for (name, kind, payload) in kinds() {
        for length in 0..=payload.len() + 3 {
            let mut other = payload.clone();
            other.resize(length, 0);
            add(cases, format!("length-{name}-{length}"), record(kind, &other));
        }
    }
    for length in [u32::MAX, u32::MAX - 5, u32::MAX - 6, 1 << 31, 1, 0] {
        for kind in [0u16, 1, 18, 999] {
            let header = [&length.to_le_bytes()[..], &kind.to_le_bytes()].concat();
            add(cases, format!("header-{length}-{kind}"), header);
        }
    }
}

fn other_kinds(cases: &mut Vec<Case>) {
    for kind in (0..=24).chain([255, 256, 257, 258, 259, 260, 272, 273, 274, 275, 512, 4096, 65_535]) {
        for length in [0, 5, 10, 11, 24, 26, 28] {
            add(cases, format!("kind-{kind}-{length}"), record(kind, &vec![0; length]));
        }
    }
}

fn lane_fields(cases: &mut Vec<Case>) {
    let payload = lane_payload(&good().lanes[0]);
    for (field, values) in [(2usize, vec![0u8, 1, 26, 27, 28, 29, 128, 255]), (3, vec![0, 1, 2, 3, 128, 255])] {
        for value in values {
            let mut other = payload.clone();
            other[field] = value;
            add(cases, format!("lane-byte-{field}-{value}"), record(1, &other));
        }
    }
    for ends in [0u8, 1, 2, 3, 128, 255] {
        for tangents in [0usize, 12, 23, 24, 25, 48] {
            let mut other = payload.clone();
            other[4] = ends;
            other.resize(payload.len() + tangents, 0);
            add(cases, format!("lane-ends-{ends}-{tangents}"), record(1, &other));
        }
    }
    for count in [0u16, 1, 2, 3, 256, 65_535] {
        for held in [0usize, 1, 2, 3] {
            let mut other = payload[..7].to_vec();
            other[5..7].copy_from_slice(&count.to_le_bytes());
            other.resize(7 + 12 * held, 0);
            add(cases, format!("lane-count-{count}-{held}"), record(1, &other));
        }
    }
}

/// Each coordinate at, just inside and just outside its range.
fn coordinates(cases: &mut Vec<Case>) {
    let top = 4096.0f32;
    let values = [
        top,
        -top,
        top.next_up(),
        -top.next_up(),
        top.next_down(),
        0.0,
        -0.0,
        f32::from_bits(1),
        f32::MIN_POSITIVE,
        f32::MAX,
        f32::INFINITY,
        f32::NEG_INFINITY,
        f32::NAN,
    ];
    for value in values {
        for (point, axis) in [(0, 0), (0, 1), (0, 2), (1, 0), (1, 1), (1, 2)] {
            let mut plan = good();
            plan.lanes[0].points[point][axis] = value;
            // A route over kilometres prints thousands of points and shows no more.
            if value.abs() > 1.0 {
                plan.queries.remove(0);
            }
            add_plan(cases, &format!("coordinate-{:08X}-{point}-{axis}", value.to_bits()), &plan);
        }
    }
}

fn small_fields(cases: &mut Vec<Case>) {
    for role in [0u8, 1, 2, 3, 4, 128, 255] {
        let mut plan = good();
        plan.links.push(LinkRecord { from: 1, role, to: 1 });
        add_plan(cases, &format!("role-{role}"), &plan);
    }
    for side in [0u8, 1, 2, 3, 128, 255] {
        let mut plan = good();
        plan.queries.push(Query::Beside { lane: 1, s: 2.0, side });
        add_plan(cases, &format!("side-{side}"), &plan);
    }
    for od_id in [i32::MIN, i32::MIN + 1, -1, 0, 1, i32::MAX] {
        let mut plan = good();
        plan.places[0].od_id = od_id;
        add_plan(cases, &format!("lane-id-{od_id}"), &plan);
    }
    for number in [0u16, 1, 255, 256, 32_767, 32_768, 65_535] {
        let mut plan = good();
        plan.lanes[0].number = number;
        plan.links = vec![link(number, SUCCESSOR, number)];
        plan.places[0].lane = number;
        plan.queries = vec![advance(number, 2.0, 0.0, 20.0), beside(number, 2.0, 1), plan.queries[0]];
        add_plan(cases, &format!("number-{number}"), &plan);
    }
    for road in [0u16, 1, 255, 65_535] {
        let mut plan = good();
        plan.sections[0].road = road;
        plan.places[0].road = road;
        plan.sections[0].index = 65_535 - road;
        plan.places[0].index = 65_535 - road;
        add_plan(cases, &format!("road-{road}"), &plan);
    }
}

/// Start, end and each station at, just inside and just outside their range.
fn section_fields(cases: &mut Vec<Case>) {
    let top = 1_048_576.0f64;
    let mut values = vec![0.0, -0.0, 5e-324, -5e-324, 4.0, top, top.next_up(), top.next_down(), -1.0];
    values.extend([f64::INFINITY, f64::NEG_INFINITY, f64::NAN]);
    for value in values {
        let bits = value.to_bits();
        for field in ["start", "end", "both", "first", "last"] {
            let mut plan = good();
            let section = &mut plan.sections[0];
            match field {
                "start" => section.start = value,
                "end" => section.end = value,
                "both" => (section.start, section.end) = (value, value),
                "first" => section.stations[0] = value,
                _ => section.stations[1] = value,
            }
            add_plan(cases, &format!("section-{field}-{bits:016X}"), &plan);
        }
    }
}

/// Stations that rise, or hardly, or not.
fn station_rows(cases: &mut Vec<Case>) {
    let rows: [&[f64]; 9] = [
        &[0.0, 0.0],
        &[-0.0, 0.0],
        &[0.0, -0.0],
        &[1.0, 0.5],
        &[0.0, 5e-324],
        &[0.0, 1.0, 1.0],
        &[0.0, 2.0, 1.0],
        &[3.0],
        &[],
    ];
    for (i, row) in rows.iter().enumerate() {
        let mut plan = good();
        plan.sections.push(SectionRecord { road: 3, index: 0, start: 0.0, end: 1.0, stations: row.to_vec() });
        add_plan(cases, &format!("stations-{i}"), &plan);
    }
}

/// Starts and ends that are equal or the wrong way round, with advances from them.
fn section_ends(cases: &mut Vec<Case>) {
    let ends = [(0.0, -0.0), (-0.0, 0.0), (1.0, 1.0f64.next_down()), (1.0, 1.0), (8.0, 8.0)];
    for (i, (start, end)) in ends.iter().enumerate() {
        let mut plan = good();
        (plan.sections[0].start, plan.sections[0].end) = (*start, *end);
        plan.queries = [0.0, -0.0, 1.0, 8.0].map(|s| advance(1, s, 0.0, 1.0)).to_vec();
        add_plan(cases, &format!("section-ends-{i}"), &plan);
    }
}

/// Counts of stations against what the payload holds.
fn section_counts(cases: &mut Vec<Case>) {
    for count in [0u16, 1, 2, 3, 65_535] {
        for held in [0usize, 1, 2, 3] {
            let mut payload = section_payload(&good().sections[0])[..22].to_vec();
            payload[20..22].copy_from_slice(&count.to_le_bytes());
            payload.extend((0..held).flat_map(|i| (i as f64).to_bits().to_le_bytes()));
            add(cases, format!("section-count-{count}-{held}"), record(3, &payload));
        }
    }
}

/// Each table full, and one past.
fn limits(cases: &mut Vec<Case>) {
    for more in [0, 1] {
        lane_limits(cases, more);
        let links = vec![link(1, SUCCESSOR, 1); 2048 + more];
        add_plan(cases, &format!("links-{}", 2048 + more), &Plan { links, ..good() });
        section_limits(cases, more);
    }
}

fn step(i: usize) -> [f32; 3] {
    [i as f32 * 0.5, 0.0, 0.0]
}

/// So many lanes of two points, one behind the other.
fn lane_row(count: usize) -> Vec<LaneRecord> {
    (0..count).map(|i| lane(i as u16, &[step(i), step(i + 1)])).collect()
}

fn lane_limits(cases: &mut Vec<Case>, more: usize) {
    let asked = vec![route([3.0, 0.0, 0.0], [100.0, 0.0, 0.0])];
    let plan = Plan { lanes: lane_row(256 + more), queries: asked, ..Plan::default() };
    add_plan(cases, &format!("lanes-{}", 256 + more), &plan);

    let mut bad_type = plan.clone();
    bad_type.lanes[255 + more].kind = 28;
    add_plan(cases, &format!("lanes-{}-bad-type", 256 + more), &bad_type);

    let many = |count: usize| -> Vec<[f32; 3]> { (0..count).map(step).collect() };
    let one = Plan { lanes: vec![lane(1, &many(4096 + more))], ..Plan::default() };
    add_plan(cases, &format!("points-one-lane-{}", 4096 + more), &one);
    let two = Plan { lanes: vec![lane(1, &many(4000)), lane(2, &many(96 + more))], ..Plan::default() };
    add_plan(cases, &format!("points-two-lanes-{}", 4096 + more), &two);
    let twice = Plan { lanes: vec![lane(1, &many(4000)), lane(1, &many(96 + more))], ..Plan::default() };
    add_plan(cases, &format!("points-twice-{}", 4096 + more), &twice);
}

fn section_limits(cases: &mut Vec<Case>, more: usize) {
    let section = |i: usize, count: usize| {
        let stations = (0..count).map(|k| k as f64).collect();
        SectionRecord { road: 9, index: i as u16, start: 0.0, end: 8.0, stations }
    };
    let sections = (0..64 + more).map(|i| section(i, 2)).collect();
    add_plan(cases, &format!("sections-{}", 64 + more), &Plan { sections, ..Plan::default() });
    let sections = vec![section(0, 4000), section(1, 96 + more)];
    add_plan(cases, &format!("stations-{}", 4096 + more), &Plan { sections, ..Plan::default() });
    let sections = vec![section(0, 4096 + more)];
    add_plan(cases, &format!("stations-one-{}", 4096 + more), &Plan { sections, ..Plan::default() });

    let place = |i: usize| PlaceRecord { lane: i as u16, road: 9, index: 0, od_id: i as i32 };
    let places = (0..256 + more).map(place).collect();
    let plan = Plan { lanes: lane_row(256), sections: vec![section(0, 2)], places, ..Plan::default() };
    add_plan(cases, &format!("places-{}", 256 + more), &plan);
}

/// A record that passes a limit and has a bad field is refused for the field.
fn faults_past_limits(cases: &mut Vec<Case>) {
    let full = Plan { lanes: lane_row(256), ..Plan::default() };
    let last = |points: &[[f32; 3]]| LaneRecord { number: 999, ..lane(999, points) };
    let faults = [
        ("one-point", last(&[step(1)])),
        ("direction", LaneRecord { direction: 3, ..last(&[step(1), step(2)]) }),
        ("coordinate", last(&[step(1), [5_000.0, 0.0, 0.0]])),
        ("none", last(&[step(1), step(2)])),
    ];
    for (name, fault) in faults {
        let mut plan = full.clone();
        plan.lanes.push(fault);
        add_plan(cases, &format!("lanes-257-{name}"), &plan);
    }
    let links = vec![link(1, SUCCESSOR, 1); 2048];
    let mut plan = Plan { links, ..good() };
    plan.links.push(link(1, 3, 1));
    add_plan(cases, "links-2049-role", &plan);
    let section = |i: u16| SectionRecord { road: 9, index: i, ..good().sections[0].clone() };
    let mut plan = Plan { sections: (0..64).map(section).collect(), ..Plan::default() };
    plan.sections.push(SectionRecord { start: 9.0, ..section(64) });
    add_plan(cases, "sections-65-start", &plan);
}

/// What may not stand twice.
fn twice(cases: &mut Vec<Case>) {
    let mut plan = good();
    plan.lanes.push(plan.lanes[0].clone());
    add_plan(cases, "twice-lane", &plan);

    let mut plan = good();
    plan.sections.push(SectionRecord { stations: vec![1.0, 2.0, 3.0], ..plan.sections[0].clone() });
    add_plan(cases, "twice-section", &plan);

    let mut plan = good();
    plan.places.push(PlaceRecord { od_id: 5, ..plan.places[0].clone() });
    add_plan(cases, "twice-place-of-lane", &plan);

    let mut plan = good();
    plan.lanes.push(LaneRecord { number: 2, ..plan.lanes[0].clone() });
    plan.places.push(PlaceRecord { lane: 2, ..plan.places[0].clone() });
    add_plan(cases, "twice-lane-id", &plan);

    // Also where the lane or the section is missing: 7 comes before 8.
    let mut plan = good();
    plan.places.push(PlaceRecord { lane: 77, ..plan.places[0].clone() });
    add_plan(cases, "twice-lane-id-lane-missing", &plan);
    let mut plan = good();
    plan.places.push(PlaceRecord { lane: 1, road: 50, index: 1, od_id: 3 });
    add_plan(cases, "twice-place-section-missing", &plan);
    let mut plan = good();
    plan.places = vec![
        PlaceRecord { lane: 1, road: 50, index: 1, od_id: 3 },
        PlaceRecord { lane: 2, road: 50, index: 1, od_id: 3 },
    ];
    add_plan(cases, "twice-in-missing-section", &plan);
}

/// What looks as if it stood twice and does not, and links, which may.
fn not_twice(cases: &mut Vec<Case>) {
    for (road, index, od_id) in [(0, 1, -1), (1, 0, -1), (0, 0, 1)] {
        let mut plan = good();
        plan.lanes.push(LaneRecord { number: 2, ..plan.lanes[0].clone() });
        plan.sections.push(SectionRecord { index: 1, ..plan.sections[0].clone() });
        plan.sections.push(SectionRecord { road: 1, ..plan.sections[0].clone() });
        plan.places.push(PlaceRecord { lane: 2, road, index, od_id });
        plan.queries.push(beside(1, 2.0, 0));
        add_plan(cases, &format!("once-{road}-{index}-{od_id}"), &plan);
    }
    let mut plan = good();
    plan.links.push(plan.links[0].clone());
    add_plan(cases, "links-twice", &plan);
}

/// What may not be missing, and what may.
fn absent(cases: &mut Vec<Case>) {
    for role in 0..3 {
        let mut plan = good();
        plan.links.push(link(2, role, 1));
        add_plan(cases, &format!("absent-from-{role}"), &plan);
        let mut plan = good();
        plan.links.insert(0, link(1, role, 2));
        add_plan(cases, &format!("absent-to-{role}"), &plan);
    }
    let mut plan = good();
    plan.places[0].lane = 2;
    add_plan(cases, "absent-placed-lane", &plan);
    for (road, index) in [(0, 1), (1, 0), (40, 0)] {
        let mut plan = good();
        (plan.places[0].road, plan.places[0].index) = (road, index);
        add_plan(cases, &format!("absent-section-{road}-{index}"), &plan);
    }
    let mut plan = good();
    plan.sections[0].stations.push(9.0);
    add_plan(cases, "counts-differ", &plan);
    let mut plan = good();
    plan.sections.push(SectionRecord { index: 4, stations: vec![0.0, 1.0, 2.0], ..plan.sections[0].clone() });
    add_plan(cases, "counts-differ-unplaced", &plan);
    let mut plan = good();
    plan.queries = vec![advance(2, 2.0, 0.0, 1.0), beside(2, 2.0, 0)];
    add_plan(cases, "absent-query-lane", &plan);

    let mut records = Records::from(&good());
    records.0.reverse();
    add(cases, "reversed".to_string(), records.bytes());
}

/// Files of 65,536 bytes and their neighbours.
fn sizes(cases: &mut Vec<Case>) {
    let (_, payload) = query_payload(&advance(1, 2.0, 0.0, 3.0)).expect("an advance has a record");
    let full = record(17, &payload).repeat(2048);
    assert_eq!(full.len(), 65_536);
    add(cases, "size-65536".to_string(), full.clone());
    add(cases, "size-65537".to_string(), [&full[..], &[0]].concat());
    add(cases, "size-65535".to_string(), full[..65_535].to_vec());
    add(cases, "size-65537-bad-first".to_string(), [&[9u8][..], &full[..]].concat());
    add(cases, "size-65536-unknown".to_string(), [&record(99, &[0; 26])[..], &full[32..]].concat());
    add(cases, "size-1".to_string(), vec![0]);
    add(cases, "size-131072".to_string(), full.repeat(2));
    add(cases, "size-1000000".to_string(), vec![0; 1_000_000]);
}

/// The first failing record decides, and within it 3 before 4 before 5 before 6.
fn order_of_numbers(cases: &mut Vec<Case>) {
    let bad_type = LaneRecord { kind: 28, ..good().lanes[0].clone() };
    let run_past = |kind: u16| [&40u32.to_le_bytes()[..], &kind.to_le_bytes(), &[0; 39]].concat();
    let mut long_bad_type = lane_payload(&bad_type);
    long_bad_type.push(0);
    let faults = [
        ("unknown-past-the-file", run_past(99)),
        ("unknown", record(99, &[])),
        ("bad-type-wrong-length", record(1, &long_bad_type)),
        ("bad-type", record(1, &lane_payload(&bad_type))),
        ("bad-role", record(2, &[1, 0, 3, 1, 0])),
        ("missing-from", record(2, &[9, 0, 0, 1, 0])),
        ("again", record(1, &lane_payload(&good().lanes[0]))),
    ];
    let start = Records::from(&good()).bytes();
    for (first, a) in &faults {
        add(cases, format!("order-{first}"), [&start[..], a].concat());
        for (second, b) in &faults {
            add(cases, format!("order-{first}-then-{second}"), [&start[..], a, b].concat());
        }
    }
}
