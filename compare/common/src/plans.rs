//! Plans that more than one benchmark asks.

use kartsodi_oracle::gen::sketch::{lane, link_by_ends};
use kartsodi_oracle::reader::{PlaceRecord, Plan, SectionRecord};

/// One-way streets of 60 m between the crossings of a lattice, both ways, linked where they meet, all placed in one section.
pub fn town(count: usize) -> Plan {
    let side = (2..).find(|s| 4 * s * (s - 1) >= count).expect("some lattice has as many");
    let spot = |x: usize, y: usize| [60.0 * x as f32, 60.0 * y as f32, 0.0];
    let mut pairs = Vec::new();
    for x in 0..side {
        for y in 0..side {
            for (a, b) in [(x + 1, y), (x, y + 1)] {
                if a < side && b < side {
                    pairs.extend([(spot(x, y), spot(a, b)), (spot(a, b), spot(x, y))]);
                }
            }
        }
    }
    pairs.truncate(count);
    let mut plan = Plan::default();
    for (number, (from, to)) in pairs.into_iter().enumerate() {
        plan.lanes.push(lane(number as u16, &[from, to]));
        plan.places.push(PlaceRecord { lane: number as u16, road: 0, index: 0, od_id: number as i32 });
    }
    link_by_ends(&mut plan);
    plan.sections.push(SectionRecord { road: 0, index: 0, start: 0.0, end: 60.0, stations: vec![0.0, 60.0] });
    plan
}
