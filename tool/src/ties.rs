//! Whether another chain of lanes costs the same as a route's. The library answers with one chain; a reader who found another of the same cost was
//! not wrong, and a setter may want to draw the junction so that there is none.

use crate::paper::{lanes, links};
use kartsodi::records::{Lane, Record, Role};
use kartsodi::{LaneId, Route};
use std::collections::HashMap;

/// Another chain from the route's first lane to its last, at the same cost, added up in f32 from first to last as the library does. None for a route
/// on one lane.
pub fn other_chain(records: &[Record], route: &Route) -> Option<Vec<LaneId>> {
    if route.chain.len() < 2 {
        return None;
    }
    let lanes: Vec<&Lane> = lanes(records).collect();
    let rows: HashMap<LaneId, usize> = lanes.iter().enumerate().map(|(row, lane)| (lane.lane, row)).collect();
    let chain: Vec<usize> = route.chain.iter().map(|lane| rows.get(lane).copied()).collect::<Option<_>>()?;
    let search = Search::new(&lanes, &rows, records, chain[0]);
    // Where this search came to another cost than the library, it would be this one that is wrong.
    let goal = *chain.last()?;
    if search.costs[goal] != route.length {
        return None;
    }
    let found = search.chain_unlike(&chain, &mut vec![goal], &mut 0)?;
    Some(found.into_iter().map(|row| lanes[row].lane).collect())
}

/// The least cost of a chain from the start to each lane, by rows.
struct Search {
    start: usize,
    /// The steps onto each lane: the lane before, and what it costs to leave it so.
    onto: Vec<Vec<(usize, f32)>>,
    /// Infinite where no chain leads.
    costs: Vec<f32>,
}

impl Search {
    fn new(lanes: &[&Lane], rows: &HashMap<LaneId, usize>, records: &[Record], start: usize) -> Search {
        let (mut from, mut onto) = (vec![vec![]; lanes.len()], vec![vec![]; lanes.len()]);
        for link in links(records) {
            let (Some(&before), Some(&after)) = (rows.get(&link.from), rows.get(&link.to)) else { continue };
            let cost = match link.role {
                Role::Successor => length(lanes[before]),
                Role::Neighbour => 30.0,
                Role::Predecessor => continue,
            };
            from[before].push((after, cost));
            onto[after].push((before, cost));
        }
        Search { start, onto, costs: least_costs(&from, start) }
    }

    /// The cost up to a lane that a chain goes on from; the start is left at no cost.
    fn cost(&self, lane: usize) -> f32 {
        if lane == self.start {
            0.0
        } else {
            self.costs[lane]
        }
    }

    /// A cheapest chain that is not this one and that ends with `back`, which stands last to first.
    fn chain_unlike(&self, chain: &[usize], back: &mut Vec<usize>, tried: &mut usize) -> Option<Vec<usize>> {
        const MOST: usize = 10_000;
        let last = *back.last()?;
        for &(before, step) in &self.onto[last] {
            *tried += 1;
            if *tried > MOST || self.cost(before) + step != self.costs[last] {
                continue;
            }
            if before == self.start {
                let found: Vec<usize> = std::iter::once(before).chain(back.iter().rev().copied()).collect();
                if found != chain {
                    return Some(found);
                }
            } else if !back.contains(&before) {
                back.push(before);
                if let Some(found) = self.chain_unlike(chain, back, tried) {
                    return Some(found);
                }
                back.pop();
            }
        }
        None
    }
}

/// Dijkstra's search: the start gets a cost only where a chain of one or more steps leads back to it.
fn least_costs(from: &[Vec<(usize, f32)>], start: usize) -> Vec<f32> {
    let mut costs = vec![f32::INFINITY; from.len()];
    let mut open = vec![true; from.len()];
    let mut next = Some((start, 0.0));
    while let Some((lane, cost)) = next {
        for &(after, step) in &from[lane] {
            costs[after] = costs[after].min(cost + step);
        }
        let reached = (0..from.len()).filter(|row| open[*row] && costs[*row] < f32::INFINITY);
        next = reached.min_by(|a, b| costs[*a].total_cmp(&costs[*b])).map(|row| (row, costs[row]));
        if let Some((row, _)) = next {
            open[row] = false;
        }
    }
    costs
}

/// A lane's length in f32, piece by piece as the library adds it up.
fn length(lane: &Lane) -> f32 {
    lane.points.windows(2).fold(0.0, |before, ends| {
        let (dx, dy, dz) = (ends[1].x - ends[0].x, ends[1].y - ends[0].y, ends[1].z - ends[0].z);
        before + (dx * dx + dy * dy + dz * dz).sqrt()
    })
}

#[cfg(test)]
mod tests {
    use super::other_chain;
    use crate::text::parse;
    use kartsodi::records::Record;
    use kartsodi::{LaneId, Route};

    /// Two ways from lane 1 to lane 4: over lane 2, and over lane 3, which is `three` metres long.
    fn two_ways(three: f32) -> Vec<Record> {
        let lane = |number, length| format!("lane {number} driving forward 0 0 0 {length} 0 0\n");
        let lanes = lane(1, 8.0) + &lane(2, 8.0) + &lane(3, three) + &lane(4, 8.0);
        let links =
            "link 1 successor 2\nlink 1 successor 3\nlink 2 successor 4\nlink 3 successor 4\nlink 3 neighbour 9\n";
        parse(&(lanes + links)).unwrap().into_iter().map(|line| line.record).collect()
    }

    fn route(chain: &[usize], length: f32) -> Route {
        Route { chain: chain.iter().copied().map(LaneId).collect(), points: vec![], length }
    }

    #[test]
    fn equal_chains_are_found() {
        let equal = other_chain(&two_ways(8.0), &route(&[1, 3, 4], 16.0));
        assert_eq!(equal, Some([1, 2, 4].map(LaneId).to_vec()));
        assert_eq!(other_chain(&two_ways(8.5), &route(&[1, 2, 4], 16.0)), None);
        assert_eq!(other_chain(&two_ways(8.0), &route(&[1], 0.0)), None);
        assert_eq!(other_chain(&two_ways(8.0), &route(&[1, 3, 4], 17.0)), None, "a cost that is not the library's");
    }

    #[test]
    fn rings_without_length_end() {
        let ring: String = (1..=9).map(|k| format!("lane {k} driving forward 0 0 0 0 0 0\n")).collect();
        let links: String = (1..=9).flat_map(|a| (1..=9).map(move |b| format!("link {a} successor {b}\n"))).collect();
        let records: Vec<Record> = parse(&(ring + &links)).unwrap().into_iter().map(|line| line.record).collect();
        assert!(other_chain(&records, &route(&[1, 9], 0.0)).is_some());
    }
}
