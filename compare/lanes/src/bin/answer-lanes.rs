//! Answers the caller's queries through the public calls: `answer-lanes PLAN < QUERIES`, one query a line, read and printed as `oracle-run --query`
//! has them. `oracle/replay --query` runs it over the fixed list.

use compare_common::tables::Tables;
use compare_lanes::answer::{Answer, Lists, ROOM};
use compare_lanes::ours;
use kartsodi_oracle::query::parse;
use kartsodi_oracle::reader::Query;
use std::io::{read_to_string, stdin};

/// An f32 as its bits; all NaNs are one.
fn single(x: f32) -> String {
    format!(" {:08X}", if x.is_nan() { 0x7FC0_0000 } else { x.to_bits() })
}

fn double(x: f64) -> String {
    format!(" {:016X}", if x.is_nan() { 0x7FF8_0000_0000_0000 } else { x.to_bits() })
}

fn singles(all: &[f32]) -> String {
    all.iter().map(|x| single(*x)).collect()
}

fn doubles(all: &[f64]) -> String {
    all.iter().map(|x| double(*x)).collect()
}

/// The lines of an answer whose lists are `lists`.
fn lines(query: &Query, answer: &Answer, lists: &Lists) -> Vec<String> {
    let Answer { number, wholes: [a, b], floats } = *answer;
    let floats32 = floats.map(|x| x as f32);
    match query {
        Query::Pose { .. } => vec![format!("pose {number}{}", singles(&floats32))],
        Query::Nearest { .. } => vec![format!("nearest {number} {a}{}", singles(&floats32[..5]))],
        Query::Route { .. } => {
            let mut lines = vec![format!("route {number} {a} {b}{}", single(floats32[0]))];
            lines.extend(lists.chain[..a].iter().map(|lane| format!("lane {lane}")));
            lines.extend(lists.points[..3 * b].chunks(3).map(|point| format!("point{}", singles(point))));
            lines
        }
        Query::Advance { .. } => {
            let mut lines = vec![format!("advance {number} {a} {b}")];
            let positions = lists.rows[..2 * b].chunks(2).zip(lists.metres[..3 * b].chunks(3));
            lines.extend(positions.map(|(row, metres)| match row[0] {
                0 => format!("at {}{}", row[1], doubles(&metres[..2])),
                _ => format!("end {}{}", row[1], doubles(metres)),
            }));
            lines
        }
        Query::Beside { .. } => vec![format!("beside {number}"), format!("at {a}{}", doubles(&floats[..2]))],
    }
}

fn main() {
    let plan = std::env::args().nth(1).expect("answer-lanes PLAN < QUERIES");
    let file = std::fs::read(plan).expect("the plan can be read");
    let mut tables = Tables::marked();
    for line in read_to_string(stdin()).expect("standard input can be read").lines() {
        let query = parse(line).expect("a query");
        let mut lists = Lists::full_of(ROOM, 0, 0.0);
        let answer = ours::call(&file, &query, &mut tables, &mut lists);
        println!("{}", lines(&query, &answer, &lists).join("\n"));
    }
}
