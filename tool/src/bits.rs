//! Answers as `plan-run` prints them: floats as their bits, every NaN in its one form.

use crate::paper::{Answered, Paper};
use kartsodi::{Advance, LaneId, LanePosition, Moved, Refusal, Route};
use std::fmt::Write;

/// What is printed of an accepted plan.
pub fn paper(paper: &Paper) -> String {
    let counts = paper.plan.counts();
    let mut out = plan_line(0, counts.lanes, counts.links);
    for answered in &paper.answers {
        match answered {
            Answered::Route { answer, .. } => route(&mut out, answer),
            Answered::Advance { answer, .. } => advance(&mut out, answer),
            Answered::Beside { answer, .. } => beside(&mut out, answer),
        }
    }
    out
}

/// What is printed of a refused one.
pub fn refused(refusal: Refusal) -> String {
    plan_line(refusal.number(), 0, 0)
}

fn plan_line(number: usize, lanes: usize, links: usize) -> String {
    format!("plan {number} {lanes} {links}\n")
}

/// Adds a line. Writing to a string never fails.
macro_rules! line {
    ($out:ident, $($words:tt)*) => {{
        let _ = writeln!($out, $($words)*);
    }};
}

fn single(x: f32) -> String {
    format!("{:08X}", if x.is_nan() { 0x7FC0_0000 } else { x.to_bits() })
}

fn double(x: f64) -> String {
    format!("{:016X}", if x.is_nan() { 0x7FF8_0000_0000_0000 } else { x.to_bits() })
}

fn route(out: &mut String, answer: &Result<Route, Refusal>) {
    match answer {
        Err(refusal) => line!(out, "route {} 0 0 {}", refusal.number(), single(0.0)),
        Ok(Route { chain, points, length }) => {
            line!(out, "route 0 {} {} {}", chain.len(), points.len(), single(*length));
            for lane in chain {
                line!(out, "lane {}", lane.0);
            }
            for p in points {
                line!(out, "point {} {} {}", single(p.x), single(p.y), single(p.z));
            }
        }
    }
}

fn position(at: &LanePosition) -> String {
    format!("{} {} {}", at.lane.0, double(at.s), double(at.offset))
}

fn advance(out: &mut String, answer: &Result<Moved, Refusal>) {
    match answer {
        Err(refusal) => line!(out, "advance {} 0 0", refusal.number()),
        Ok(Moved { keys, positions }) => {
            line!(out, "advance 0 {keys} {}", positions.len());
            for end in positions {
                match end {
                    Advance::Reached(at) => line!(out, "at {}", position(at)),
                    Advance::DeadEnd { at, short } => line!(out, "end {} {}", position(at), double(*short)),
                }
            }
        }
    }
}

fn beside(out: &mut String, answer: &Result<LanePosition, Refusal>) {
    let (number, at) = match answer {
        Ok(at) => (0, *at),
        Err(refusal) => (refusal.number(), LanePosition { lane: LaneId(0), s: 0.0, offset: 0.0 }),
    };
    line!(out, "beside {number}\nat {}", position(&at));
}
