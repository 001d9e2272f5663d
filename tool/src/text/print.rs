//! Records as text. Floats are printed with the fewest digits that read back to the same bits.

use kartsodi::records::{Lane, Record, Section};
use kartsodi::{Point, Vector};
use std::fmt::Write;

/// The text of these records, a line each.
pub fn print(records: &[Record]) -> String {
    records.iter().map(|record| line(record) + "\n").collect()
}

/// An f32 as the text form has it.
pub fn single(x: f32) -> String {
    match x {
        _ if x.to_bits() == f32::NAN.to_bits() => "nan".into(),
        _ if x.is_nan() => format!("bits:{:08X}", x.to_bits()),
        _ => fewest(format!("{x:?}")),
    }
}

/// An f64 as the text form has it.
pub fn double(x: f64) -> String {
    match x {
        _ if x.to_bits() == f64::NAN.to_bits() => "nan".into(),
        _ if x.is_nan() => format!("bits:{:016X}", x.to_bits()),
        _ => fewest(format!("{x:?}")),
    }
}

/// Rust prints the fewest digits that read back, and `.0` behind a whole number.
fn fewest(digits: String) -> String {
    digits.strip_suffix(".0").map(str::to_string).unwrap_or(digits)
}

fn triple([x, y, z]: [f32; 3]) -> String {
    format!("{} {} {}", single(x), single(y), single(z))
}

fn point(p: &Point) -> String {
    triple([p.x, p.y, p.z])
}

fn vector(v: &Vector) -> String {
    triple([v.x, v.y, v.z])
}

fn line(record: &Record) -> String {
    match record {
        Record::Lane(it) => lane(it),
        Record::Link(it) => format!("link {} {} {}", it.from.0, it.role, it.to.0),
        Record::Section(it) => section(it),
        Record::Place(it) => format!("place {} {} {} {}", it.lane.0, it.road, it.index, it.number),
        Record::Route(it) => format!("route {}  {}", point(&it.from), point(&it.to)),
        Record::Advance(it) => {
            let (s, offset, distance) = (double(it.from.s), double(it.from.offset), double(it.distance));
            format!("advance {} {s} {offset} {distance}", it.from.lane.0)
        }
        Record::Beside(it) => format!("beside {} {} {}", it.lane.0, double(it.s), it.side.name()),
    }
}

fn lane(lane: &Lane) -> String {
    let mut line = format!("lane {} {} {}", lane.lane.0, lane.kind, lane.direction);
    for p in &lane.points {
        let _ = write!(line, "  {}", point(p));
    }
    if let Some([first, last]) = &lane.ends {
        let _ = write!(line, "  ends  {}  {}", vector(first), vector(last));
    }
    line
}

fn section(section: &Section) -> String {
    let (start, end) = (double(section.start), double(section.end));
    let mut line = format!("section {} {}  {start} {end} ", section.road, section.index);
    for s in &section.stations {
        let _ = write!(line, " {}", double(*s));
    }
    line
}

#[cfg(test)]
mod tests {
    use super::{double, single};
    use crate::text::numbers::float;

    #[test]
    fn floats_read_back_to_their_bits() {
        let mut bits = 1u64;
        for _ in 0..100_000 {
            bits = bits.wrapping_mul(6_364_136_223_846_793_005).wrapping_add(1_442_695_040_888_963_407);
            let (x, y) = (f32::from_bits((bits >> 32) as u32), f64::from_bits(bits));
            assert_eq!(float::<f32>(&single(x)).map(f32::to_bits), Ok(x.to_bits()));
            assert_eq!(float::<f64>(&double(y)).map(f64::to_bits), Ok(y.to_bits()));
        }
        for bits in [0, 1, 0x8000_0000, 0x7F7F_FFFF, 0x7F80_0000, 0xFF80_0000, 0x7FC0_0000, 0xFFC0_0000, 0x7F80_0001] {
            assert_eq!(float::<f32>(&single(f32::from_bits(bits))).map(f32::to_bits), Ok(bits));
        }
    }

    #[test]
    fn floats_are_short() {
        let shown = [30.0, -0.0, 0.1, -1.75, 4096.0, 1e16, 1e-7, f32::NAN].map(single);
        assert_eq!(shown, ["30", "-0", "0.1", "-1.75", "4096", "1e16", "1e-7", "nan"]);
    }
}
