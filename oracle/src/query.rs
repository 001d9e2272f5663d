//! Queries from the caller, one a line: a word, then decimal lane numbers and sides, then floats as
//! hexadecimal bits.
//!
//! ```text
//! nearest X Y Z
//! pose LANE S
//! route X Y Z X Y Z
//! advance LANE S OFFSET DISTANCE
//! beside LANE S SIDE
//! ```

use crate::reader::Query;

/// The query of a line, or what is wrong with the line.
pub fn parse(line: &str) -> Result<Query, String> {
    let mut words = Words(line.split_ascii_whitespace());
    let query = match words.next()? {
        "nearest" => Query::Nearest { point: words.vector()? },
        "pose" => Query::Pose { lane: words.number()?, s: words.f32()? },
        "route" => Query::Route { from: words.vector()?, to: words.vector()? },
        "advance" => {
            Query::Advance { lane: words.number()?, s: words.f64()?, offset: words.f64()?, distance: words.f64()? }
        }
        "beside" => Query::Beside { lane: words.number()?, s: words.f64()?, side: words.side()? },
        word => return Err(format!("unknown query `{word}`")),
    };
    match words.0.next() {
        None => Ok(query),
        Some(word) => Err(format!("`{word}` is one word too many")),
    }
}

/// The line that `parse` reads as `query`.
pub fn to_line(query: &Query) -> String {
    let vector = |v: [f32; 3]| v.map(|c| format!("{:08X}", c.to_bits())).join(" ");
    let double = |x: f64| format!("{:016X}", x.to_bits());
    match *query {
        Query::Nearest { point } => format!("nearest {}", vector(point)),
        Query::Pose { lane, s } => format!("pose {lane} {:08X}", s.to_bits()),
        Query::Route { from, to } => format!("route {} {}", vector(from), vector(to)),
        Query::Advance { lane, s, offset, distance } => {
            format!("advance {lane} {} {} {}", double(s), double(offset), double(distance))
        }
        Query::Beside { lane, s, side } => format!("beside {lane} {} {side}", double(s)),
    }
}

struct Words<'a>(std::str::SplitAsciiWhitespace<'a>);

impl<'a> Words<'a> {
    fn next(&mut self) -> Result<&'a str, String> {
        self.0.next().ok_or_else(|| "the line ends too early".to_string())
    }

    fn number(&mut self) -> Result<usize, String> {
        let word = self.next()?;
        word.parse().map_err(|_| format!("`{word}` is no lane number"))
    }

    fn side(&mut self) -> Result<u8, String> {
        let word = self.next()?;
        word.parse().map_err(|_| format!("`{word}` is no byte"))
    }

    fn f32(&mut self) -> Result<f32, String> {
        let word = self.next()?;
        let bits = u32::from_str_radix(word, 16).map_err(|_| format!("`{word}` is not the bits of an f32"))?;
        Ok(f32::from_bits(bits))
    }

    fn f64(&mut self) -> Result<f64, String> {
        let word = self.next()?;
        let bits = u64::from_str_radix(word, 16).map_err(|_| format!("`{word}` is not the bits of an f64"))?;
        Ok(f64::from_bits(bits))
    }

    fn vector(&mut self) -> Result<[f32; 3], String> {
        Ok([self.f32()?, self.f32()?, self.f32()?])
    }
}
