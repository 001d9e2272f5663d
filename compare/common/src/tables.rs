//! The tables that a public call is lent, and what they hold of the oracle's plan. `read_plan` takes the first nine.

use crate::{all32, all64};
use kartsodi_oracle::bake::bake_lane;
use kartsodi_oracle::reader::Plan;

#[repr(C)]
#[derive(Debug, Clone, Copy, PartialEq, Default)]
pub struct Counts {
    pub lanes: usize,
    pub points: usize,
    pub links: usize,
    pub sections: usize,
    pub stations: usize,
    pub places: usize,
}

/// What reading a file into tables answers.
#[repr(C)]
#[derive(Debug, Clone, Copy, PartialEq, Default)]
pub struct Read {
    pub number: usize,
    pub counts: Counts,
}

#[derive(Clone)]
pub struct Tables {
    pub lanes: Vec<usize>,
    pub points: Vec<f32>,
    pub ends: Vec<f32>,
    pub fans: Vec<usize>,
    pub links: Vec<usize>,
    pub sections: Vec<usize>,
    pub bounds: Vec<f64>,
    pub stations: Vec<f64>,
    pub places: Vec<usize>,
    pub cumulative: Vec<f32>,
    pub tangents: Vec<f32>,
}

/// The limits, in entries.
pub const SIZES: [usize; 11] = [1536, 12288, 1536, 1280, 4096, 256, 128, 4096, 768, 4096, 12288];
/// How far the tables are longer than they need be.
const SPARE: usize = 7;

/// Writes the function `$name`, over a linked one that reads a file into the tables named. A slice is handed over as a pointer and a length.
#[macro_export]
macro_rules! reader {
    ($name:ident, $linked:ident: $($table:ident $entry:ty),*) => {
        fn $name(file: &[u8], side: usize, t: &mut $crate::tables::Tables) -> $crate::tables::Read {
            extern "C" {
                fn $linked(
                    file: *const u8, file_len: usize, side: usize, $(_: *mut $entry, _: usize),*
                ) -> $crate::tables::Read;
            }
            // Each pointer is that of a slice that lives through the call, with its own length.
            unsafe { $linked(file.as_ptr(), file.len(), side, $(t.$table.as_mut_ptr(), t.$table.len()),*) }
        }
    };
}

impl Tables {
    /// Tables full of one whole number and one float.
    pub fn full_of(whole: usize, float: f32) -> Self {
        let [a, b, c, d, e, f, g, h, i, j, k] = SIZES.map(|n| n + SPARE);
        Tables {
            lanes: vec![whole; a],
            points: vec![float; b],
            ends: vec![float; c],
            fans: vec![whole; d],
            links: vec![whole; e],
            sections: vec![whole; f],
            bounds: vec![float.into(); g],
            stations: vec![float.into(); h],
            places: vec![whole; i],
            cumulative: vec![float; j],
            tangents: vec![float; k],
        }
    }

    /// Tables full of marks that no plan has.
    pub fn marked() -> Self {
        Tables::full_of(usize::MAX, -77.5)
    }

    /// Table `k` cut to `n` entries.
    pub fn cut(&mut self, k: usize, n: usize) {
        match k {
            0 => self.lanes.truncate(n),
            1 => self.points.truncate(n),
            2 => self.ends.truncate(n),
            3 => self.fans.truncate(n),
            4 => self.links.truncate(n),
            5 => self.sections.truncate(n),
            6 => self.bounds.truncate(n),
            7 => self.stations.truncate(n),
            8 => self.places.truncate(n),
            9 => self.cumulative.truncate(n),
            _ => self.tangents.truncate(n),
        }
    }

    /// The entries of `from`, into tables of the same sizes.
    pub fn set(&mut self, from: &Tables) {
        self.lanes.copy_from_slice(&from.lanes);
        self.points.copy_from_slice(&from.points);
        self.ends.copy_from_slice(&from.ends);
        self.fans.copy_from_slice(&from.fans);
        self.links.copy_from_slice(&from.links);
        self.sections.copy_from_slice(&from.sections);
        self.bounds.copy_from_slice(&from.bounds);
        self.stations.copy_from_slice(&from.stations);
        self.places.copy_from_slice(&from.places);
        self.cumulative.copy_from_slice(&from.cumulative);
        self.tangents.copy_from_slice(&from.tangents);
    }

    /// That every entry is the other's, floats by their bits; else the first table that differs.
    pub fn same(&self, other: &Tables) -> Result<(), &'static str> {
        for (name, same) in [
            ("lanes", self.lanes == other.lanes),
            ("points", all32(&self.points, &other.points)),
            ("ends", all32(&self.ends, &other.ends)),
            ("fans", self.fans == other.fans),
            ("links", self.links == other.links),
            ("sections", self.sections == other.sections),
            ("bounds", all64(&self.bounds, &other.bounds)),
            ("stations", all64(&self.stations, &other.stations)),
            ("places", self.places == other.places),
            ("cumulative", all32(&self.cumulative, &other.cumulative)),
            ("tangents", all32(&self.tangents, &other.tangents)),
        ] {
            if !same {
                return Err(name);
            }
        }
        Ok(())
    }

    /// Writes the nine tables of the oracle's plan over what they held; what lies past its rows stays.
    pub fn load(&mut self, plan: &Plan) -> Counts {
        let row_of = |n: u16| plan.lanes.iter().position(|l| l.number == n).unwrap_or(256);
        let (mut l, mut p, mut e, mut f, mut k) = (0, 0, 0, 0, 0);
        for lane in &plan.lanes {
            let ends = usize::from(lane.ends.is_some());
            put(&mut self.lanes, &mut l, &[lane.number.into(), lane.kind.into(), lane.direction.into(), ends, p / 3, lane.points.len()]);
            for point in &lane.points {
                put(&mut self.points, &mut p, point);
            }
            let [start, end] = lane.ends.unwrap_or_default();
            put(&mut self.ends, &mut e, &start);
            put(&mut self.ends, &mut e, &end);
            let first = k / 2;
            let mut sizes = [0; 3];
            for role in 0..3u8 {
                for link in plan.links.iter().filter(|x| x.from == lane.number && x.role == role) {
                    put(&mut self.links, &mut k, &[link.to.into(), row_of(link.to)]);
                    sizes[usize::from(role)] += 1;
                }
            }
            let place = plan.places.iter().position(|x| x.lane == lane.number).unwrap_or(256);
            put(&mut self.fans, &mut f, &[first, sizes[0], sizes[1], sizes[2], place]);
        }
        let (mut s, mut b, mut d) = (0, 0, 0);
        for section in &plan.sections {
            put(&mut self.sections, &mut s, &[section.road.into(), section.index.into(), d, section.stations.len()]);
            put(&mut self.bounds, &mut b, &[section.start, section.end]);
            put(&mut self.stations, &mut d, &section.stations);
        }
        let mut o = 0;
        for place in &plan.places {
            let section = plan.sections.iter().position(|x| x.road == place.road && x.index == place.index).unwrap_or(64);
            let raised = (i64::from(place.od_id) + (1 << 31)) as usize;
            put(&mut self.places, &mut o, &[row_of(place.lane), section, raised]);
        }
        Counts {
            lanes: plan.lanes.len(),
            points: p / 3,
            links: plan.links.len(),
            sections: plan.sections.len(),
            stations: d,
            places: plan.places.len(),
        }
    }

    /// The same for the two tables that are worked out: the arc length and the tangent at each point.
    pub fn load_lines(&mut self, plan: &Plan) {
        let (mut c, mut t) = (0, 0);
        for lane in &plan.lanes {
            let line = bake_lane(plan, lane).center;
            put(&mut self.cumulative, &mut c, &line.cumulative);
            for tangent in &line.tangents {
                put(&mut self.tangents, &mut t, &tangent.to_array());
            }
        }
    }
}

fn put<T: Copy>(table: &mut [T], at: &mut usize, row: &[T]) {
    table[*at..*at + row.len()].copy_from_slice(row);
    *at += row.len();
}
