//! The other side of Kartsodi's comparison: what the Rust source answers to a plan file.
//!
//! `coords` to `advance` are cut out of the source when this is built (`cutter/`); the rest is written from
//! documents 01 and 03. Nothing here knows the port's own code or definitions.

macro_rules! cut {
    ($name:ident, $file:literal) => {
        #[doc = concat!("Cut out of the source's ", $file, ".")]
        #[allow(missing_docs, rustdoc::all)]
        pub mod $name {
            include!(concat!(env!("OUT_DIR"), "/", $file));
        }
    };
}

cut!(coords, "coords.rs");
cut!(geometry, "geometry.rs");
cut!(grid, "grid.rs");
cut!(network, "network.rs");
cut!(road, "road.rs");
cut!(route, "route.rs");
cut!(advance, "advance.rs");

pub mod answer;
pub mod bake;
pub mod gen;
pub mod print;
pub mod query;
pub mod reader;
pub mod rng;
pub mod shrink;
pub mod write;
pub mod zero;

/// The list of what was cut, and of every change.
pub const TAKEN: &str = include_str!(concat!(env!("OUT_DIR"), "/taken.txt"));
