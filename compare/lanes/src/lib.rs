//! The proved calls beside the oracle's, for the comparison and the benchmark.

pub mod answer;
pub mod draw;
pub mod ours;
