//! Plans with seeds: the cases of document 01, every number with its boundaries, and random families.

pub mod bounds;
pub mod damage;
pub mod edges;
pub mod families;
pub mod junction;
pub mod list;
pub mod queries;
pub mod sketch;

use crate::reader::{scan, Plan, Query};
use crate::rng::Rng;
use crate::write::Records;

/// A plan file with the name it is reported by, and queries that the caller should ask of it.
#[derive(Debug, Clone)]
pub struct Case {
    pub name: String,
    pub file: Vec<u8>,
    pub queries: Vec<Query>,
}

/// How a family draws a plan.
type Draw = fn(&mut Rng) -> Plan;

/// The families of good plans. Each is drawn as often as it stands here.
pub const FAMILIES: &[(&str, Draw)] = &[
    ("town", families::town),
    ("grid", families::grid),
    ("parallel", families::parallel),
    ("stacked", families::stacked),
    ("repeated", families::repeated),
    ("borders", families::borders),
    ("cells", families::cells),
    ("extreme", families::extreme),
    ("zeros", families::zeros),
    ("long", families::long),
    ("pointlike", families::pointlike),
    ("star", families::star),
    ("star", families::star),
    ("ring", families::ring),
    ("ties", families::ties),
    ("absorbed", families::absorbed),
    ("missing", families::missing),
    ("off-stations", families::off_stations),
    ("off-stations", families::off_stations),
    ("odd-queries", families::odd_queries),
    ("keys", families::keys),
    ("full", families::full),
    ("line", families::line),
    ("last-bit", families::last_bit),
    ("sampled", families::sampled),
    ("tangents", families::tangents),
];

/// The cases that need no seed.
pub fn fixed_cases() -> Vec<Case> {
    let mut cases = junction::cases();
    cases.extend(edges::cases());
    cases.extend(bounds::cases());
    cases
}

/// The random plan `index` of `seed`: a family in turn, one in eight damaged or never good.
pub fn random_case(seed: u64, index: u64) -> Case {
    let mut rng = Rng::of(seed, index);
    let (family, draw) = FAMILIES[(index % FAMILIES.len() as u64) as usize];
    let (prefix, file) = match rng.below(16) {
        0 => ("damaged-", damage::damaged(&mut rng.fork(), &Records::from(&draw(&mut rng)))),
        1 => ("bytes-", damage::any_bytes(&mut rng)),
        style => {
            let mut records = Records::from(&draw(&mut rng));
            // The order of records is free but for the order within a kind.
            if style == 2 {
                rng.shuffle(&mut records.0);
            }
            ("", records.bytes())
        }
    };
    with_queries(format!("{prefix}{family}-{seed}-{index}"), file, &mut rng)
}

/// How many queries the caller asks of a random plan.
const ASKED: usize = 16;

fn with_queries(name: String, file: Vec<u8>, rng: &mut Rng) -> Case {
    let plan = scan(&file).unwrap_or_default();
    let queries = queries::caller_queries(rng, &plan, ASKED);
    Case { name, file, queries }
}

/// One family's plan `index` of `seed`, undamaged.
pub fn family_case(name: &str, seed: u64, index: u64) -> Option<Case> {
    let (family, draw) = FAMILIES.iter().find(|(family, _)| *family == name)?;
    let mut rng = Rng::of(seed, index);
    let file = Records::from(&draw(&mut rng)).bytes();
    Some(with_queries(format!("{family}-{seed}-{index}"), file, &mut rng))
}

/// The fixed cases, then random ones, `count` in all.
pub fn plans(seed: u64, count: usize) -> impl Iterator<Item = Case> {
    let fixed = fixed_cases();
    let random = (0..).map(move |index| random_case(seed, index));
    fixed.into_iter().chain(random).take(count)
}
