//! The fixed list: plans whose answers are kept, so that they replay without the source.

use super::{bounds, edges, family_case, junction, random_case, Case, FAMILIES};
use crate::answer::Loaded;
use crate::print;

/// Kinds of boundary cases of which every so many are kept; of the others all are.
const THINNED: &[(&str, usize)] = &[
    ("bounds-cut-", 12),
    ("bounds-length-", 12),
    ("bounds-kind-", 12),
    ("bounds-header-", 6),
    ("bounds-coordinate-", 5),
    ("bounds-section-", 3),
    ("bounds-lane-", 3),
    ("bounds-order-", 2),
];

/// Large files that show no more than others that are kept.
const LEFT_OUT: &[&str] = &[
    "bounds-size-131072",
    "bounds-size-1000000",
    "bounds-size-65537-bad-first",
    "bounds-size-65536-unknown",
    "bounds-size-65535",
];
const LEFT_OUT_KINDS: &[&str] = &["bounds-points-twice-", "bounds-points-one-lane-", "bounds-stations-one-"];

/// How many plans of each family, and how many damaged ones.
const OF_EACH: usize = 4;
const DAMAGED: usize = 12;
/// Among how many plans of a family they are looked for.
const TRIED: u64 = 40;
/// The most bytes of a random plan and its answer.
const MOST: usize = 8_000;
const SEED: u64 = 2026;

pub fn fixed_list() -> Vec<Case> {
    let mut list = junction::cases();
    list.extend(edges::cases());
    list.extend(kept_bounds());
    let mut names: Vec<&str> = FAMILIES.iter().map(|(name, _)| *name).collect();
    names.dedup();
    for name in names {
        list.extend(of_family(name));
    }
    let broken = |case: &Case| case.name.starts_with("damaged-") || case.name.starts_with("bytes-");
    let random = (0..).map(|index| random_case(SEED, index));
    list.extend(random.filter(broken).filter(is_small).take(DAMAGED));
    list
}

/// The first small plans of a family, or its smallest where none is.
fn of_family(name: &str) -> Vec<Case> {
    let plans: Vec<Case> = (0..TRIED).filter_map(|index| family_case(name, SEED, index)).collect();
    let small: Vec<Case> = plans.iter().filter(|case| is_small(case)).take(OF_EACH).cloned().collect();
    if small.is_empty() {
        plans.into_iter().min_by_key(size).into_iter().collect()
    } else {
        small
    }
}

fn is_small(case: &Case) -> bool {
    size(case) <= MOST
}

/// Bytes of the plan and of all that is printed for it.
fn size(case: &Case) -> usize {
    let loaded = Loaded::new(&case.file);
    let mut text = print::run(&case.file);
    case.queries.iter().for_each(|query| print::answer(&mut text, &loaded.answer(query)));
    case.file.len() + text.len()
}

fn kept_bounds() -> Vec<Case> {
    let mut seen = vec![0; THINNED.len()];
    let mut kept = |case: &Case| {
        let left_out =
            LEFT_OUT.contains(&case.name.as_str()) || LEFT_OUT_KINDS.iter().any(|kind| case.name.starts_with(kind));
        match THINNED.iter().position(|(kind, _)| case.name.starts_with(kind)) {
            Some(i) => {
                seen[i] += 1;
                seen[i] % THINNED[i].1 == 1
            }
            None => !left_out,
        }
    };
    bounds::cases().into_iter().filter(|case| kept(case)).collect()
}
