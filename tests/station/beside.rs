//! The crate's `Grid::decode`, which sizes its tables from the bytes, beside the Rust modules on
//! random grids, sound and damaged: number, counts and lookups. 9 is never due: it would say that
//! the tables were too short.

use oracle::random::Random;
use oracle::{generate, samples, source};
use smokegrid::Grid;
use std::collections::BTreeMap;
use std::process::exit;

const SEED: u64 = 3;
const CASES: u64 = 4000;
const LOOKUPS: usize = 20;

fn main() {
    let mut numbers = BTreeMap::new();
    let mut faults = 0;
    for number in 0..CASES {
        let case = generate::case(SEED, number);
        let due = source::decode_density_grid(&case.bytes);
        *numbers.entry(due.as_ref().map_or_else(|number| *number, |_| 0)).or_insert(0u64) += 1;
        if let Some(fault) = fault(&case, due, number) {
            faults += 1;
            println!("FAILED case {SEED} {number} ({}): {fault}", case.name);
        }
    }
    println!("{CASES} decodes beside the Rust: numbers {numbers:?}");
    // Each number that a decode of so few bytes can give.
    let all = [0, 2, 3, 4, 5, 6, 7, 8, 10, 11, 12, 13, 14, 15].iter().eq(numbers.keys());
    let failed = u64::from(faults > 0) + u64::from(!all);
    println!("{} passed, {failed} failed", 2 - failed);
    exit(i32::from(failed > 0));
}

fn fault(
    case: &generate::Case,
    due: Result<source::NanoVDBMedium, u32>,
    number: u64,
) -> Option<String> {
    let ours = Grid::decode(&case.bytes);
    match (due, ours) {
        (Err(due), Err(ours)) if due == ours.number() => None,
        (Ok(due), Ok(ours)) => grids_differ(&due, &ours, &case.near, number),
        (due, ours) => {
            let due = due.map(|_| ());
            Some(format!("Rust {due:?}, ours {:?}", ours.map(|_| ())))
        }
    }
}

fn grids_differ(
    due: &source::NanoVDBMedium,
    ours: &Grid,
    near: &[[i32; 3]],
    number: u64,
) -> Option<String> {
    let (counts, density) = (ours.counts(), &due.density);
    let nodes = [counts.roots, counts.upper * 32768, counts.lower * 4096, counts.leaf * 512];
    let lengths = [
        density.roots.len(),
        density.upper_entries.len(),
        density.lower_entries.len(),
        density.leaf_values.len(),
    ];
    if nodes != lengths {
        return Some(format!("counts {counts:?}, tables {lengths:?}"));
    }
    if ours.medium().index_min != due.index_bbox_min || ours.medium().world_max != due.bounds_max {
        return Some("the medium differs".to_string());
    }
    let mut random = Random::new(!SEED, number);
    let at = samples::coordinates(&mut random, near, LOOKUPS);
    let bits = |value: f32| value.to_bits();
    at.into_iter().find_map(|at| {
        let due = source::get_value(density, at).map(bits);
        let ours = ours.get_value(at).map(bits).map_err(|refusal| refusal.number());
        (due != ours).then(|| format!("{at:?}: Rust {due:x?}, ours {ours:x?}"))
    })
}
