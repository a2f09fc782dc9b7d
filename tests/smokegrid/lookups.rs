//! The static library's lookups beside sparse_grid.rs, bit for bit. The proofs speak of one NaN; that
//! a NaN of a table comes back with its own bits is shown here.

use oracle::loader::{self, decode_into, Answer, Grid, Lengths, Loader, Rust};
use oracle::random::Random;
use oracle::{file, generate, heat, samples, spoil, walk};
use std::collections::BTreeMap;
use std::process::exit;

/// Compiled here, so that the functions that are not asked need not be in the library. It finds the
/// traits as `crate::loader` and `crate::heat`, and the parts of a file as `crate::file`.
#[path = "../oracle/src/linked.rs"]
mod linked;

use linked::Linked;

/// Quiet and signalling, of either sign, with and without a payload.
const NANS: [u32; 10] = [
    0x7fc00000, 0xffc00000, 0x7f800001, 0xff800001, 0x7fc12345, 0xffd54321, 0x7f812345, 0xffbfffff,
    0x7fffffff, 0xffffffff,
];

const SEED: u64 = 1;
const CASES: usize = 400;
const LOOKUPS: usize = 24;

#[derive(Default)]
struct Tally {
    passed: u64,
    failed: u64,
}

impl Tally {
    fn count(&mut self, name: &str, fault: Option<String>) {
        match fault {
            None => self.passed += 1,
            Some(fault) => {
                self.failed += 1;
                println!("FAILED {name}: {fault}");
            }
        }
    }
}

fn main() {
    let mut tally = Tally::default();
    nans_kept(&mut tally);
    random_lookups(&mut tally);
    println!("{} passed, {} failed", tally.passed, tally.failed);
    exit(if tally.failed == 0 { 0 } else { 1 });
}

/// A root with a node of each level below it at block (0, 0, 0), and a tile at block (-1, 0, 0).
fn chain(fill: f32) -> Grid {
    let first = |length: usize| (0..length).map(|i| u32::from(i == 0)).collect::<Vec<_>>();
    Grid {
        background: fill,
        blocks: vec![0, 0, 0, -1, 0, 0],
        root_links: first(2),
        root_values: vec![0.0, fill],
        upper_links: first(walk::entries(2)),
        upper_values: vec![fill; walk::entries(2)],
        lower_links: first(walk::entries(1)),
        lower_values: vec![fill; walk::entries(1)],
        leaf_values: vec![fill; walk::entries(0)],
        medium: Vec::new(),
        corners: Vec::new(),
        cells: Vec::new(),
    }
}

/// A place of a value, how to put one there, and coordinates that are looked up there.
type Place = (&'static str, fn(&mut Grid, f32), [[i32; 3]; 3]);

const PLACES: [Place; 5] = [
    (
        "background",
        |g, v| g.background = v,
        [[4096, 0, 0], [-4097, 0, 0], [i32::MIN, i32::MAX, -1]],
    ),
    ("root tile", |g, v| g.root_values[1] = v, [[-1, 0, 0], [-4096, 4095, 0], [-7, 9, 4095]]),
    ("upper tile", |g, v| g.upper_values.fill(v), [[128, 0, 0], [0, 0, 128], [4095, 4095, 4095]]),
    ("lower tile", |g, v| g.lower_values.fill(v), [[8, 0, 0], [0, 0, 8], [127, 127, 127]]),
    ("leaf value", |g, v| g.leaf_values.fill(v), [[0, 0, 0], [3, 1, 6], [7, 7, 7]]),
];

/// Each NaN in each place, alone among values of 0.5.
fn nans_kept(tally: &mut Tally) {
    for (name, put, coordinates) in PLACES {
        for bits in NANS {
            let mut grid = chain(0.5);
            put(&mut grid, f32::from_bits(bits));
            let ours = Linked.get_values(grid.tables(), &coordinates);
            let rust = Rust.get_values(grid.tables(), &coordinates);
            let kept = ours == rust && ours.iter().all(|answer| *answer == (0, bits));
            let fault = || format!("Rust {rust:08x?}, ours {ours:08x?}");
            tally.count(&format!("NaN {bits:08x}, {name}"), (!kept).then(fault));
        }
    }
    println!("{} NaNs in {} places, 3 lookups each", NANS.len(), PLACES.len());
}

/// A generated case that decodes: its number, coordinates at which something stands, and its grid.
fn accepted(number: u64) -> Option<(u64, Vec<[i32; 3]>, Grid)> {
    let case = generate::sound(SEED, number);
    let (_, places) = walk::reach(&case.bytes, walk::ROOMY);
    let (refusal, held) = decode_into(&Rust, &case.bytes, Lengths::of(places));
    (refusal == 0).then(|| (number, case.near, held.grid()))
}

/// Generated grids: every second with any bits among its values, every third with tables that no
/// decode gives.
fn random_lookups(tally: &mut Tally) {
    let (mut lookups, mut validations) = (BTreeMap::new(), BTreeMap::new());
    let mut nans = 0;
    for (number, near, mut grid) in (0..).filter_map(accepted).take(CASES) {
        let mut random = Random::new(!SEED, number);
        if number % 2 == 0 {
            any_bits(&mut grid, &mut random);
        }
        if number % 3 == 0 {
            spoil::tables(&mut grid, &mut random);
        }
        let at = samples::coordinates(&mut random, &near, LOOKUPS);
        let (rust, ours) = (answers(&Rust, &grid, &at), answers(&Linked, &grid, &at));
        for (number, bits) in &rust.0 {
            *lookups.entry(*number).or_insert(0) += 1;
            nans += u64::from(f32::from_bits(*bits).is_nan());
        }
        *validations.entry(rust.1[1]).or_insert(0) += 1;
        let fault = || format!("{at:?}: Rust {rust:08x?}, ours {ours:08x?}");
        tally.count(&format!("case {SEED} {number}"), (rust != ours).then(fault));
    }
    println!("{CASES} random grids, {LOOKUPS} lookups each: {nans} NaNs, numbers {lookups:?}");
    println!("validate_density: numbers {validations:?}");
    let came_up = |numbers: &BTreeMap<u32, u64>, due: &[u32]| numbers.keys().eq(due);
    let all =
        nans > 0 && came_up(&lookups, &[0, 11, 18]) && came_up(&validations, &[0, 11, 12, 15, 18]);
    tally.count("NaNs and every number came up", (!all).then(|| "one did not".to_string()));
}

/// The lookups, then `validate` and `validate_density`.
fn answers(loader: &impl Loader, grid: &Grid, at: &[[i32; 3]]) -> (Vec<Answer>, [u32; 2]) {
    let tables = grid.tables();
    let numbers = [loader.validate(tables), loader.validate_density(tables)];
    (loader.get_values(tables, at), numbers)
}

/// One value in four becomes any word.
fn any_bits(grid: &mut Grid, random: &mut Random) {
    let tables = [
        &mut grid.root_values,
        &mut grid.upper_values,
        &mut grid.lower_values,
        &mut grid.leaf_values,
    ];
    let values = tables.into_iter().flatten().chain([&mut grid.background]);
    for value in values {
        if random.percent(25) {
            let word = random.next() as u32;
            let nan = random.pick(&NANS) ^ (word & 0x003ffffe);
            *value = f32::from_bits(if random.percent(50) { word } else { nan });
        }
    }
}
