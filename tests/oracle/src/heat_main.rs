//! `heat`: loads and readings of temperature grids through the library beside those of `heat`, on generated grids, sound and damaged:
//! offsets and scales of every kind, tables exact, short, roomy and unpaired; readings also of the bytes' walk, of spoiled tables, and
//! without a grid. Each reading is also asked beside the grid of another case, whose box is another.

use oracle::generate::{self, Case};
use oracle::heat::{degrees, Heater};
use oracle::loader::{Answer, Grid, Held, Lengths, Rust};
use oracle::random::Random;
use oracle::walk::{self, Places};
use oracle::{samples, spoil};
use std::collections::BTreeMap;
use std::process::exit;

const USAGE: &str = "usage: heat SEED CASES";

/// How many differences are written out.
const SHOWN: usize = 20;

#[cfg(linked)]
const OURS: &dyn Heater = &oracle::linked::Linked;
#[cfg(not(linked))]
const OURS: &dyn Heater = &Rust;

/// What must come up, or nothing was shown of it.
const DUE: [&str; 28] = [
    "load 0",
    "load 2",
    "load 3",
    "load 4",
    "load 5",
    "load 6",
    "load 7",
    "load 8",
    "load 9",
    "load 10",
    "load 11",
    "load 12",
    "load 13",
    "load 14",
    "load 18",
    "load 27",
    "loaded: values below zero",
    "loaded: other bounds than the density's",
    "loaded: NaN offset refused, and zeros left",
    "reading 0",
    "reading 11",
    "reading 18",
    "reading 27",
    "reading: below zero",
    "reading: infinite",
    "reading: 7fc00000 worked out",
    "reading: none, with a NaN offset",
    "reading: none, of spoiled tables",
];

#[derive(Default)]
struct Tally {
    kinds: BTreeMap<String, u64>,
    compared: u64,
    differ: usize,
    case: String,
}

impl Tally {
    fn kind(&mut self, name: impl Into<String>) {
        *self.kinds.entry(name.into()).or_default() += 1;
    }

    fn differs(&mut self, what: String) {
        self.differ += 1;
        if self.differ <= SHOWN {
            println!("differs: {}: {what}", self.case);
        }
    }
}

fn main() {
    let numbers: Vec<u64> =
        std::env::args().skip(1).map(|word| word.parse().unwrap_or_else(|_| usage())).collect();
    let [seed, count] = numbers[..] else { usage() };
    if cfg!(not(linked)) {
        println!("no library was linked: the reference beside itself");
    }
    let mut tally = Tally::default();
    let mut density = None;
    for number in 0..count {
        let case = generate::case(seed, number);
        tally.case = format!("case {seed} {number} ({})", case.name);
        run(&mut tally, &case, &mut Random::new(!seed, number), &mut density);
    }
    tally.case = "2^32 bytes".to_string();
    long_grid(&mut tally);
    for (name, count) in &tally.kinds {
        println!("{name:44} {count:9}");
    }
    let missing: Vec<&&str> = DUE.iter().filter(|due| !tally.kinds.contains_key(**due)).collect();
    for due in &missing {
        println!("never came up: {due}");
    }
    println!("{} answers, {} differ", tally.compared, tally.differ);
    exit(if tally.differ == 0 && missing.is_empty() { 0 } else { 1 });
}

fn usage() -> ! {
    eprintln!("{USAGE}");
    exit(2)
}

/// An offset or a scale: plain, at an end of the f32, any finite pattern, or not finite.
fn factor(random: &mut Random) -> f32 {
    match random.below(12) {
        0 => 0.0,
        1 => -0.0,
        2 => 1.0,
        3 => 273.15,
        4 => random.pick(&[f32::MAX, f32::MIN, f32::from_bits(1), f32::MIN_POSITIVE]),
        5 => random.pick(&[f32::NAN, f32::from_bits(0xff812345), f32::INFINITY, f32::NEG_INFINITY]),
        6 => f32::from_bits(random.next() as u32),
        _ => (random.between(-4000, 4000) as f32) / 16.0,
    }
}

/// Exactly as long as is needed, a word longer or shorter, unpaired, or with other than four counts.
fn lengths(random: &mut Random, places: Places) -> Lengths {
    let mut l = Lengths { medium: 0, corners: 0, cells: 0, ..Lengths::of(places) };
    let change = |length: &mut usize, longer: bool, by: usize| {
        *length = if longer { *length + by } else { length.saturating_sub(by) };
    };
    let longer = random.percent(50);
    match random.below(12) {
        0 => {
            let roots = if longer { places.roots + 1 } else { places.roots.saturating_sub(1) };
            (l.blocks, l.root_links, l.root_values) = (3 * roots, roots, roots);
        }
        1 => {
            change(&mut l.upper_links, longer, 1);
            l.upper_values = l.upper_links;
        }
        2 => {
            change(&mut l.lower_links, longer, 1);
            l.lower_values = l.lower_links;
        }
        3 => change(&mut l.leaf_values, longer, 1),
        4 => change(&mut l.work, longer, 1),
        5 => change(&mut l.blocks, longer, 1),
        6 => change(&mut l.upper_values, longer, 1),
        7 if random.percent(50) => l.counts = random.pick(&[0, 3, 5]),
        _ => {}
    }
    l
}

fn run(tally: &mut Tally, case: &Case, random: &mut Random, density: &mut Option<Vec<u8>>) {
    let (_, places) = walk::reach(&case.bytes, walk::ROOMY);
    let exact = Lengths { medium: 0, corners: 0, cells: 0, ..Lengths::of(places) };
    let (offset, scale) = (factor(random), factor(random));
    compare_load(tally, case, offset, scale, lengths(random, places));
    let (number, held) = compare_load(tally, case, offset, scale, exact);
    if number == 27 && offset.is_nan() {
        tally.kind("loaded: NaN offset refused, and zeros left");
    }
    // The same grid with factors that pass, so that there is something to read.
    let (number, held) = match number {
        27 => compare_load(tally, case, 20.5, -2.0, exact),
        _ => (number, held),
    };
    if number != 0 {
        return;
    }
    let grid = Held::grid(&held);
    if negative(&grid) {
        tally.kind("loaded: values below zero");
    }
    if density.as_ref().is_some_and(|other| bounds(other) != bounds(&case.bytes)) {
        tally.kind("loaded: other bounds than the density's");
    }
    compare_readings(tally, case, random, &grid);
    *density = Some(case.bytes.clone());
}

/// The world box and the place of the index box, as they stand in the bytes.
fn bounds(bytes: &[u8]) -> Vec<u8> {
    let root = (672 + walk::u64_at(bytes, 696)) as usize;
    [&bytes[560..608], &bytes[root..root + 24]].concat()
}

fn negative(grid: &Grid) -> bool {
    let tables = [&grid.root_values, &grid.upper_values, &grid.lower_values, &grid.leaf_values];
    grid.background < 0.0 || tables.into_iter().flatten().any(|value| *value < 0.0)
}

fn load(by: &dyn Heater, bytes: &[u8], offset: f32, scale: f32, lengths: Lengths) -> (u32, Held) {
    let mut held = Held::new(lengths);
    let number = by.load_temperature(bytes, offset, scale, held.lent());
    (number, held)
}

fn compare_load(
    tally: &mut Tally,
    case: &Case,
    offset: f32,
    scale: f32,
    lengths: Lengths,
) -> (u32, Held) {
    let given = case.bytes.clone();
    let loaded = compare_loads(tally, &given, offset, scale, lengths);
    if given != case.bytes {
        tally.differs("the bytes were written".to_string());
    }
    loaded
}

fn compare_loads(
    tally: &mut Tally,
    bytes: &[u8],
    offset: f32,
    scale: f32,
    lengths: Lengths,
) -> (u32, Held) {
    let (number, held) = load(&Rust, bytes, offset, scale, lengths);
    let (ours, our_held) = load(OURS, bytes, offset, scale, lengths);
    tally.compared += 1;
    tally.kind(format!("load {number}"));
    if number != ours {
        tally.differs(format!("load ({offset:?}, {scale:?}): {number}, ours {ours} ({lengths:?})"));
    } else if !our_held.intact() {
        tally.differs("written outside a table".to_string());
    } else {
        for ((name, theirs), (_, ours)) in held.words().into_iter().zip(our_held.words()) {
            if let Some(i) = (0..theirs.len()).find(|i| theirs.at(*i) != ours.at(*i)) {
                let (theirs, ours) = (theirs.at(i), ours.at(i));
                tally.differs(format!("load: {name}[{i}]: {theirs:08x}, ours {ours:08x}"));
            }
        }
    }
    (number, held)
}

/// A byte too many for any grid: 1, and zeros in every table.
fn long_grid(tally: &mut Tally) {
    let layout = std::alloc::Layout::array::<u8>(1 << 32).unwrap();
    // A null pointer is tested before use, and the slice is as long as the memory.
    let start = unsafe { std::alloc::alloc_zeroed(layout) };
    if start.is_null() {
        println!("no memory for a grid of 2^32 bytes: number 1 is not compared");
        return;
    }
    let bytes = unsafe { std::slice::from_raw_parts(start, layout.size()) };
    let places = Places { roots: 1, nodes: [1, 1, 1], spans: 3 };
    let lengths = Lengths { medium: 0, corners: 0, cells: 0, ..Lengths::of(places) };
    compare_loads(tally, bytes, f32::NAN, 1.0, lengths);
    unsafe { std::alloc::dealloc(start, layout) };
}

fn compare_readings(tally: &mut Tally, case: &Case, random: &mut Random, grid: &Grid) {
    let mut spoiled = grid.clone();
    spoil::tables(&mut spoiled, random);
    for at in samples::coordinates(random, &case.near, 16) {
        let (offset, scale) = (factor(random), factor(random));
        let present = random.pick(&[1, 2, 1 << 31, u32::MAX]);
        let ours = compare_reading(tally, present, grid, offset, scale, at);
        // Of the bytes alone.
        let walked = f32::from_bits(walk::voxel(&case.bytes, at));
        if ours.0 == 0 && ours.1 != degrees(walked, offset, scale) {
            tally.differs(format!("{at:?}: {ours:?}, and the walk reads {walked}"));
        }
        compare_reading(tally, present, &spoiled, offset, scale, at);
        compare_none(tally, &spoiled, offset, scale, at);
    }
    // The ends of the f32: an infinite difference, and times 0 a NaN.
    let mut high = grid.clone();
    (high.background, high.blocks) = (f32::MAX, Vec::new());
    (high.root_links, high.root_values) = (Vec::new(), Vec::new());
    for scale in [1.0, -1.0, 0.0, -0.0] {
        compare_reading(tally, 1, &high, f32::MIN, scale, [0; 3]);
    }
}

fn compare_reading(
    tally: &mut Tally,
    present: u32,
    grid: &Grid,
    offset: f32,
    scale: f32,
    at: [i32; 3],
) -> Answer {
    let tables = grid.tables();
    let theirs = Rust.get_temperature(present, tables, offset, scale, at);
    let ours = OURS.get_temperature(present, tables, offset, scale, at);
    tally.compared += 1;
    let value = f32::from_bits(theirs.1);
    tally.kind(format!("reading {}", theirs.0));
    if value < 0.0 {
        tally.kind("reading: below zero");
    }
    if value.is_infinite() {
        tally.kind("reading: infinite");
    }
    if value.is_nan() {
        tally.kind("reading: 7fc00000 worked out");
    }
    if theirs != ours {
        tally.differs(format!("{at:?} ({offset:?}, {scale:?}): {theirs:08x?}, ours {ours:08x?}"));
    }
    ours
}

/// Without a grid the answer is 0, whatever else is handed over.
fn compare_none(tally: &mut Tally, spoiled: &Grid, offset: f32, scale: f32, at: [i32; 3]) {
    for offset in [offset, f32::NAN] {
        let ours = OURS.get_temperature(0, spoiled.tables(), offset, scale, at);
        tally.compared += 1;
        if offset.is_nan() {
            tally.kind("reading: none, with a NaN offset");
        }
        tally.kind("reading: none, of spoiled tables");
        if ours != (0, 0) {
            tally.differs(format!("without a grid: {ours:08x?}"));
        }
    }
}
