//! The static library beside reference.rs and classes.rs: what the counted box maximum reads, and the coordinates of a box by class.
//! usage: compare SEED GRIDS SIDE
//! Random grids with shared children, blocks of both signs and boxes of every shape; then the dearest cubes: every side from 1 to SIDE,
//! three larger ones up to 4,096, and others where the lower entries are tiles. Prints how often each kind came up; a kind that did not is a failure.
//! The last line is 'N passed, M failed'.

mod classes;
#[path = "../../rust/smokegrid/src/interface.rs"]
#[allow(dead_code)]
mod interface;
#[path = "../oracle/src/random.rs"]
#[allow(dead_code)]
mod random;
mod reference;
#[path = "../tally.rs"]
mod tally;

use interface::GridTables;
use random::Random;
use reference::{Counts, Links};
use tally::Tally;

// ---- grids

#[derive(Default)]
struct Grid {
    blocks: Vec<i32>,
    root: (Vec<u32>, Vec<f32>),
    upper: (Vec<u32>, Vec<f32>),
    lower: (Vec<u32>, Vec<f32>),
    leaf: Vec<f32>,
    background: f32,
}

impl Grid {
    fn tables(&self) -> GridTables<'_> {
        GridTables {
            background: self.background,
            blocks: &self.blocks,
            root_links: &self.root.0,
            root_values: &self.root.1,
            upper_links: &self.upper.0,
            upper_values: &self.upper.1,
            lower_links: &self.lower.0,
            lower_values: &self.lower.1,
            leaf_values: &self.leaf,
        }
    }

    fn links(&self) -> Links<'_> {
        Links {
            blocks: &self.blocks,
            root: &self.root.0,
            upper: &self.upper.0,
            lower: &self.lower.0,
        }
    }
}

/// n entries: a child, one of `nodes`, in so many of a thousand, and otherwise a tile.
fn entries(random: &mut Random, n: usize, nodes: usize, children: usize) -> (Vec<u32>, Vec<f32>) {
    let mut table = (vec![0; n], vec![0.0; n]);
    for i in 0..n {
        if nodes > 0 && random.below(1000) < children {
            table.0[i] = 1 + random.below(nodes) as u32;
        } else {
            table.1[i] = random.between(-8, 8) as f32 / 8.0;
        }
    }
    table
}

/// An eighth from -1 to 1; a zero is -0.0, which is the number 0.0.
fn eighth(random: &mut Random) -> f32 {
    match random.between(-8, 8) {
        0 => -0.0,
        eighths => eighths as f32 / 8.0,
    }
}

const FEW: usize = 4;
const FULL: usize = 1000;

fn grid(random: &mut Random, children: usize) -> Grid {
    let nodes = [0; 3].map(|_| 1 + random.below(3));
    let mut blocks: Vec<[i32; 3]> = Vec::new();
    for _ in 0..1 + random.below(9) {
        let number = |random: &mut Random| match random.below(20) {
            0 => -524_288,
            1 => 524_287,
            2..=4 => random.between(-3, 2) as i32,
            _ => random.between(-1, 0) as i32,
        };
        let block = [number(random), number(random), number(random)];
        if !blocks.contains(&block) {
            blocks.push(block);
        }
    }
    Grid {
        root: entries(random, blocks.len(), nodes[0], 800),
        blocks: blocks.concat(),
        upper: entries(random, 32_768 * nodes[0], nodes[1], children),
        lower: entries(random, 4096 * nodes[1], nodes[2], children),
        leaf: (0..512 * nodes[2]).map(|_| eighth(random)).collect(),
        background: random.between(-8, 8) as f32 / 8.0,
    }
}

/// A fault that `validate` finds, or none.
fn spoil(random: &mut Random, grid: &mut Grid) {
    match random.below(5) {
        0 => grid.background = f32::NAN,
        1 => drop(grid.leaf.pop()),
        2 => drop(grid.root.1.pop()),
        3 => grid.upper.0[0] = 1000,
        _ => grid.blocks[0] = 524_288,
    }
}

// ---- boxes

fn around(random: &mut Random) -> i64 {
    let step = random.pick(&[8, 128, 4096]);
    match random.below(30) {
        0 => i64::from(i32::MIN),
        1 => i64::from(i32::MAX),
        2..=4 => random.between(-9000, 9000),
        5..=14 => random.between(-20, 20),
        _ => step * random.between(-2, 2) + random.between(-2, 2),
    }
}

/// Low and high corner, and what the box is called.
fn zone(random: &mut Random, longest: usize) -> ([i32; 3], [i32; 3], &'static str) {
    let low = [0; 3].map(|_| around(random));
    let end = |low: i64, side: usize| {
        (low + side as i64 - 1).clamp(i64::from(i32::MIN), i64::from(i32::MAX))
    };
    let side = 1 + random.below(longest);
    let (sides, name) = match random.below(6) {
        0 | 1 => ([side; 3], "cube"),
        2 => ([side, 1, 1], "line"),
        3 => ([1, side, side], "slab"),
        4 => (
            [1 + random.below(longest), 1 + random.below(longest), 1 + random.below(longest)],
            "box",
        ),
        _ => ([side, side, 0], "empty"),
    };
    let high = [0, 1, 2].map(|axis| end(low[axis], sides[axis]));
    let cut = name == "cube" && (0..3).any(|axis| high[axis] - low[axis] + 1 != side as i64);
    (low.map(|v| v as i32), high.map(|v| v as i32), if cut { "cube at the edge" } else { name })
}

// ---- calls

struct Said {
    number: u32,
    bits: u32,
    counts: Vec<u64>,
}

fn counted(grid: &Grid, low: [i32; 3], high: [i32; 3], places: usize) -> Said {
    let mut value = f32::from_bits(0x5a5a_5a5a);
    let mut counts = vec![0x5a5a_5a5a_5a5a_5a5a; places];
    let number = interface::box_maximum_counted(
        grid.tables(),
        low[0],
        low[1],
        low[2],
        high[0],
        high[1],
        high[2],
        &mut value,
        &mut counts,
    );
    Said { number, bits: value.to_bits(), counts }
}

fn plain(grid: &Grid, low: [i32; 3], high: [i32; 3]) -> (u32, u32) {
    let mut value = f32::from_bits(0x5a5a_5a5a);
    let number = interface::box_maximum(
        grid.tables(),
        low[0],
        low[1],
        low[2],
        high[0],
        high[1],
        high[2],
        &mut value,
    );
    (number, value.to_bits())
}

fn five(counts: Counts) -> Vec<u64> {
    let [roots, upper, lower, leaf] = counts;
    vec![roots as u64, upper as u64, lower as u64, (leaf >> 64) as u64, leaf as u64]
}

fn one(random: &mut Random, grid: &Grid, longest: usize, tally: &mut Tally) {
    let (low, high, name) = zone(random, longest);
    let said = counted(grid, low, high, 5);
    let (number, bits) = plain(grid, low, high);
    tally.check((said.number, said.bits) == (number, bits), || {
        format!("maximum of {low:?} to {high:?}")
    });
    if number != 0 {
        tally.saw(&format!("refused {number}"));
        tally.check(said.counts == [0; 5], || {
            format!("counts after refusal {number}: {:?}", said.counts)
        });
        return;
    }
    let counts = reference::counts(grid.links(), low, high);
    tally.check(said.counts == five(counts), || {
        format!("{name} {low:?} to {high:?}: {:?} beside {counts:?}", said.counts)
    });
    tally.saw(&format!("shape: {name}"));
    if name == "cube" {
        let most = reference::most((i64::from(high[0]) - i64::from(low[0]) + 1) as u32);
        let within = (0..4).all(|k| counts[k] <= most[k]);
        tally.check(within, || format!("cube {low:?} to {high:?}: {counts:?} above {most:?}"));
        if counts == most {
            tally.saw("a cube at the most");
        }
    }
    for (level, what) in ["root", "upper", "lower", "leaf"].iter().enumerate() {
        if counts[level] > 0 {
            tally.saw(&format!("read: {what}"));
        }
    }
    let signs = grid.blocks.iter().any(|b| *b < 0) && grid.blocks.iter().any(|b| *b >= 0);
    let mut uppers: Vec<u32> = grid.root.0.iter().copied().filter(|link| *link > 0).collect();
    uppers.sort_unstable();
    if signs {
        tally.saw("grid: blocks of both signs");
    }
    if uppers.windows(2).any(|two| two[0] == two[1]) {
        tally.saw("grid: roots that share a child");
    }
}

fn other_lengths(random: &mut Random, grid: &Grid, tally: &mut Tally) {
    let places = random.pick(&[0, 1, 4, 6, 9]);
    let (low, high, _) = zone(random, 10);
    let said = counted(grid, low, high, places);
    let zeros = said.bits == 0 && said.counts.iter().all(|c| *c == 0);
    tally.check(said.number == 18 && zeros, || {
        format!("{places} places: {} {:?}", said.number, said.counts)
    });
    tally.saw("counts of another length");
}

// ---- classes

/// Limits that pass, often at stored values, which are eighths; or that do not, and why.
fn limits(random: &mut Random) -> (Vec<f32>, &'static str) {
    let mut eighths: Vec<i64> = (-8..=8).collect();
    for i in (1..eighths.len()).rev() {
        eighths.swap(i, random.below(i + 1));
    }
    let count = random.pick(&[1, 2, 2, 3, 16]);
    let mut list: Vec<i64> = eighths[..count].to_vec();
    list.sort_unstable();
    let mut limits: Vec<f32> = list.iter().map(|v| *v as f32 / 8.0).collect();
    let place = random.below(limits.len());
    match random.below(16) {
        0 => return (vec![], "limits: none"),
        1 => return ((0..17).map(|v| v as f32).collect(), "limits: 17"),
        2 => limits[place] = f32::NAN,
        3 => limits[place] = f32::INFINITY,
        4 => return (vec![-0.0, 0.0], "limits: not rising"),
        5 => limits[place] += 0.0625,
        6 => limits = vec![-0.0],
        _ => {}
    }
    let name = match (limits.len(), classes::limits_pass(&limits)) {
        (_, false) => "limits: not finite",
        (16, true) => "limits: 16",
        _ => "limits: some",
    };
    (limits, name)
}

fn classed(grid: &Grid, limits: &[f32], low: [i32; 3], high: [i32; 3], places: usize) -> Said {
    let mut counts = vec![0x5a5a_5a5a_5a5a_5a5a; places];
    let tables = grid.tables();
    let [lx, ly, lz] = low;
    let [hx, hy, hz] = high;
    let number = interface::count_classes(tables, limits, lx, ly, lz, hx, hy, hz, &mut counts);
    Said { number, bits: 0, counts }
}

/// A box of every shape; or one with a side at the longest, or one above it.
fn class_zone(random: &mut Random, longest: usize) -> ([i32; 3], [i32; 3], &'static str) {
    let (mut low, mut high, name) = zone(random, longest);
    let axis = random.below(3);
    let (more, name) = match random.below(8) {
        0 => (classes::LONGEST, "side: the longest"),
        1 => (classes::LONGEST + 1, "side: one more"),
        _ => return (low, high, name),
    };
    low[axis] = low[axis].min(0);
    high[axis] = (i64::from(low[axis]) + more - 1) as i32;
    (low, high, name)
}

fn class_of_box(random: &mut Random, grid: &Grid, longest: usize, tally: &mut Tally) {
    let (low, high, shape) = class_zone(random, longest);
    let (limits, of_limits) = limits(random);
    let places = if random.below(12) == 0 { random.pick(&[0, 16, 18]) } else { 17 };
    let said = classed(grid, &limits, low, high, places);
    let sides = classes::sides(low, high);
    let invalid = interface::validate(grid.tables());
    let short = sides.iter().all(|side| *side <= classes::LONGEST);
    let number = match (places, invalid, classes::limits_pass(&limits) && short) {
        (17, 0, true) => 0,
        (17, 0, false) => 25,
        (17, fault, _) => fault,
        _ => 18,
    };
    let mut want = vec![0; places];
    if number == 0 {
        let few = sides.iter().map(|side| *side as u128).product::<u128>() <= 20_000;
        let of = if few { classes::by_coordinates } else { classes::by_entries };
        want = of(&grid.tables(), &limits, low, high);
        tally.saw(if few { "classes: by coordinates" } else { "classes: by entries" });
        tally.saw(&format!("classes of {shape}"));
        let all: u128 = said.counts.iter().map(|count| u128::from(*count)).sum();
        tally.check(all == sides.iter().map(|side| *side as u128).product(), || {
            format!("classes of {low:?} to {high:?}: {all} in all")
        });
    } else {
        tally.saw(&format!("classes refused {number}"));
        if number == 25 && sides.contains(&0) {
            tally.saw("classes refused 25 of an empty box");
        }
    }
    tally.saw(of_limits);
    let same = said.counts.iter().map(|count| u128::from(*count)).eq(want.iter().copied());
    tally.check(said.number == number && same, || {
        format!(
            "classes of {low:?} to {high:?} by {limits:?}: {} {:?} beside {number} {want:?}",
            said.number, said.counts
        )
    });
}

// ---- the dearest cubes

/// Sides of cubes with leaf values beside those up to the one that is asked for; the last reads 2^36 values.
const LARGE: [u32; 3] = [511, 1000, 4096];

/// Eight roots around the origin that share one upper, one lower and one leaf node, all children; or lower entries that are tiles.
fn shared(leaves: bool) -> Grid {
    let mut blocks = Vec::new();
    for i in 0..8 {
        blocks.extend([i >> 2 & 1, i >> 1 & 1, i & 1].map(|bit| bit - 1));
    }
    Grid {
        blocks,
        root: (vec![1; 8], vec![0.0; 8]),
        upper: (vec![1; 32_768], vec![0.0; 32_768]),
        lower: (vec![u32::from(leaves); 4096], vec![0.0; 4096]),
        leaf: vec![0.0; 512],
        background: 0.0,
    }
}

fn dearest(n: u32, leaves: bool, grid: &Grid, tally: &mut Tally) {
    let most = reference::most(n);
    let want = if leaves { most } else { [most[0], most[1], most[2], 0] };
    let high = n as i32 - 2;
    let said = counted(grid, [-1; 3], [high; 3], 5);
    tally.check(said.number == 0 && said.counts == five(want), || {
        format!("side {n}: {:?} beside {want:?}", said.counts)
    });
    tally.saw(if leaves {
        "dearest: with leaf values"
    } else {
        "dearest: lower entries are tiles"
    });
}

fn main() {
    let words: Vec<u64> = std::env::args()
        .skip(1)
        .map(|word| word.parse().expect("usage: compare SEED GRIDS SIDE"))
        .collect();
    let [seed, grids, side] = words[..] else { panic!("usage: compare SEED GRIDS SIDE") };
    let mut tally = Tally::default();
    tally.expect(&[
        "shape: cube",
        "shape: line",
        "shape: slab",
        "shape: box",
        "shape: empty",
        "shape: cube at the edge",
    ]);
    tally.expect(&[
        "read: root",
        "read: upper",
        "read: lower",
        "read: leaf",
        "a cube at the most",
        "counts of another length",
    ]);
    tally.expect(&["grid: blocks of both signs", "grid: roots that share a child"]);
    tally.expect(&["refused 11", "refused 12", "refused 18"]);
    tally.expect(&[
        "limits: none",
        "limits: 17",
        "limits: not rising",
        "limits: not finite",
        "limits: 16",
        "limits: some",
    ]);
    tally.expect(&[
        "classes: by coordinates",
        "classes: by entries",
        "classes of side: the longest",
    ]);
    tally.expect(&[
        "classes refused 11",
        "classes refused 12",
        "classes refused 18",
        "classes refused 25",
    ]);
    tally.expect(&["classes refused 25 of an empty box"]);
    for case in 0..grids {
        let random = &mut Random::new(seed, case);
        let (children, longest) = random.pick(&[(FEW, 6000), (300, 60), (FULL, 40)]);
        let mut grid = grid(random, children);
        for _ in 0..10 {
            one(random, &grid, longest, &mut tally);
        }
        for _ in 0..10 {
            class_of_box(random, &grid, longest, &mut tally);
        }
        other_lengths(random, &grid, &mut tally);
        spoil(random, &mut grid);
        one(random, &grid, 20, &mut tally);
        class_of_box(random, &grid, 20, &mut tally);
        other_lengths(random, &grid, &mut tally);
    }
    let (full, tiles) = (shared(true), shared(false));
    for n in (1..=side as u32).chain(LARGE) {
        dearest(n, true, &full, &mut tally);
    }
    let random = &mut Random::new(seed, grids);
    let mut sides: Vec<u32> = (0..20).map(|_| random.between(1, 4096) as u32).collect();
    sides.extend([1, 2, 8, 9, 128, 129, 130, 4095, 4096]);
    for n in sides {
        dearest(n, false, &tiles, &mut tally);
    }
    tally.end();
}
