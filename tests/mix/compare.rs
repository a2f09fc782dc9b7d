//! The static library beside reference.rs: the density between voxels. usage: compare SEED GRIDS POINTS
//! Prints how often each kind came up; a kind that did not is a failure. The last line is 'N passed, M failed'.

mod exact;
#[path = "../../rust/smokegrid/src/interface.rs"]
#[allow(dead_code)]
mod interface;
#[path = "../oracle/src/random.rs"]
#[allow(dead_code)]
mod random;
mod reference;

use interface::GridTables;
use random::Random;
use reference::Grid;
use std::collections::BTreeMap;

const CEILING: f32 = f32::from_bits(0x7e80_0000);
const CELLS: [u32; 3] = [5, 3, 2];

#[derive(Default)]
struct Tally {
    kinds: BTreeMap<String, u64>,
    failed: u64,
    passed: u64,
    most: f64,
}

impl Tally {
    fn saw(&mut self, kind: &str) {
        *self.kinds.entry(kind.to_string()).or_default() += 1;
    }

    fn check(&mut self, same: bool, what: impl FnOnce() -> String) {
        if same {
            self.passed += 1;
        } else {
            self.failed += 1;
            if self.failed <= 10 {
                println!("FAILED {}", what());
            }
        }
    }
}

const KINDS: [&str; 20] = [
    "18: medium of another length",
    "18: tables that are not paired",
    "11: a link past its table",
    "12: a NaN in a leaf",
    "15: a negative density",
    "4: the world box",
    "13: the map",
    "24: outside the world box",
    "24: a NaN",
    "16: a voxel outside i32",
    "density",
    "density: t of 1",
    "density: t of 0",
    "density: subnormal",
    "density: above 2^126",
    "density: the eight voxels in one leaf",
    "density: the eight voxels in several leaves",
    "bound: figure of at most 2^126",
    "bound: figure of 2^126",
    "bound: above the figure",
];

// ---- grids

/// A density of one of the sorts that a grid is made of.
fn value(random: &mut Random, sort: usize) -> f32 {
    match sort {
        0 => random.unit() as f32,
        1 => f32::from_bits(random.below(1 << 12) as u32),
        2 => CEILING,
        3 => random.pick(&[f32::MAX, CEILING, 1.0, 0.0]),
        4 => f32::from_bits(0x3f2a_aaab),
        _ => random.pick(&[0.0, -0.0, 1e-40, 0.1, 3.0, 1e30]),
    }
}

/// A few roots about the origin; one upper node with some lower nodes and leaves; tiles elsewhere. The places of the leaves come back.
fn grid(random: &mut Random) -> (Grid, Vec<[i32; 3]>) {
    let sort = random.below(6);
    let mut g = Grid { background: value(random, sort), ..Grid::default() };
    let child = random.pick(&[[0, 0, 0], [-1, 0, -1], [-1, -1, -1]]);
    for block in [child, [child[0] + 1, child[1], child[2]], [child[0], child[1], child[2] - 1]] {
        g.blocks.extend(block);
        g.root_links.push(u32::from(block == child));
        g.root_values.push(if block == child { 0.0 } else { value(random, sort) });
    }
    g.upper_links = vec![0; 32768];
    g.upper_values = vec![value(random, sort); 32768];
    let mut near = Vec::new();
    let lowers = 1 + random.below(3);
    for lower in 0..lowers {
        let at = [0, 1, 2].map(|_| random.pick(&[0usize, 1, 31]));
        let slot = (at[0] * 32 + at[1]) * 32 + at[2];
        if g.upper_links[slot] != 0 {
            continue;
        }
        g.upper_links[slot] = lower as u32 + 1;
        g.upper_values[slot] = 0.0;
        let start = 4096 * lower;
        g.lower_links.resize(start + 4096, 0);
        g.lower_values.resize(start + 4096, value(random, sort));
        for _ in 0..1 + random.below(6) {
            let inner = [0, 1, 2].map(|_| random.pick(&[0usize, 1, 2, 15]));
            let place = start + (inner[0] * 16 + inner[1]) * 16 + inner[2];
            if g.lower_links[place] == 0 {
                g.leaf_values.extend((0..512).map(|_| value(random, sort)));
                g.lower_links[place] = (g.leaf_values.len() / 512) as u32;
                g.lower_values[place] = 0.0;
                let axis = |a: usize| child[a] * 4096 + (at[a] * 128 + inner[a] * 8) as i32;
                near.push([axis(0), axis(1), axis(2)]);
            }
        }
    }
    let whole = g.lower_links.len().max(4096 * lowers);
    g.lower_links.resize(whole, 0);
    g.lower_values.resize(whole, 0.0);
    (g, near)
}

/// A world box of some voxels about a leaf, the map and the translation.
fn medium(random: &mut Random, leaf: [i32; 3]) -> [f32; 18] {
    let mut m = [0.0; 18];
    for a in 0..3 {
        let size = random.pick(&[1.0f32, 0.25, 0.1, 3.0, 1e-3]);
        m[6 + 4 * a] = 1.0 / size;
        m[15 + a] = random.pick(&[0.0, 0.0, 0.3, -2.5]);
        let world = |index: f32| index * size + m[15 + a];
        (m[a], m[3 + a]) = (world(leaf[a] as f32 - 3.0), world(leaf[a] as f32 + 11.0));
    }
    for off in [7, 8, 9, 11, 12, 13] {
        m[off] = random.pick(&[0.0, -0.0]);
    }
    m
}

/// A number from low to high: on a whole index, beside one (there t rounds to 1), an end, or anywhere.
fn between(random: &mut Random, m: &[f32; 18], a: usize, leaf: i32) -> f32 {
    let (low, high) = (m[a], m[3 + a]);
    let whole = (leaf + random.between(-3, 10) as i32) as f32 / m[6 + 4 * a] + m[15 + a];
    let v = match random.below(8) {
        0 => random.pick(&[low, high]),
        1 => whole,
        2 => whole.next_down(),
        3 => random.pick(&[-f32::from_bits(1), -1e-30, -1e-9, 0.0, -0.0]),
        // parts at which equal voxels mix to more than they are
        4 => random.pick(&[8947849.0 / 536870912.0, 11184811.0 / 134217728.0]),
        _ => (f64::from(low) + random.unit() * (f64::from(high) - f64::from(low))) as f32,
    };
    v.clamp(low, high)
}

// ---- the library

fn tables(g: &Grid) -> GridTables<'_> {
    GridTables {
        background: g.background,
        blocks: &g.blocks,
        root_links: &g.root_links,
        root_values: &g.root_values,
        upper_links: &g.upper_links,
        upper_values: &g.upper_values,
        lower_links: &g.lower_links,
        lower_values: &g.lower_values,
        leaf_values: &g.leaf_values,
    }
}

fn asked(g: &Grid, m: &[f32], p: [f32; 3]) -> (u32, u32) {
    let mut value = 7.5;
    let number = interface::mix(tables(g), m, p[0], p[1], p[2], &mut value);
    (number, if value.is_nan() { 0x7fc0_0000 } else { value.to_bits() })
}

// ---- comparisons

fn density(g: &Grid, m: &[f32; 18], p: [f32; 3], tally: &mut Tally) -> Option<f32> {
    let wanted = reference::density(g, m, p);
    let got = asked(g, m, p);
    match wanted {
        Ok(v) => {
            let parts = [0, 1, 2].map(|a| reference::place(m, p, a).unwrap());
            tally.saw("density");
            for (t, kind) in [(1.0, "density: t of 1"), (0.0, "density: t of 0")] {
                if parts.iter().any(|part| part.1 == t) {
                    tally.saw(kind);
                }
            }
            let together = parts.iter().all(|part| part.0.rem_euclid(8) < 7);
            tally.saw(if together {
                "density: the eight voxels in one leaf"
            } else {
                "density: the eight voxels in several leaves"
            });
            if v.is_subnormal() {
                tally.saw("density: subnormal");
            }
            if v > CEILING {
                tally.saw("density: above 2^126");
            }
            tally.check(v.is_finite() && got == (0, v.to_bits()), || {
                format!("{p:?} in {m:?}: {v} and {got:?}")
            });
            Some(v)
        }
        Err(number) => {
            tally.saw(if p.iter().any(|v| v.is_nan()) {
                "24: a NaN"
            } else if number == 24 {
                "24: outside the world box"
            } else {
                "16: a voxel outside i32"
            });
            tally.check(got == (number, 0), || {
                format!("{p:?} in {m:?}: refused {number} and {got:?}")
            });
            None
        }
    }
}

/// Corner k of n, as a build has it.
fn corner(low: f32, high: f32, n: u32, k: u32) -> f32 {
    let t = k as f32 / n as f32;
    (1.0 - t) * low + t * high
}

/// The bound, for every cell that encloses the point.
fn bound(m: &[f32; 18], table: &[f32], p: [f32; 3], v: f32, tally: &mut Tally) {
    let mut cells = 0;
    for (k, figure) in table.iter().enumerate() {
        let k = k as u32;
        let cell = [k % CELLS[0], k / CELLS[0] % CELLS[1], k / (CELLS[0] * CELLS[1])];
        let on = |a: usize, o: u32| corner(m[a], m[3 + a], CELLS[a], cell[a] + o);
        if (0..3).any(|a| p[a] < on(a, 0) || on(a, 1) < p[a]) {
            continue;
        }
        cells += 1;
        if *figure > CEILING {
            continue;
        }
        tally.saw("bound: figure of at most 2^126");
        if *figure == CEILING {
            tally.saw("bound: figure of 2^126");
        }
        if v > *figure {
            tally.saw("bound: above the figure");
            if figure.is_normal() {
                tally.most = tally.most.max(reference::above(v, *figure));
            }
        }
        tally.check(reference::bounded(v, *figure), || {
            format!("{p:?} in {m:?}: {v} above the figure {figure}")
        });
    }
    tally.check(cells > 0, || format!("no cell encloses {p:?} in {m:?}"));
}

/// The faults in the order of document 02, each as a change of what is handed over: the first of those that are there is the answer.
fn refusals(random: &mut Random, g: &Grid, m: &[f32; 18], p: [f32; 3], tally: &mut Tally) {
    let (mut g, mut m, mut p, mut length) = (g.clone(), *m, p, 18);
    let mut first = "";
    for kind in KINDS[..10].iter().rev() {
        if !random.percent(20) {
            continue;
        }
        first = kind;
        match *kind {
            "18: medium of another length" => length = random.pick(&[0, 17]),
            "18: tables that are not paired" => g.lower_values.push(0.0),
            "11: a link past its table" => g.root_links[0] = 2,
            "12: a NaN in a leaf" => {
                g.leaf_values[random.below(512)] = random.pick(&[f32::NAN, f32::INFINITY])
            }
            "15: a negative density" => {
                g.upper_values[5 * 1024 + random.below(1024)] = -f32::from_bits(1)
            }
            "4: the world box" => {
                let a = random.below(3);
                (m[a], m[3 + a]) =
                    random.pick(&[(1.0, 1.0), (f32::NAN, 1.0), (-3e38, 3e38), (2.0, 1.0)]);
            }
            "13: the map" => {
                m[random.pick(&[6, 7, 12, 14])] = random.pick(&[-1.0, f32::NAN, f32::INFINITY]);
                if random.percent(20) {
                    m[16] = f32::NAN;
                }
            }
            "24: outside the world box" => {
                p[random.below(3)] = random.pick(&[3e38, -3e38, f32::INFINITY])
            }
            "24: a NaN" => p[random.below(3)] = f32::NAN,
            _ => {
                let a = random.below(3);
                (m[a], m[3 + a], m[6 + 4 * a], p[a]) = random.pick(&[
                    (0.0, 1e6, 1e6, 9e5),
                    (-1e30, 1e30, 1.0, 1e29),
                    (0.0, 4e9, 1.0, 2147483648.0),
                ]);
            }
        }
    }
    if first.is_empty() {
        return;
    }
    let number = first.split(':').next().unwrap().parse().unwrap();
    let got = asked(&g, &m[..length], p);
    tally.saw(first);
    tally.check(got == (number, 0), || format!("{first}: refused {number} and {got:?}"));
}

fn main() {
    let numbers: Vec<u64> =
        std::env::args().skip(1).map(|word| word.parse().expect("a number")).collect();
    let (seed, grids, points) = (numbers[0], numbers[1], numbers[2]);
    let mut tally = Tally::default();
    for kind in KINDS {
        tally.kinds.insert(kind.to_string(), 0);
    }
    for case in 0..grids {
        let mut random = Random::new(seed, case);
        let (g, near) = grid(&mut random);
        let leaf = random.pick(&near);
        let m = medium(&mut random, leaf);
        let corners =
            [leaf[0] - 4, leaf[1] - 4, leaf[2] - 4, leaf[0] + 12, leaf[1] + 12, leaf[2] + 12];
        let mut table = vec![7.5; 30];
        let built = interface::build_majorant(tables(&g), &m, &corners, &CELLS, &mut table) == 0;
        for _ in 0..points {
            let mut p = [0, 1, 2].map(|a| between(&mut random, &m, a, leaf[a]));
            if random.percent(2) {
                p[random.below(3)] =
                    random.pick(&[f32::NAN, f32::INFINITY, f32::NEG_INFINITY, 1e30]);
            }
            match density(&g, &m, p, &mut tally) {
                Some(v) if built => bound(&m, &table, p, v, &mut tally),
                Some(_) if random.percent(5) => refusals(&mut random, &g, &m, p, &mut tally),
                _ => {}
            }
            if random.percent(3) {
                let inside =
                    [0, 1, 2]
                        .map(|a| if p[a].is_nan() { m[a] } else { p[a].clamp(m[a], m[3 + a]) });
                refusals(&mut random, &g, &m, inside, &mut tally);
            }
        }
    }
    for (kind, times) in &tally.kinds {
        println!("{times:9}  {kind}");
        if *times == 0 {
            println!("FAILED {kind} did not come up");
            tally.failed += 1;
        }
    }
    println!(
        "the most that a density lies above its figure: {:.2} × 2^-24 of it; 16 are allowed",
        tally.most
    );
    println!("{} passed, {} failed", tally.passed, tally.failed);
    std::process::exit(i32::from(tally.failed > 0));
}
