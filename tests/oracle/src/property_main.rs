//! `property`: the way of a host through C alone, against what the bytes say: a decode into tables with room to spare, its used
//! parts, lookups, box maxima, and the build. Every lookup is the voxel of the bytes and a box maximum the greatest of zero and its
//! voxels, also where the build is refused, which leaves zeros. Where it is not, every point of the world box lies in some cell, and
//! no cell around it has a figure below its eight voxels. Of every accepted grid also the laws of zones (`zones`).

use oracle::cells::{cell, corners, enclosing, voxels_around};
use oracle::generate::{self, Case};
use oracle::loader::{decode_into, figures_of, ours, Grid, Lengths, Loader};
use oracle::random::Random;
use oracle::samples;
use oracle::walk::{self, Places};
use oracle::zones;
use std::process::exit;

const USAGE: &str = "usage: property SEED GRIDS POINTS-A-GRID [rust]
With `rust` the Rust modules answer even where a library was linked.";

const SHOWN: usize = 20;

#[derive(Default)]
struct Counts {
    tried: u64,
    built: u64,
    refused_16: u64,
    refused_17: u64,
    lookups: u64,
    boxes: u64,
    points: u64,
    cells: u64,
    on_faces: u64,
    smoky: u64,
    swapped: u64,
    other_cells: u64,
    zones: zones::Counts,
    counterexamples: u64,
    case: String,
}

impl Counts {
    fn wrong(&mut self, what: String) {
        self.counterexamples += 1;
        if self.counterexamples as usize <= SHOWN {
            println!("counterexample: {}: {what}", self.case);
        }
    }

    fn print(&self) {
        println!(
            "grids tried {}, built {}; at other cells than 64 x 64 x 64 {}",
            self.tried, self.built, self.other_cells
        );
        println!(
            "builds refused, after lookups and box maxima: 16 {}, 17 {}",
            self.refused_16, self.refused_17
        );
        println!("lookups {}, box maxima {}", self.lookups, self.boxes);
        println!("points {}, cells that enclose one {}", self.points, self.cells);
        println!("points on a face of some cell {}", self.on_faces);
        println!("points with smoke in a voxel {}", self.smoky);
        println!("axes with a cell whose corners are swapped {}", self.swapped);
        self.zones.print();
        println!("counterexamples {}", self.counterexamples);
    }
}

fn main() {
    let words: Vec<String> = std::env::args().skip(1).collect();
    let numbers: Vec<u64> = words.iter().take(3).filter_map(|word| word.parse().ok()).collect();
    let [seed, grids, points] = numbers[..] else {
        eprintln!("{USAGE}");
        exit(2)
    };
    let loader = ours(&words);
    let mut counts = Counts::default();
    // Most shapes build often; where none does, the run ends all the same.
    while counts.built < grids && counts.tried < 20 * grids + 100 {
        let number = counts.tried;
        counts.tried += 1;
        let case = generate::sound(seed, number);
        counts.case = format!("sound case {seed} {number} ({})", case.name);
        if case.builds {
            run(&mut counts, loader, &case, [seed, number], points);
        }
    }
    counts.print();
    let every_end = counts.built == grids
        && counts.refused_16 > 0
        && counts.refused_17 > 0
        && counts.swapped > 0
        && counts.zones.complete();
    exit(if counts.counterexamples == 0 && every_end { 0 } else { 1 });
}

fn run(
    counts: &mut Counts,
    loader: &dyn Loader,
    case: &Case,
    [seed, number]: [u64; 2],
    points: u64,
) {
    let random = &mut Random::new(!seed, number);
    // Numbers of their own, so that the points below stay those of the seed.
    let zone = &mut Random::new(seed ^ 0x2015, number);
    let (_, places) = walk::reach(&case.bytes, walk::ROOMY);
    let [leaf, lower, upper] = places.nodes.map(|nodes| nodes + 1);
    let spare =
        Places { roots: places.roots + 2, spans: places.spans + 1, nodes: [leaf, lower, upper] };
    let (number, held) = decode_into(loader, &case.bytes, Lengths::of(spare));
    if number != 0 {
        return;
    }
    let mut grid = held.grid();
    check_lookups(counts, loader, case, &grid, random);
    check_boxes(counts, loader, case, &grid, random);
    for what in zones::check(&mut counts.zones, loader, &grid, &case.near, zone) {
        counts.wrong(what);
    }
    // Every other grid at other numbers of cells than the decode wrote.
    if counts.tried % 2 == 0 {
        grid.cells = (0..3).map(|_| zone.pick(&[1, 2, 3, 5, 7, 100, 127, 128])).collect();
        counts.other_cells += 1;
    }
    let mut figures = vec![f32::NAN; figures_of(&grid.cells)];
    let number = grid.build(loader, &mut figures);
    if number != 0 && figures.iter().any(|figure| figure.to_bits() != 0) {
        counts.wrong(format!("a build refused by {number} leaves a figure"));
    }
    match number {
        0 => counts.built += 1,
        16 => return counts.refused_16 += 1,
        17 => return counts.refused_17 += 1,
        other => return counts.wrong(format!("an accepted grid's build is refused by {other}")),
    }
    let corners = corners(&grid.medium, &grid.cells);
    counts.swapped +=
        corners.iter().filter(|axis| axis.windows(2).any(|cell| cell[0] > cell[1])).count() as u64;
    for _ in 0..points {
        let point = samples::point_inside(random, &grid.medium, &grid.cells);
        check_point(counts, loader, case, &grid, &figures, &corners, point);
    }
}

fn check_lookups(
    counts: &mut Counts,
    loader: &dyn Loader,
    case: &Case,
    grid: &Grid,
    random: &mut Random,
) {
    let at = samples::coordinates(random, &case.near, 100);
    let values = loader.get_values(grid.tables(), &at);
    let readings = loader.get_readings(grid.tables(), &at);
    for ((at, answer), reading) in at.iter().zip(values).zip(readings) {
        counts.lookups += 1;
        let (bits, level) = walk::reading(&case.bytes, *at);
        if answer != (0, bits) {
            counts.wrong(format!("{at:?}: lookup {answer:x?}, bytes {bits:08x}"));
        }
        if reading != (0, bits, level) {
            counts.wrong(format!("{at:?}: reading {reading:x?}, bytes {bits:08x} level {level}"));
        }
    }
}

/// Boxes small enough that every voxel is read.
fn check_boxes(
    counts: &mut Counts,
    loader: &dyn Loader,
    case: &Case,
    grid: &Grid,
    random: &mut Random,
) {
    let boxes: Vec<[i32; 6]> = (0..10)
        .map(|_| {
            let [x, y, z] = samples::coordinate(random, &case.near);
            let [a, b, c] = [x, y, z].map(|low| low.saturating_add(random.between(-1, 5) as i32));
            [x, y, z, a, b, c]
        })
        .collect();
    for (area, answer) in boxes.iter().zip(loader.box_maxima(grid.tables(), &boxes)) {
        counts.boxes += 1;
        let mut greatest = 0.0f32;
        for x in area[0]..=area[3] {
            for y in area[1]..=area[4] {
                for z in area[2]..=area[5] {
                    let value = f32::from_bits(walk::voxel(&case.bytes, [x, y, z]));
                    greatest = if value > greatest { value } else { greatest };
                }
            }
        }
        if answer != (0, greatest.to_bits()) {
            counts.wrong(format!("{area:?}: maximum {answer:x?}, bytes {greatest:?}"));
        }
    }
}

fn check_point(
    counts: &mut Counts,
    loader: &dyn Loader,
    case: &Case,
    grid: &Grid,
    figures: &[f32],
    corners: &[Vec<f32>; 3],
    point: [f32; 3],
) {
    counts.points += 1;
    let enclosing = enclosing(corners, point);
    if enclosing.iter().any(Vec::is_empty) {
        counts.wrong(format!("{point:?} lies in no cell"));
    }
    counts.on_faces += u64::from(enclosing.iter().any(|axis| axis.len() > 1));
    let Some(greatest) = greatest_around(loader, case, grid, point) else {
        return counts.wrong(format!("{point:?}: a voxel outside i32"));
    };
    counts.smoky += u64::from(greatest > 0.0);
    for z in &enclosing[2] {
        for y in &enclosing[1] {
            for x in &enclosing[0] {
                counts.cells += 1;
                let cell = cell(&grid.cells, [*x, *y, *z]);
                if !(figures[cell] >= greatest) {
                    counts.wrong(format!(
                        "{point:?}: cell {cell} {}, voxel {greatest}",
                        figures[cell]
                    ));
                }
            }
        }
    }
}

/// The greatest of the eight voxels around a point, from the bytes.
fn greatest_around(loader: &dyn Loader, case: &Case, grid: &Grid, point: [f32; 3]) -> Option<f32> {
    let around = voxels_around(loader, &grid.medium, point)?;
    let voxel = |at: [i32; 3]| f32::from_bits(walk::voxel(&case.bytes, at));
    Some(around.map(voxel).into_iter().fold(f32::NEG_INFINITY, f32::max))
}
