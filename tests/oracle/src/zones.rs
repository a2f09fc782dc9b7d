//! Zones of an accepted grid, through C alone: a box cut in two on each axis, a box inside another, and the roots in another order.

use crate::loader::{Answer, Grid, Loader};
use crate::random::Random;
use crate::samples;

const CUTS_AN_AXIS: usize = 20;
const NESTED: usize = 30;
const LOOKUPS: usize = 50;
const MAXIMA: usize = 10;

type Area = [i32; 6];

#[derive(Default)]
pub struct Counts {
    /// Cuts on each axis; those of boxes that are empty on another axis; those whose parts have different maxima.
    cuts: [u64; 3],
    hollow_cuts: u64,
    uneven_cuts: u64,
    /// Boxes inside another; those that are empty; those with the lesser figure.
    nested: u64,
    hollow: u64,
    lesser: u64,
    /// Grids whose root records were moved, and what was asked of them.
    reordered: u64,
    lookups: u64,
    maxima: u64,
}

impl Counts {
    pub fn print(&self) {
        let [x, y, z] = self.cuts;
        println!(
            "boxes cut on x {x}, on y {y}, on z {z}, empty on another axis {}, parts with different maxima {}",
            self.hollow_cuts, self.uneven_cuts
        );
        println!(
            "boxes inside another {}, empty {}, with the lesser figure {}",
            self.nested, self.hollow, self.lesser
        );
        println!(
            "grids with moved roots {}, lookups {}, box maxima {}",
            self.reordered, self.lookups, self.maxima
        );
    }

    /// Each kind came up.
    pub fn complete(&self) -> bool {
        self.cuts.iter().all(|cuts| *cuts > 0)
            && self.hollow_cuts > 0
            && self.uneven_cuts > 0
            && self.hollow > 0
            && self.lesser > 0
            && self.reordered > 0
            && self.lookups > 0
            && self.maxima > 0
    }
}

/// What was answered otherwise than the laws say.
pub fn check(
    counts: &mut Counts,
    loader: &dyn Loader,
    grid: &Grid,
    near: &[[i32; 3]],
    random: &mut Random,
) -> Vec<String> {
    let mut wrong = Vec::new();
    for axis in 0..3 {
        for _ in 0..CUTS_AN_AXIS {
            cut(counts, loader, grid, axis, box_to_cut(random, near, axis), random, &mut wrong);
        }
    }
    for _ in 0..NESTED {
        nested(counts, loader, grid, near, random, &mut wrong);
    }
    reordered(counts, loader, grid, near, random, &mut wrong);
    wrong
}

fn maximum(loader: &dyn Loader, grid: &Grid, area: Area) -> Answer {
    loader.box_maxima(grid.tables(), &[area])[0]
}

fn empty(area: &Area) -> bool {
    (0..3).any(|axis| area[axis] > area[3 + axis])
}

/// Low is below high on the axis; on another it may be above, so that the box is empty.
fn box_to_cut(random: &mut Random, near: &[[i32; 3]], axis: usize) -> Area {
    let mut area = samples::area(random, near);
    if area[axis] >= area[3 + axis] {
        let low = area[axis].min(i32::MAX - 1);
        area[axis] = low;
        area[3 + axis] = low.saturating_add(1 + random.below(20) as i32);
    }
    if random.percent(15) {
        let other = (axis + 1 + random.below(2)) % 3;
        let low = area[other].max(i32::MIN + 1);
        area[other] = low;
        area[3 + other] = low - 1;
    }
    area
}

/// [low, c] and [c + 1, high]: the greater of the two maxima is the old one, bit for bit.
fn cut(
    counts: &mut Counts,
    loader: &dyn Loader,
    grid: &Grid,
    axis: usize,
    whole: Area,
    random: &mut Random,
    wrong: &mut Vec<String>,
) {
    let last = whole[3 + axis] - 1;
    let c = match random.below(4) {
        0 => whole[axis],
        1 => last,
        _ => random.between(i64::from(whole[axis]), i64::from(last)) as i32,
    };
    let [mut low, mut high] = [whole; 2];
    low[3 + axis] = c;
    high[axis] = c + 1;
    let answers = [whole, low, high].map(|area| maximum(loader, grid, area));
    let [old, low, high] = answers.map(|(_, bits)| f32::from_bits(bits));
    let greater = if low < high { high } else { low };
    if answers.iter().any(|(number, _)| *number != 0) || greater.to_bits() != old.to_bits() {
        wrong.push(format!("{whole:?} cut after {c} on axis {axis}: {answers:x?}"));
    }
    counts.cuts[axis] += 1;
    counts.hollow_cuts += u64::from(empty(&whole));
    counts.uneven_cuts += u64::from(low != high);
}

/// Between two ends of an axis, or, where low is above high, above low and below high.
fn ends_within(random: &mut Random, low: i32, high: i32) -> (i32, i32) {
    if low > high {
        return (
            low.saturating_add(random.below(3) as i32),
            high.saturating_sub(random.below(3) as i32),
        );
    }
    let first = random.between(i64::from(low), i64::from(high));
    (first as i32, random.between(first, i64::from(high)) as i32)
}

/// A box whose ends lie within another's, or an empty one anywhere, never has the greater figure.
fn nested(
    counts: &mut Counts,
    loader: &dyn Loader,
    grid: &Grid,
    near: &[[i32; 3]],
    random: &mut Random,
    wrong: &mut Vec<String>,
) {
    let outer = samples::area(random, near);
    let mut inner = outer;
    if random.percent(15) {
        inner = samples::area(random, near);
        let axis = random.below(3);
        let low = inner[axis].max(i32::MIN + 1);
        inner[axis] = low;
        inner[3 + axis] = low - 1;
    } else {
        for axis in 0..3 {
            (inner[axis], inner[3 + axis]) = ends_within(random, outer[axis], outer[3 + axis]);
        }
    }
    let answers = [inner, outer].map(|area| maximum(loader, grid, area));
    let [figure, other] = answers.map(|(_, bits)| f32::from_bits(bits));
    if answers.iter().any(|(number, _)| *number != 0) || other < figure {
        wrong.push(format!("{inner:?} inside {outer:?}: {answers:x?}"));
    }
    counts.nested += 1;
    counts.hollow += u64::from(empty(&inner));
    counts.lesser += u64::from(figure < other);
}

/// The grid with root `order[i]` in place i: its block, its link and its value.
fn with_roots(grid: &Grid, order: &[usize]) -> Grid {
    Grid {
        blocks: order.iter().flat_map(|i| grid.blocks[3 * i..3 * i + 3].to_vec()).collect(),
        root_links: order.iter().map(|i| grid.root_links[*i]).collect(),
        root_values: order.iter().map(|i| grid.root_values[*i]).collect(),
        ..grid.clone()
    }
}

/// The roots in another order: valid, and every lookup and maximum is the old one.
fn reordered(
    counts: &mut Counts,
    loader: &dyn Loader,
    grid: &Grid,
    near: &[[i32; 3]],
    random: &mut Random,
    wrong: &mut Vec<String>,
) {
    let mut order: Vec<usize> = (0..grid.root_links.len()).collect();
    random.shuffle(&mut order);
    if order.is_sorted() {
        order.reverse();
    }
    if order.len() < 2 {
        return;
    }
    let moved = with_roots(grid, &order);
    counts.reordered += 1;
    let number = loader.validate(moved.tables());
    if number != 0 {
        wrong.push(format!("roots {order:?}: not valid, {number}"));
    }
    let at = samples::coordinates(random, near, LOOKUPS);
    let values = [grid, &moved].map(|grid| loader.get_values(grid.tables(), &at));
    let boxes = samples::areas(random, near, MAXIMA);
    let maxima = [grid, &moved].map(|grid| loader.box_maxima(grid.tables(), &boxes));
    counts.lookups += at.len() as u64;
    counts.maxima += boxes.len() as u64;
    for (i, at) in at.iter().enumerate().filter(|(i, _)| values[0][*i] != values[1][*i]) {
        wrong.push(format!("roots {order:?}, {at:?}: {:x?}, {:x?}", values[0][i], values[1][i]));
    }
    for (i, area) in boxes.iter().enumerate().filter(|(i, _)| maxima[0][*i] != maxima[1][*i]) {
        wrong.push(format!("roots {order:?}, {area:?}: {:x?}, {:x?}", maxima[0][i], maxima[1][i]));
    }
}
