//! The coordinates of a box by class of density, written from document 02 alone (A9): a small box coordinate by coordinate, with a
//! lookup of its own; any box by what each entry covers of it.

use crate::interface::GridTables;

pub const LONGEST: i64 = 1_048_576;

/// How many limits are at most the value.
fn class(limits: &[f32], value: f32) -> usize {
    limits.iter().filter(|limit| **limit <= value).count()
}

/// 1 to 16 limits, finite, each below the next.
pub fn limits_pass(limits: &[f32]) -> bool {
    (1..=16).contains(&limits.len())
        && limits.iter().all(|limit| limit.is_finite())
        && limits.windows(2).all(|two| two[0] < two[1])
}

/// None where low is above high.
pub fn sides(low: [i32; 3], high: [i32; 3]) -> [i64; 3] {
    [0, 1, 2].map(|axis| (i64::from(high[axis]) - i64::from(low[axis]) + 1).max(0))
}

fn volume(low: [i64; 3], high: [i64; 3]) -> u128 {
    (0..3).map(|axis| (high[axis] - low[axis] + 1).max(0) as u128).product()
}

/// What is read at a coordinate.
fn value(grid: &GridTables, at: [i64; 3]) -> f32 {
    let block = at.map(|v| v.div_euclid(4096));
    let slot = |size: i64, cell: i64, slots: i64| {
        let [x, y, z] = at.map(|v| v.rem_euclid(size) / cell);
        ((x * slots + y) * slots + z) as usize
    };
    for (i, link) in grid.root_links.iter().enumerate() {
        if [0, 1, 2].map(|axis| i64::from(grid.blocks[3 * i + axis])) != block {
            continue;
        }
        if *link == 0 {
            return grid.root_values[i];
        }
        let upper = 32_768 * (*link as usize - 1) + slot(4096, 128, 32);
        if grid.upper_links[upper] == 0 {
            return grid.upper_values[upper];
        }
        let lower = 4096 * (grid.upper_links[upper] as usize - 1) + slot(128, 8, 16);
        if grid.lower_links[lower] == 0 {
            return grid.lower_values[lower];
        }
        return grid.leaf_values[512 * (grid.lower_links[lower] as usize - 1) + slot(8, 1, 8)];
    }
    grid.background
}

/// One by one.
pub fn by_coordinates(
    grid: &GridTables,
    limits: &[f32],
    low: [i32; 3],
    high: [i32; 3],
) -> Vec<u128> {
    let mut counts = vec![0; 17];
    if (0..3).any(|axis| high[axis] < low[axis]) {
        return counts; // empty, however long its other sides are
    }
    for x in low[0]..=high[0] {
        for y in low[1]..=high[1] {
            for z in low[2]..=high[2] {
                let at = [x, y, z].map(i64::from);
                counts[class(limits, value(grid, at))] += 1;
            }
        }
    }
    counts
}

struct Cover<'a> {
    grid: &'a GridTables<'a>,
    limits: &'a [f32],
    low: [i64; 3],
    high: [i64; 3],
    counts: Vec<u128>,
}

impl Cover<'_> {
    /// An entry over the cube of `side` from `at` on; level 1 has upper nodes below it, 2 lower nodes, 3 leaves.
    fn entry(&mut self, level: usize, link: u32, value: f32, at: [i64; 3], side: i64) {
        let low = [0, 1, 2].map(|axis| at[axis].max(self.low[axis]));
        let high = [0, 1, 2].map(|axis| (at[axis] + side - 1).min(self.high[axis]));
        let covers = volume(low, high);
        if covers == 0 {
            return;
        }
        if link == 0 {
            self.counts[class(self.limits, value)] += covers;
            return;
        }
        let slots = [32, 16, 8][level - 1];
        let first = (link as usize - 1) * (slots * slots * slots) as usize;
        let side = side / slots;
        for slot in 0..slots * slots * slots {
            let step = [slot / (slots * slots), slot / slots % slots, slot % slots];
            let place = [0, 1, 2].map(|axis| at[axis] + step[axis] * side);
            let i = first + slot as usize;
            let grid = self.grid;
            match level {
                1 => self.entry(2, grid.upper_links[i], grid.upper_values[i], place, side),
                2 => self.entry(3, grid.lower_links[i], grid.lower_values[i], place, side),
                _ => self.entry(4, 0, grid.leaf_values[i], place, side),
            }
        }
    }
}

/// By what each entry covers; what no root covers is the background's.
pub fn by_entries(grid: &GridTables, limits: &[f32], low: [i32; 3], high: [i32; 3]) -> Vec<u128> {
    let (low, high) = (low.map(i64::from), high.map(i64::from));
    let mut cover = Cover { grid, limits, low, high, counts: vec![0; 17] };
    for (i, link) in grid.root_links.iter().enumerate() {
        let at = [0, 1, 2].map(|axis| 4096 * i64::from(grid.blocks[3 * i + axis]));
        cover.entry(1, *link, grid.root_values[i], at, 4096);
    }
    let covered: u128 = cover.counts.iter().sum();
    cover.counts[class(limits, grid.background)] += volume(low, high) - covered;
    cover.counts
}
