//! Damage to tables and records that are handed in, beyond what a decode would ever give.

use crate::loader::Grid;
use crate::random::Random;

const VALUES: [u32; 12] = [
    0x80000000, 0x7fc00000, 0x7f812345, 0xffc54321, 0x7f800000, 0xff800000, 0xbf800000, 0x80000001,
    0x00000001, 0x7f7fffff, 0x3f000000, 0x00000000,
];

fn value(random: &mut Random) -> f32 {
    f32::from_bits(random.pick(&VALUES))
}

/// One change to the tables; the name says which.
pub fn tables(grid: &mut Grid, random: &mut Random) -> &'static str {
    match random.below(9) {
        0 => {
            grid.background = value(random);
            "background"
        }
        1 => blocks(grid, random),
        2 => lengths(grid, random),
        3 | 4 => entry(&mut grid.root_links, &mut grid.root_values, random, "root"),
        5 => entry(&mut grid.upper_links, &mut grid.upper_values, random, "upper"),
        6 => entry(&mut grid.lower_links, &mut grid.lower_values, random, "lower"),
        _ if grid.leaf_values.is_empty() => blocks(grid, random),
        _ => {
            let at = random.below(grid.leaf_values.len());
            grid.leaf_values[at] = value(random);
            "leaf value"
        }
    }
}

/// A link, a value, or a value beside a child.
fn entry(
    links: &mut [u32],
    values: &mut [f32],
    random: &mut Random,
    name: &'static str,
) -> &'static str {
    if links.is_empty() {
        return "nothing";
    }
    let child = links.iter().position(|link| *link != 0);
    let at = child.filter(|_| random.percent(60)).unwrap_or(random.below(links.len()));
    match random.below(4) {
        0 => links[at] = random.pick(&[0, 1, 2, 3, 4, 5, 10, 1 << 20, 1 << 31, u32::MAX]),
        1 => values[at] = value(random),
        2 => values[at] = -0.0,
        _ => {
            links[at] = random.pick(&[1, 2, 9]);
            values[at] = value(random);
        }
    }
    name
}

fn blocks(grid: &mut Grid, random: &mut Random) -> &'static str {
    let roots = grid.blocks.len() / 3;
    if roots == 0 {
        return "nothing";
    }
    let (to, from) = (random.below(roots), random.below(roots));
    if random.percent(50) {
        grid.blocks.copy_within(3 * from..3 * from + 3, 3 * to);
        return "block repeated";
    }
    let axis = 3 * to + random.below(3);
    grid.blocks[axis] = random.pick(&[-524289, -524288, 524287, 524288, i32::MIN, i32::MAX, 0]);
    "block"
}

/// One table longer or shorter than it should be.
fn lengths(grid: &mut Grid, random: &mut Random) -> &'static str {
    let longer = random.percent(50);
    let which = random.below(9);
    fn change<T: Copy>(table: &mut Vec<T>, longer: bool, zero: T) {
        if longer {
            table.push(zero);
        } else {
            table.pop();
        }
    }
    match which {
        0 => change(&mut grid.blocks, longer, 0),
        1 => change(&mut grid.root_links, longer, 0),
        2 => change(&mut grid.root_values, longer, 0.0),
        3 => change(&mut grid.upper_links, longer, 0),
        4 => change(&mut grid.lower_values, longer, 0.0),
        5 => change(&mut grid.leaf_values, longer, 0.0),
        6 => {
            change(&mut grid.upper_links, longer, 0);
            change(&mut grid.upper_values, longer, 0.0);
        }
        7 => {
            change(&mut grid.lower_links, longer, 0);
            change(&mut grid.lower_values, longer, 0.0);
        }
        _ => {
            grid.leaf_values.truncate(grid.leaf_values.len() / 2);
        }
    }
    "length"
}

/// One change to the medium record, the index corners or the cells.
pub fn record(grid: &mut Grid, random: &mut Random) -> &'static str {
    match random.below(10) {
        0 => {
            let at = random.below(6);
            grid.corners[at] = random.pick(&[i32::MIN, i32::MAX, 0, -1, 1]);
            "corner"
        }
        1 => {
            grid.medium.truncate(random.pick(&[0, 6, 17]));
            "short medium"
        }
        2 => {
            grid.corners.push(0);
            "long corners"
        }
        3 => {
            grid.cells.truncate(random.pick(&[0, 2]));
            "short cells"
        }
        4 => {
            let at = random.below(3);
            grid.cells[at] = random.pick(&[0, 129, 63, 65, u32::MAX]);
            "cells"
        }
        _ => {
            let at = random.below(18);
            grid.medium[at] = match random.below(3) {
                0 => f32::from_bits(random.next() as u32),
                _ => value(random),
            };
            "medium"
        }
    }
}
