//! Where a case is looked at: coordinates, boxes and world points.

use crate::cells::corner;
use crate::loader::CELLS;
use crate::random::Random;

/// Coordinates at which blocks, nodes and leaves end.
const EDGES: [i32; 16] =
    [i32::MIN, i32::MAX, -4097, -4096, -4095, -129, -128, -9, -8, -1, 0, 7, 8, 127, 4095, 4096];

pub fn coordinate(random: &mut Random, near: &[[i32; 3]]) -> [i32; 3] {
    let kind = random.below(10);
    let base = if near.is_empty() { [0; 3] } else { random.pick(near) };
    base.map(|c| match kind {
        0 => random.next() as i32,
        1 => random.pick(&EDGES),
        2 => c.wrapping_add(random.pick(&EDGES)),
        3 => c.wrapping_add(random.between(-130, 130) as i32),
        4 => c.wrapping_add(random.below(4096) as i32),
        5 => c.wrapping_sub(1),
        _ => c.wrapping_add(random.below(8) as i32),
    })
}

pub fn coordinates(random: &mut Random, near: &[[i32; 3]], count: usize) -> Vec<[i32; 3]> {
    (0..count).map(|_| coordinate(random, near)).collect()
}

/// Low x, y, z and high x, y, z: small boxes and large ones, single voxels, empty boxes, everything.
pub fn area(random: &mut Random, near: &[[i32; 3]]) -> [i32; 6] {
    let low = coordinate(random, near);
    let high = match random.below(8) {
        0 => low,
        1 => coordinate(random, near),
        2 => low.map(|c| c.saturating_add(random.between(-1, 300) as i32)),
        3 => low.map(|c| c.saturating_add(random.below(9000) as i32)),
        _ => low.map(|c| c.saturating_add(random.below(20) as i32)),
    };
    if random.percent(4) {
        return [i32::MIN, i32::MIN, i32::MIN, i32::MAX, i32::MAX, i32::MAX];
    }
    [low[0], low[1], low[2], high[0], high[1], high[2]]
}

pub fn areas(random: &mut Random, near: &[[i32; 3]], count: usize) -> Vec<[i32; 6]> {
    (0..count).map(|_| area(random, near)).collect()
}

/// A number between two ends: on a face of one of n cells or beside it, an end, a zero, or anywhere.
pub fn inside(random: &mut Random, min: f32, max: f32, n: u32) -> f32 {
    let k = random.below(n as usize + 1) as u32;
    let number = match random.below(10) {
        0 => min,
        1 => max,
        2 => random.pick(&[0.0, -0.0]),
        3 | 4 => corner(min, max, n, k),
        5 => corner(min, max, n, k).next_up(),
        6 => corner(min, max, n, k).next_down(),
        _ => (f64::from(min) + random.unit() * (f64::from(max) - f64::from(min))) as f32,
    };
    if min <= number && number <= max {
        number
    } else {
        min
    }
}

/// A point inside or on the world box of a medium record.
pub fn point_inside(random: &mut Random, medium: &[f32], cells: &[u32]) -> [f32; 3] {
    std::array::from_fn(|axis| inside(random, medium[axis], medium[3 + axis], cells[axis]))
}

/// Numbers whose sums and products overflow, underflow or are none; -1e-45 times a small map is
/// -0.0 in one rounding and +0.0 in two.
const ODD: [f32; 8] = [f32::NAN, f32::INFINITY, f32::MAX, -f32::MAX, -0.0, 0.0, 1e-45, -1e-45];

/// Any point: inside the world box, around it, or any bits.
pub fn point(random: &mut Random, medium: &[f32]) -> [f32; 3] {
    match random.below(4) {
        0 => [0; 3].map(|_| f32::from_bits(random.next() as u32)),
        1 => [0; 3].map(|_| ((random.unit() - 0.5) * 1e4) as f32),
        2 => [0; 3].map(|_| random.pick(&ODD)),
        _ => point_inside(random, medium, &CELLS),
    }
}
