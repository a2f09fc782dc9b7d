//! The density between voxels from document 02's words, in exact whole numbers (exact.rs), over tables as smokegrid.h has them.

use crate::exact::{floor, less, less_floor, product, read, sum, times, units, Big};

/// A grid as it is handed in: link 0 is a tile with its value beside it, link k + 1 is child k.
#[derive(Clone, Default)]
pub struct Grid {
    pub background: f32,
    pub blocks: Vec<i32>,
    pub root_links: Vec<u32>,
    pub root_values: Vec<f32>,
    pub upper_links: Vec<u32>,
    pub upper_values: Vec<f32>,
    pub lower_links: Vec<u32>,
    pub lower_values: Vec<f32>,
    pub leaf_values: Vec<f32>,
}

/// A voxel: the root by its block of 4,096, then upper nodes of 32 slots of 128, lower nodes of 16 of 8, leaves of 8.
pub fn voxel(g: &Grid, c: [i32; 3]) -> f32 {
    let block = c.map(|v| v.div_euclid(4096));
    let slot = |n: i32, d: i32| c.iter().fold(0, |s, v| s * n + v.rem_euclid(n * d) / d) as usize;
    let Some(root) = g.blocks.chunks(3).position(|b| b == block) else { return g.background };
    if g.root_links[root] == 0 {
        return g.root_values[root];
    }
    let upper = (g.root_links[root] - 1) as usize * 32768 + slot(32, 128);
    if g.upper_links[upper] == 0 {
        return g.upper_values[upper];
    }
    let lower = (g.upper_links[upper] - 1) as usize * 4096 + slot(16, 8);
    if g.lower_links[lower] == 0 {
        return g.lower_values[lower];
    }
    g.leaf_values[(g.lower_links[lower] - 1) as usize * 512 + slot(8, 1)]
}

/// world_to_index_f on one axis: two fused products, and the last rounded by itself.
pub fn position(m: &[f32; 18], p: [f32; 3], axis: usize) -> f32 {
    let d = [0, 1, 2].map(|i| less(p[i], m[15 + i]));
    let row = &m[6 + 3 * axis..9 + 3 * axis];
    sum(product(d[0], row[0]), read(sum(product(d[1], row[1]), read(times(d[2], row[2])))))
}

/// (1 - t) a + t b, each step rounded.
fn step(a: f32, b: f32, t: f32) -> f32 {
    sum(read(times(less(1.0, t), a)), read(times(t, b)))
}

/// The floor and the part on one axis; none where floor or floor + 1 is no i32.
pub fn place(m: &[f32; 18], p: [f32; 3], axis: usize) -> Option<(i32, f32)> {
    let at = position(m, p, axis);
    let low = floor(at)?;
    let inside = low >= i128::from(i32::MIN) && low + 1 <= i128::from(i32::MAX);
    inside.then(|| (low as i32, less_floor(at, low)))
}

/// 24, 16 or the density of a grid and a medium that passed.
pub fn density(g: &Grid, m: &[f32; 18], p: [f32; 3]) -> Result<f32, u32> {
    if (0..3).any(|a| !(m[a] <= p[a] && p[a] <= m[3 + a])) {
        return Err(24);
    }
    let mut at = [(0, 0.0); 3];
    for (axis, place_on) in at.iter_mut().enumerate() {
        *place_on = place(m, p, axis).ok_or(16u32)?;
    }
    let read_at = |x: i32, y: i32, z: i32| voxel(g, [at[0].0 + x, at[1].0 + y, at[2].0 + z]);
    let along_z = |x, y| step(read_at(x, y, 0), read_at(x, y, 1), at[2].1);
    let along_y = |x| step(along_z(x, 0), along_z(x, 1), at[1].1);
    Ok(step(along_y(0), along_y(1), at[0].1))
}

/// mix × 2^20 ≤ figure × (2^20 + 1) + 2^29, in units of 2^-149.
pub fn bounded(mix: f32, figure: f32) -> bool {
    let (left, right) = (units(mix).up(20), units(figure).up(20).plus(&units(figure)));
    !right.plus(&Big::of(1 << 29)).less(&left)
}

/// How far the mix lies above the figure, in 2^-24 of it.
pub fn above(mix: f32, figure: f32) -> f64 {
    (f64::from(mix) / f64::from(figure) - 1.0) * f64::from(1u32 << 24)
}
