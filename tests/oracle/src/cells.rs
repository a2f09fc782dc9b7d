//! The cells of a world box, and the eight voxels around a point.

use crate::loader::Loader;

/// Corner k of n cells from min to max.
pub fn corner(min: f32, max: f32, n: u32, k: u32) -> f32 {
    let t = k as f32 / n as f32;
    (1.0 - t) * min + t * max
}

/// The corners on each axis of a medium record, one more than cells.
pub fn corners(medium: &[f32], cells: &[u32]) -> [Vec<f32>; 3] {
    std::array::from_fn(|axis| {
        let n = cells[axis];
        (0..=n).map(|k| corner(medium[axis], medium[3 + axis], n, k)).collect()
    })
}

/// On each axis the cells that enclose a point, the first of them first.
pub fn enclosing(corners: &[Vec<f32>; 3], point: [f32; 3]) -> [Vec<usize>; 3] {
    std::array::from_fn(|axis| {
        let (corners, v) = (&corners[axis], point[axis]);
        (0..corners.len() - 1).filter(|k| corners[*k] <= v && v <= corners[k + 1]).collect()
    })
}

/// The number of a cell.
pub fn cell(cells: &[u32], [x, y, z]: [usize; 3]) -> usize {
    x + cells[0] as usize * (y + cells[1] as usize * z)
}

/// The lowest first and the highest last; none where a voxel lies outside i32.
pub fn voxels_around(
    loader: &dyn Loader,
    medium: &[f32],
    point: [f32; 3],
) -> Option<[[i32; 3]; 8]> {
    let mut index = [0; 3];
    if loader.world_to_index_f(medium, point, &mut index) != 0 {
        return None;
    }
    let mut low = [0; 3];
    for axis in 0..3 {
        let floor = f64::from(f32::from_bits(index[axis])).floor();
        if !(floor >= f64::from(i32::MIN) && floor < f64::from(i32::MAX)) {
            return None;
        }
        low[axis] = floor as i32;
    }
    let [x, y, z] = low;
    Some(std::array::from_fn(|i| {
        [x + (i & 1) as i32, y + (i >> 1 & 1) as i32, z + (i >> 2) as i32]
    }))
}
