//! The cell that a point is in.

use crate::grid::Medium;
use crate::majorant::Majorant;

/// Corner k of n on one axis, each step rounded, as a build has it.
fn corner(low: f32, high: f32, n: u32, k: u32) -> f32 {
    let t = k as f32 / n as f32;
    (1.0 - t) * low + t * high
}

/// The first of n cells on one axis that encloses v. Corners need not rise, so each is tried.
fn on_axis(low: f32, high: f32, n: u32, v: f32) -> Option<usize> {
    let encloses = |k: &u32| corner(low, high, n, *k) <= v && v <= corner(low, high, n, k + 1);
    (0..n).find(encloses).map(|k| k as usize)
}

impl Majorant {
    /// The first cell that encloses a world point, if one does: each point of the world box has one.
    pub fn enclosing(&self, medium: &Medium, point: [f32; 3]) -> Option<[usize; 3]> {
        let (low, high, n) = (medium.world_min, medium.world_max, self.cells());
        let on = |a: usize| on_axis(low[a], high[a], n[a], point[a]);
        Some([on(0)?, on(1)?, on(2)?])
    }
}

#[cfg(test)]
mod tests {
    use super::*;

    #[test]
    fn the_first_cell_of_a_face_is_taken() {
        assert_eq!(on_axis(0.0, 6.0, 64, 0.0), Some(0));
        assert_eq!(on_axis(0.0, 6.0, 6, 3.0), Some(2));
        assert_eq!(on_axis(0.0, 6.0, 6, 6.0), Some(5));
        assert_eq!(on_axis(0.0, 6.0, 6, 6.5), None);
        assert_eq!(on_axis(0.0, 6.0, 6, f32::NAN), None);
    }
}
