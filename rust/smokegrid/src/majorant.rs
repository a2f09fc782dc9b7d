//! The figures of the cells.

use crate::layer;
use crate::refusal::Refusal;
use crate::window::Window;

/// The figures of a table of cells. Where a number does not pass, none: the library, not this, refuses it.
pub(crate) fn table_length(cells: [u32; 3]) -> usize {
    match cells.iter().all(|number| (1..=128).contains(number)) {
        true => cells.iter().map(|number| *number as usize).product(),
        false => 0,
    }
}

/// For each cell of the world box a density that no voxel around any of its points exceeds.
#[derive(Clone, Debug, PartialEq)]
pub struct Majorant {
    cells: [u32; 3],
    figures: Vec<f32>,
}

impl Majorant {
    pub(crate) fn new(cells: [u32; 3], figures: Vec<f32>) -> Self {
        Majorant { cells, figures }
    }

    /// The cells on each axis.
    pub fn cells(&self) -> [u32; 3] {
        self.cells
    }

    /// All figures; of X, Y and Z cells, cell (x, y, z) has the number x + X (y + Y z).
    pub fn figures(&self) -> &[f32] {
        &self.figures
    }

    /// The figure of a cell, if there is such a cell.
    pub fn figure(&self, cell: [usize; 3]) -> Option<f32> {
        let ([x, y, z], n) = (cell, self.cells.map(|number| number as usize));
        let inside = cell.iter().zip(n).all(|(number, all)| *number < all);
        inside.then(|| self.figures[x + n[0] * (y + n[1] * z)])
    }

    /// The greatest figure, and the first cell that has it.
    pub fn greatest(&self) -> (f32, [usize; 3]) {
        let (mut greatest, mut first) = (self.figures[0], 0);
        for (number, figure) in self.figures.iter().enumerate() {
            if *figure > greatest {
                (greatest, first) = (*figure, number);
            }
        }
        let [x, y, _] = self.cells.map(|number| number as usize);
        (greatest, [first % x, first / x % y, first / (x * y)])
    }

    /// How many cells are clear air: their figure is zero.
    pub fn clear(&self) -> usize {
        self.figures.iter().filter(|figure| **figure == 0.0).count()
    }

    /// Layer z on paper, as `layer` has it.
    pub fn layer(&self, z: u32) -> Result<String, Refusal> {
        layer::layer(&self.figures, self.cells, z)
    }

    /// The greatest of the tables in a window, as a table of the same cells.
    pub fn of_window(window: &Window) -> Self {
        Majorant::new(window.cells(), window.greatest().to_vec())
    }

    pub fn table_bytes(&self) -> usize {
        size_of_val(self.figures.as_slice())
    }
}

#[cfg(test)]
mod tests {
    use super::*;

    fn with(cells: [u32; 3], figures: &[(usize, f32)]) -> Majorant {
        let mut all = vec![0.0; table_length(cells)];
        for (number, figure) in figures {
            all[*number] = *figure;
        }
        Majorant::new(cells, all)
    }

    #[test]
    fn cells_are_numbered_with_x_fastest() {
        let cells = with([5, 3, 2], &[(1, 0.25), (5, 0.5), (15, 0.75), (29, 1.0)]);
        assert_eq!(cells.figure([1, 0, 0]), Some(0.25));
        assert_eq!(cells.figure([0, 1, 0]), Some(0.5));
        assert_eq!(cells.figure([0, 0, 1]), Some(0.75));
        assert_eq!(cells.figure([4, 2, 1]), Some(1.0));
        assert_eq!(cells.figure([5, 0, 0]), None);
        assert_eq!(cells.figure([0, 3, 0]), None);
        assert_eq!(cells.figure([0, 0, usize::MAX]), None);
    }

    #[test]
    fn the_greatest_is_the_first_of_its_value() {
        let cells = with([64; 3], &[(70, 0.5), (5000, 2.0), (9000, 2.0)]);
        assert_eq!(cells.greatest(), (2.0, [8, 14, 1]));
        assert_eq!(with([100, 1, 7], &[(699, 0.5)]).greatest(), (0.5, [99, 0, 6]));
        assert_eq!(with([64; 3], &[]).greatest(), (0.0, [0, 0, 0]));
    }

    #[test]
    fn clear_air_is_a_figure_of_zero() {
        assert_eq!(with([2, 3, 4], &[]).clear(), 24);
        assert_eq!(with([2, 3, 4], &[(3, 1e-45), (4, 1.0)]).clear(), 22);
    }

    #[test]
    fn no_table_is_lent_for_numbers_that_do_not_pass() {
        assert_eq!(table_length([128; 3]), 2_097_152);
        for cells in [[0, 1, 1], [1, 129, 1], [1, 1, u32::MAX]] {
            assert_eq!(table_length(cells), 0);
        }
    }
}
