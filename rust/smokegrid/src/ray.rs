//! Rays through the figures of the cells.

use crate::interface;
use crate::refusal::Refusal;

/// A ray as it is asked for: from `origin` along `direction`, from `t_min` to `t_max`.
#[derive(Clone, Copy, Debug, PartialEq)]
pub struct Beam {
    pub origin: [f32; 3],
    pub direction: [f32; 3],
    pub t_min: f32,
    pub t_max: f32,
}

/// A part of a ray that lies in one cell, and the cell's figure. By rounding, and from an origin outside the box, `t1` may be `t0`
/// or below it.
#[derive(Clone, Copy, Debug, PartialEq)]
pub struct Piece {
    pub t0: f32,
    pub t1: f32,
    pub figure: f32,
}

/// The pieces of a ray through a table. Each begins, bit for bit, where the one before ended, and the first at `t_min`; there are at
/// most as many as cells on the three axes together, less two.
#[derive(Clone, Debug)]
pub struct Pieces<'a> {
    figures: &'a [f32],
    times: [f32; 8],
    cells: [i32; 9],
}

impl<'a> Pieces<'a> {
    /// Opens a ray through the table of a build: `medium` as in smokegrid.h, of which the world box plays a part, the numbers of
    /// `cells`, and a figure for each. Refused are numbers of cells outside 1 to 128 (23), a table of another length (18), a world
    /// box that does not pass (4), and a beam that is not finite or has no direction (22).
    pub fn open(
        medium: &[f32; 18],
        cells: [u32; 3],
        figures: &'a [f32],
        beam: &Beam,
    ) -> Result<Self, Refusal> {
        let mut pieces = Pieces { figures, times: [0.0; 8], cells: [0; 9] };
        let ([ox, oy, oz], [dx, dy, dz]) = (beam.origin, beam.direction);
        Refusal::check(interface::ray_open(
            medium,
            &cells,
            figures,
            ox,
            oy,
            oz,
            dx,
            dy,
            dz,
            beam.t_min,
            beam.t_max,
            &mut pieces.times,
            &mut pieces.cells,
        ))?;
        Ok(pieces)
    }

    /// The cell of the next piece, where there is one.
    pub fn cell(&self) -> [usize; 3] {
        [3, 4, 5].map(|i| self.cells[i] as usize)
    }
}

impl Iterator for Pieces<'_> {
    type Item = Piece;

    /// A state that an opening gave is never refused.
    fn next(&mut self) -> Option<Piece> {
        let (mut more, mut piece) = (0, Piece { t0: 0.0, t1: 0.0, figure: 0.0 });
        interface::ray_next(
            self.figures,
            &mut self.times,
            &mut self.cells,
            &mut more,
            &mut piece.t0,
            &mut piece.t1,
            &mut piece.figure,
        );
        (more == 1).then_some(piece)
    }
}

impl std::iter::FusedIterator for Pieces<'_> {}

#[cfg(test)]
mod tests {
    use super::*;

    /// The unit box.
    fn medium() -> [f32; 18] {
        let mut medium = [0.0; 18];
        medium[3..6].fill(1.0);
        medium
    }

    const FIGURES: [f32; 4] = [1.0, 0.5, 0.25, 2.0];

    fn along(origin: [f32; 3], direction: [f32; 3]) -> Result<Vec<[f32; 3]>, u32> {
        let beam = Beam { origin, direction, t_min: 0.0, t_max: 2.0 };
        let pieces = Pieces::open(&medium(), [4, 1, 1], &FIGURES, &beam).map_err(|r| r.number())?;
        Ok(pieces.map(|p| [p.t0, p.t1, p.figure]).collect())
    }

    #[test]
    fn a_ray_along_x_has_a_piece_a_cell() {
        let four = [[0.0, 0.25, 1.0], [0.25, 0.5, 0.5], [0.5, 0.75, 0.25], [0.75, 1.0, 2.0]];
        assert_eq!(along([0.0, 0.5, 0.5], [1.0, 0.0, 0.0]), Ok(four.to_vec()));
        assert_eq!(along([0.0, 0.5, 0.5], [1.0, -0.0, -0.0]), Ok(four.to_vec()));
    }

    #[test]
    fn a_piece_from_outside_the_box_runs_backwards() {
        assert_eq!(along([2.0, 0.5, 0.5], [1.0, 0.0, 0.0]), Ok(vec![[0.0, -1.0, 2.0]]));
    }

    #[test]
    fn the_end_stays() {
        let beam = Beam { origin: [0.0; 3], direction: [1.0, 0.0, 0.0], t_min: 0.0, t_max: 2.0 };
        let mut pieces = Pieces::open(&medium(), [4, 1, 1], &FIGURES, &beam).unwrap();
        assert_eq!(pieces.cell(), [0, 0, 0]);
        assert_eq!(pieces.by_ref().count(), 4);
        assert_eq!(pieces.next(), None);
        assert_eq!(pieces.next(), None);
    }

    #[test]
    fn a_refusal_has_its_number() {
        assert_eq!(along([0.0; 3], [0.0, -0.0, 0.0]), Err(22));
        assert_eq!(along([f32::NAN; 3], [1.0; 3]), Err(22));
        let beam = Beam { origin: [f32::NAN; 3], direction: [1.0; 3], t_min: 0.0, t_max: 1.0 };
        let opened = |cells, figures| Pieces::open(&medium(), cells, figures, &beam).unwrap_err();
        assert_eq!(opened([4, 1, 1], &FIGURES[..3]).number(), 18);
        assert_eq!(opened([0, 1, 1], &FIGURES[..3]).number(), 23);
        let none = Pieces::open(&[0.0; 18], [4, 1, 1], &FIGURES, &beam).unwrap_err();
        assert_eq!(none.number(), 4);
    }
}
