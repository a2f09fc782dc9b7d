//! The last tables of a run together.

use crate::interface;
use crate::majorant::{table_length, Majorant};
use crate::refusal::Refusal;

/// A window over the last w tables of cells, and for each cell the greatest figure of those in it.
#[derive(Clone, Debug, PartialEq)]
pub struct Window {
    /// w, the cells on each axis, the tables held, the place that the next one takes.
    words: [u32; 6],
    /// w tables.
    memory: Vec<f32>,
    answer: Vec<f32>,
}

impl Window {
    /// A window that holds no table yet: w from 1 to 16, and 1 to 128 cells on each axis.
    pub fn open(w: u32, cells: [u32; 3]) -> Result<Self, Refusal> {
        // For a w that is refused nothing is lent.
        let (count, tables) = (table_length(cells), if w <= 16 { w as usize } else { 0 });
        let (memory, answer) = (vec![0.0; tables * count], vec![0.0; count]);
        let mut window = Window { words: [0; 6], memory, answer };
        let Window { words, memory, answer } = &mut window;
        Refusal::check(interface::window_open(w, &cells, words, memory, answer))?;
        Ok(window)
    }

    /// One table more; the oldest goes where w are held. A refused one changes nothing.
    pub fn push(&mut self, table: &Majorant) -> Result<(), Refusal> {
        self.push_figures(table.figures(), table.cells())
    }

    /// The same of figures with so many cells on each axis.
    pub fn push_figures(&mut self, figures: &[f32], cells: [u32; 3]) -> Result<(), Refusal> {
        let Window { words, memory, answer } = self;
        Refusal::check(interface::window_push(figures, &cells, words, memory, answer))
    }

    /// The cells on each axis.
    pub fn cells(&self) -> [u32; 3] {
        [self.words[1], self.words[2], self.words[3]]
    }

    /// For each cell the greatest of zero and its figures in the tables held.
    pub fn greatest(&self) -> &[f32] {
        &self.answer
    }

    /// The tables held, and the most that there may be.
    pub fn held(&self) -> u32 {
        self.words[4]
    }

    pub fn width(&self) -> u32 {
        self.words[0]
    }
}

#[cfg(test)]
mod tests {
    use super::*;

    #[test]
    fn the_last_w_tables_count_and_a_refused_one_does_not() {
        let cells = [2, 1, 1];
        let mut window = Window::open(2, cells).unwrap();
        assert_eq!((window.width(), window.held(), window.greatest()), (2, 0, &[0.0; 2][..]));
        window.push_figures(&[2.0, -0.0], cells).unwrap();
        assert_eq!(
            window.greatest().iter().map(|v| v.to_bits()).collect::<Vec<_>>(),
            [0x40000000, 0]
        );
        let before = window.clone();
        for (table, cells, number) in [
            (&[-1.0, f32::NAN][..], cells, 12),
            (&[1.0, -1.0], cells, 15),
            (&[1.0], cells, 18),
            (&[1.0, 1.0], [1, 2, 1], 26),
            (&[1.0, 1.0], [2, 1, 129], 23),
        ] {
            assert_eq!(window.push_figures(table, cells).unwrap_err().number(), number);
            assert_eq!(window, before);
        }
        window.push_figures(&[0.5, 1.0], cells).unwrap();
        assert_eq!((window.held(), window.greatest()), (2, &[2.0, 1.0][..]));
        window.push_figures(&[0.25, 0.5], cells).unwrap();
        assert_eq!((window.held(), window.greatest()), (2, &[0.5, 1.0][..]));
    }

    #[test]
    fn openings_that_are_turned_away() {
        let number = |w, cells| Window::open(w, cells).unwrap_err().number();
        assert_eq!((number(0, [1; 3]), number(17, [1; 3]), number(u32::MAX, [1; 3])), (26, 26, 26));
        assert_eq!((number(1, [0, 1, 1]), number(0, [1, 129, 1])), (23, 23));
    }
}
