//! A layer of a table of cells on paper.

use crate::interface;
use crate::refusal::Refusal;

/// The lines of layer z of a table with so many cells on each axis: a heading with the layer's greatest figure in hexadecimal, and
/// one line for each y from the highest down, `.` for a zero and `1` to `9` for what is at most so many ninths of the greatest.
pub fn layer(figures: &[f32], cells: [u32; 3], z: u32) -> Result<String, Refusal> {
    let [x, y, _] = cells.map(|number| number.min(128) as usize);
    let mut text = vec![0; 19 + y * (x + 5)];
    let mut written = 0;
    Refusal::check(interface::print_layer(figures, &cells, z, &mut text, &mut written))?;
    text.truncate(written as usize);
    Ok(String::from_utf8_lossy(&text).into_owned())
}

#[cfg(test)]
mod tests {
    use super::*;

    #[test]
    fn a_layer_has_a_heading_and_a_line_for_each_y() {
        let table = [0.0, 1.0, 0.5, 2.0, -0.0, f32::from_bits(1)];
        let lines = "layer   0 40000000\n  1 9.1\n  0 .53\n";
        assert_eq!(layer(&table, [3, 2, 1], 0).as_deref(), Ok(lines));
    }

    #[test]
    fn what_is_turned_away() {
        let number = |table: &[f32], cells, z| layer(table, cells, z).unwrap_err().number();
        assert_eq!(number(&[0.0; 2], [1, 1, 2], 2), 28);
        assert_eq!(number(&[0.0; 2], [1, 1, 3], 0), 18);
        assert_eq!(number(&[0.0; 2], [1, u32::MAX, 2], 0), 23);
        assert_eq!(number(&[-1.0, f32::NAN], [2, 1, 1], 0), 12);
        assert_eq!(number(&[-1.0, 1.0], [1, 1, 2], 0), 15);
        assert!(layer(&[1.0, f32::NAN], [1, 1, 2], 0).is_ok());
    }
}
