//! The lines of a ray: its pieces, how much of it is clear air, and the greatest figure on it.

use crate::report::{line, number, triple};
use smokegrid::{Beam, Piece, Pieces};
use std::ops::Add;

fn heading(beam: &Beam) -> String {
    let [origin, direction] = [beam.origin, beam.direction].map(|v| triple(&v.map(number)));
    format!("ray {origin} along {direction}")
}

/// Where there is no table.
pub fn none(beam: &Beam) -> String {
    line(&heading(beam), "none")
}

pub fn shown(beam: &Beam, pieces: Pieces) -> String {
    let mut pieces = pieces;
    let (mut lines, mut all) = (String::new(), Vec::new());
    loop {
        let cell = pieces.cell();
        let Some(piece) = pieces.next() else { break };
        let t = format!("  t {} to {}", number(piece.t0), number(piece.t1));
        lines += &line(&t, &format!("{} in cell {}", number(piece.figure), triple(&cell)));
        all.push(piece);
    }
    line(&heading(beam), &format!("{} pieces", all.len())) + &lines + &summary(&all)
}

/// Lengths in t. A piece that runs backwards, which a ray from outside the box can have, is not taken off.
fn summary(pieces: &[Piece]) -> String {
    let length = |p: &Piece| f64::from(p.t1 - p.t0).max(0.0);
    let all = pieces.iter().map(length).fold(0.0, f64::add);
    let clear = pieces.iter().filter(|p| p.figure == 0.0).map(length).fold(0.0, f64::add);
    let share = if all > 0.0 { 100.0 * clear / all } else { 0.0 };
    let greatest = pieces.iter().fold(0.0, |most: f32, p| most.max(p.figure));
    let clear = format!("{} of {} in t ({share:.1} %)", number(clear as f32), number(all as f32));
    line("  clear air", &clear) + &line("  greatest figure", &number(greatest))
}

#[cfg(test)]
mod tests {
    use super::*;

    #[test]
    fn clear_air_is_the_share_of_pieces_with_a_figure_of_zero() {
        let piece = |t0, t1, figure| Piece { t0, t1, figure };
        let pieces = [piece(0.0, 1.0, 0.0), piece(1.0, 2.0, 0.5), piece(2.0, 4.0, 0.0)];
        assert_eq!(
            summary(&pieces),
            "  clear air      3 of 4 in t (75.0 %)\n  greatest figure 0.5\n"
        );
        assert_eq!(summary(&[]), "  clear air      0 of 0 in t (0.0 %)\n  greatest figure 0\n");
    }
}
