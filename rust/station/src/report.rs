//! The lines that are printed.

use crate::boxes::Zone;
use smokegrid::{Contents, Grid, Listed, Load, Majorant, Maxima, Reading};
use std::collections::HashMap;
use std::fmt::Display;
use std::path::Path;

const LABEL: usize = 16;

pub fn line(label: &str, text: &str) -> String {
    format!("{label:LABEL$} {text}\n")
}

pub fn file(path: &Path, length: usize) -> String {
    line("file", &path.display().to_string())
        + &line("length", &format!("{} bytes", counted(length)))
}

/// A grid of a file: its number, name, length and place.
pub fn listed(grid: &Listed) -> String {
    let (size, place) = (counted(grid.size()), counted(grid.place.start));
    line(
        &format!("grid {}", grid.index),
        &format!("{:?}, {size} bytes from byte {place}", grid.name()),
    )
}

/// The grids of a file; a name that stands more than once is said so.
pub fn contents(contents: &Contents) -> String {
    let grids = contents.grids();
    let mut times = HashMap::new();
    for grid in grids {
        *times.entry(grid.name()).or_insert(0) += 1;
    }
    let mut lines = line("grids", &counted(grids.len()));
    for grid in grids {
        lines += listed(grid).trim_end();
        if times[&grid.name()] > 1 {
            lines += &format!(" (this name stands {} times)", times[&grid.name()]);
        }
        lines.push('\n');
    }
    lines
}

pub fn grid(grid: &Grid) -> String {
    let (counts, medium) = (grid.counts(), grid.medium());
    let [upper, lower, leaf] = [counts.upper, counts.lower, counts.leaf].map(counted);
    let between = |low: String, high: String| format!("{low} to {high}");
    let world = [medium.world_min, medium.world_max].map(|corner| triple(&corner.map(number)));
    let [world_min, world_max] = world;
    line("roots", &counted(counts.roots))
        + &line("nodes", &format!("{upper} upper, {lower} lower, {leaf} leaf"))
        + &line("index box", &between(triple(&medium.index_min), triple(&medium.index_max)))
        + &line("world box", &between(world_min, world_max))
        + &line("background", &number(grid.background()))
}

/// Whose values are read as temperatures, and how.
pub fn temperature(path: &Path, offset: f32, scale: f32) -> String {
    let read = format!("(value - {}) * {}", number(offset), number(scale));
    line("temperature", &format!("{}, {read}", path.display()))
}

pub fn greatest(cells: &Majorant) -> String {
    let (greatest, cell) = cells.greatest();
    line("greatest figure", &format!("{} in cell {}", number(greatest), triple(&cell)))
}

pub fn cells(cells: &Majorant) -> String {
    let (clear, all) = (cells.clear(), cells.figures().len());
    let share = 100.0 * clear as f64 / all as f64;
    let clear = format!("{} of {} cells ({share:.1} %)", counted(clear), counted(all));
    greatest(cells) + &line("clear air", &clear)
}

pub fn zone(low: &[i32; 3], high: &[i32; 3], maximum: f32) -> String {
    line(&format!("box {} to {}", triple(low), triple(high)), &number(maximum))
}

/// The coordinates a side of a cube, or none for another box.
fn cube(low: &[i32; 3], high: &[i32; 3]) -> Option<u32> {
    let side = |axis: usize| u32::try_from(i64::from(high[axis]) - i64::from(low[axis]) + 1).ok();
    let (x, y, z) = (side(0)?, side(1)?, side(2)?);
    (x > 0 && x == y && y == z).then_some(x)
}

/// A box's maximum, and a line that says what was read for it; for a cube also the most that it could be.
pub fn load(low: &[i32; 3], high: &[i32; 3], load: &Load) -> String {
    let read = format!(
        "{} root, {} upper and {} lower entries, {} leaf values",
        grouped(load.roots.into()),
        grouped(load.upper.into()),
        grouped(load.lower.into()),
        grouped(load.leaf)
    );
    let of = match cube(low, high) {
        Some(n) => format!("; {} of at most {}", grouped(load.total()), grouped(Load::most(n))),
        None => format!("; {} together", grouped(load.total())),
    };
    zone(low, high, load.maximum) + &line("  read", &(read + &of))
}

/// A line for each box, and the greatest of them.
pub fn zones(boxes: &[Zone], maxima: &Maxima) -> String {
    let each = boxes.iter().zip(&maxima.each);
    let lines: String = each.map(|((low, high), maximum)| zone(low, high, *maximum)).collect();
    lines + &line(&format!("greatest of {} boxes", counted(boxes.len())), &number(maxima.greatest))
}

/// A density with the level that it was read at, in words.
pub fn reading(reading: Reading) -> String {
    format!("{} ({})", number(reading.value), reading.level)
}

/// The same, and the temperature beside it.
pub fn heated(of: Reading, temperature: f32) -> String {
    format!("{}, temperature {}", reading(of), number(temperature))
}

pub fn triple<T: Display>([x, y, z]: &[T; 3]) -> String {
    format!("({x}, {y}, {z})")
}

/// A float in its shortest form, with an exponent where it would be long.
pub fn number(value: f32) -> String {
    match value.abs() {
        size if size == 0.0 || (1e-4..1e7).contains(&size) => format!("{value}"),
        _ => format!("{value:e}"),
    }
}

/// A count with a comma after each three digits.
pub fn counted(count: usize) -> String {
    grouped(count as u128)
}

pub fn grouped(count: u128) -> String {
    let digits = count.to_string();
    let mut text = String::new();
    for (i, digit) in digits.chars().enumerate() {
        if i > 0 && (digits.len() - i) % 3 == 0 {
            text.push(',');
        }
        text.push(digit);
    }
    text
}

#[cfg(test)]
mod tests {
    use super::*;

    #[test]
    fn counts_have_commas() {
        let text = [0, 7, 999, 1000, 262_144, 4_294_967_295].map(counted);
        assert_eq!(text, ["0", "7", "999", "1,000", "262,144", "4,294,967,295"]);
    }

    #[test]
    fn floats_are_short() {
        let text = [0.0, 0.1, -8.0, 1.5e-7, 3.4028235e38, 16777216.0].map(number);
        assert_eq!(text, ["0", "0.1", "-8", "1.5e-7", "3.4028235e38", "1.6777216e7"]);
    }

    #[test]
    fn lines_are_aligned() {
        assert_eq!(line("at (1, 2, 3)", "0.5"), "at (1, 2, 3)     0.5\n");
        assert_eq!(triple(&[-1, 0, 7]), "(-1, 0, 7)");
    }
}
