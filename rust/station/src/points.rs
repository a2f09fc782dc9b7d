//! The lines of a point: the density there, the figure of the cell that it is in, and the eight voxels around it.

use crate::report::{line, number, reading, triple};
use smokegrid::{Grid, Majorant, Refusal};

pub fn shown(grid: &Grid, cells: Option<&Majorant>, point: [f32; 3]) -> Result<String, Refusal> {
    let density = grid.mix(point)?;
    let label = format!("point {}", triple(&point.map(number)));
    Ok(line(&label, &number(density)) + &figure(grid, cells, point) + &voxels(grid, point)?)
}

fn figure(grid: &Grid, cells: Option<&Majorant>, point: [f32; 3]) -> String {
    let found = cells.and_then(|cells| {
        let cell = cells.enclosing(&grid.medium(), point)?;
        Some(format!("{} in cell {}", number(cells.figure(cell)?), triple(&cell)))
    });
    line("  figure", &found.unwrap_or("none".to_string()))
}

/// Where the mix is not refused, floor and floor + 1 are i32.
fn voxels(grid: &Grid, point: [f32; 3]) -> Result<String, Refusal> {
    let position = grid.world_to_index_f(point)?;
    let low = position.map(|p| p.floor() as i32);
    let mut lines = line("  position", &triple(&position.map(number)));
    for corner in 0..8 {
        let at = [0, 1, 2].map(|axis| low[axis] + (corner >> (2 - axis) & 1));
        lines += &line(&format!("  voxel {}", triple(&at)), &reading(grid.reading(at)?));
    }
    Ok(lines)
}
