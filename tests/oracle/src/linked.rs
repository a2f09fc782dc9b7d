//! The proved static library behind the functions of smokegrid.h.

// Rays, layers and windows are compared elsewhere (tests/rays, tests/tables).
#[allow(dead_code)]
#[path = "../../../rust/smokegrid/src/interface.rs"]
mod interface;

use crate::file::Part;
use crate::heat::Heater;
use crate::loader::{Answer, Lent, Loader, Reading, Tables};
use interface::GridTables;

pub struct Linked;

/// A value's place holds a pattern before the call, so that one left unwritten shows.
fn answer(call: impl FnOnce(&mut f32) -> u32) -> Answer {
    let mut value = f32::from_bits(0x5a5a5a5a);
    let number = call(&mut value);
    (number, value.to_bits())
}

fn part(call: impl FnOnce(&mut u64, &mut u64) -> u32) -> Part {
    let (mut start, mut length) = (0x5a5a5a5a, 0x5a5a5a5a);
    let number = call(&mut start, &mut length);
    (number, start, length)
}

fn tables(grid: Tables<'_>) -> GridTables<'_> {
    GridTables {
        background: grid.background,
        blocks: grid.blocks,
        root_links: grid.root_links,
        root_values: grid.root_values,
        upper_links: grid.upper_links,
        upper_values: grid.upper_values,
        lower_links: grid.lower_links,
        lower_values: grid.lower_values,
        leaf_values: grid.leaf_values,
    }
}

impl Loader for Linked {
    fn decode_density_grid(&self, bytes: &[u8], lent: Lent) -> u32 {
        interface::decode_density_grid(
            bytes,
            lent.blocks,
            lent.root_links,
            lent.root_values,
            lent.upper_links,
            lent.upper_values,
            lent.lower_links,
            lent.lower_values,
            lent.leaf_values,
            lent.work,
            lent.counts,
            lent.background,
            lent.medium,
            lent.corners,
            lent.cells,
        )
    }

    fn validate(&self, grid: Tables) -> u32 {
        interface::validate(tables(grid))
    }

    fn validate_density(&self, grid: Tables) -> u32 {
        interface::validate_density(tables(grid))
    }

    fn get_values(&self, grid: Tables, coordinates: &[[i32; 3]]) -> Vec<Answer> {
        let get = |[x, y, z]: [i32; 3]| {
            answer(|value| interface::get_value(tables(grid), x, y, z, value))
        };
        coordinates.iter().map(|at| get(*at)).collect()
    }

    fn get_readings(&self, grid: Tables, coordinates: &[[i32; 3]]) -> Vec<Reading> {
        let get = |[x, y, z]: [i32; 3]| {
            let mut level = 0x5a5a5a5a;
            let (number, bits) =
                answer(|value| interface::get_reading(tables(grid), x, y, z, value, &mut level));
            (number, bits, level)
        };
        coordinates.iter().map(|at| get(*at)).collect()
    }

    fn box_maxima(&self, grid: Tables, boxes: &[[i32; 6]]) -> Vec<Answer> {
        let maximum = |[lx, ly, lz, hx, hy, hz]: [i32; 6]| {
            answer(|value| interface::box_maximum(tables(grid), lx, ly, lz, hx, hy, hz, value))
        };
        boxes.iter().map(|b| maximum(*b)).collect()
    }

    fn list_maxima(&self, grid: Tables, boxes: &[i32], maxima: &mut [f32]) -> Answer {
        answer(|greatest| interface::box_maxima(tables(grid), boxes, maxima, greatest))
    }

    fn world_to_index_f(&self, medium: &[f32], [x, y, z]: [f32; 3], index_bits: &mut [u32]) -> u32 {
        interface::world_to_index_f(medium, x, y, z, index_bits)
    }

    fn build_majorant(
        &self,
        grid: Tables,
        medium: &[f32],
        corners: &[i32],
        cells: &[u32],
        majorants: &mut [f32],
    ) -> u32 {
        interface::build_majorant(tables(grid), medium, corners, cells, majorants)
    }

    fn grid_part(&self, file: &[u8], n: u64) -> Part {
        part(|start, length| interface::grid_part(file, n, start, length))
    }

    fn grid_name(&self, file: &[u8], n: u64) -> Part {
        part(|start, length| interface::grid_name(file, n, start, length))
    }
}

impl Heater for Linked {
    fn load_temperature(&self, bytes: &[u8], offset: f32, scale: f32, lent: Lent) -> u32 {
        interface::load_temperature(
            bytes,
            offset,
            scale,
            lent.blocks,
            lent.root_links,
            lent.root_values,
            lent.upper_links,
            lent.upper_values,
            lent.lower_links,
            lent.lower_values,
            lent.leaf_values,
            lent.work,
            lent.counts,
            lent.background,
        )
    }

    fn get_temperature(
        &self,
        present: u32,
        grid: Tables,
        offset: f32,
        scale: f32,
        [x, y, z]: [i32; 3],
    ) -> Answer {
        let mut bits = 0x5a5a5a5a;
        let number =
            interface::get_temperature(present, tables(grid), offset, scale, x, y, z, &mut bits);
        (number, bits)
    }
}
