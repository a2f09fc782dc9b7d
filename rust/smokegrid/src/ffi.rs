//! The functions of include/smokegrid.h with the crate's own types.

use crate::interface::{self, GridTables};
use crate::tables::Tables;

/// What a decode writes beside the tables.
#[derive(Default)]
pub struct Record {
    /// Roots, upper, lower and leaf nodes used.
    pub counts: [u64; 4],
    /// World minimum and maximum, inverse map, translation.
    pub medium: [f32; 18],
    /// Index minimum and maximum.
    pub corners: [i32; 6],
    /// Cells on each axis.
    pub cells: [u32; 3],
}

/// The tables as inputs.
#[inline]
fn grid(tables: &Tables) -> GridTables<'_> {
    GridTables {
        background: tables.background,
        blocks: &tables.blocks,
        root_links: &tables.root_links,
        root_values: &tables.root_values,
        upper_links: &tables.upper_links,
        upper_values: &tables.upper_values,
        lower_links: &tables.lower_links,
        lower_values: &tables.lower_values,
        leaf_values: &tables.leaf_values,
    }
}

pub fn decode_density_grid(
    bytes: &[u8],
    lent: &mut Tables,
    work: &mut [u64],
    record: &mut Record,
) -> u32 {
    interface::decode_density_grid(
        bytes,
        &mut lent.blocks,
        &mut lent.root_links,
        &mut lent.root_values,
        &mut lent.upper_links,
        &mut lent.upper_values,
        &mut lent.lower_links,
        &mut lent.lower_values,
        &mut lent.leaf_values,
        work,
        &mut record.counts,
        &mut lent.background,
        &mut record.medium,
        &mut record.corners,
        &mut record.cells,
    )
}

pub fn validate(tables: &Tables) -> u32 {
    interface::validate(grid(tables))
}

pub fn validate_density(tables: &Tables) -> u32 {
    interface::validate_density(grid(tables))
}

#[inline]
pub fn get_value(tables: &Tables, [x, y, z]: [i32; 3], value: &mut f32) -> u32 {
    interface::get_value(grid(tables), x, y, z, value)
}

pub fn get_reading(tables: &Tables, [x, y, z]: [i32; 3], value: &mut f32, level: &mut u32) -> u32 {
    interface::get_reading(grid(tables), x, y, z, value, level)
}

pub fn load_temperature(
    bytes: &[u8],
    offset: f32,
    scale: f32,
    lent: &mut Tables,
    work: &mut [u64],
    counts: &mut [u64; 4],
) -> u32 {
    interface::load_temperature(
        bytes,
        offset,
        scale,
        &mut lent.blocks,
        &mut lent.root_links,
        &mut lent.root_values,
        &mut lent.upper_links,
        &mut lent.upper_values,
        &mut lent.lower_links,
        &mut lent.lower_values,
        &mut lent.leaf_values,
        work,
        counts,
        &mut lent.background,
    )
}

pub fn get_temperature(
    present: u32,
    tables: &Tables,
    offset: f32,
    scale: f32,
    [x, y, z]: [i32; 3],
    bits: &mut u32,
) -> u32 {
    interface::get_temperature(present, grid(tables), offset, scale, x, y, z, bits)
}

pub fn box_maximum(tables: &Tables, low: [i32; 3], high: [i32; 3], value: &mut f32) -> u32 {
    let ([lx, ly, lz], [hx, hy, hz]) = (low, high);
    interface::box_maximum(grid(tables), lx, ly, lz, hx, hy, hz, value)
}

pub fn box_maximum_counted(
    tables: &Tables,
    low: [i32; 3],
    high: [i32; 3],
    value: &mut f32,
    counts: &mut [u64; 5],
) -> u32 {
    let ([lx, ly, lz], [hx, hy, hz]) = (low, high);
    interface::box_maximum_counted(grid(tables), lx, ly, lz, hx, hy, hz, value, counts)
}

pub fn count_classes(
    tables: &Tables,
    limits: &[f32],
    low: [i32; 3],
    high: [i32; 3],
    counts: &mut [u64; 17],
) -> u32 {
    let ([lx, ly, lz], [hx, hy, hz]) = (low, high);
    interface::count_classes(grid(tables), limits, lx, ly, lz, hx, hy, hz, counts)
}

pub fn box_maxima(tables: &Tables, boxes: &[i32], maxima: &mut [f32], greatest: &mut f32) -> u32 {
    interface::box_maxima(grid(tables), boxes, maxima, greatest)
}

pub fn world_to_index_f(medium: &[f32; 18], [x, y, z]: [f32; 3], index_bits: &mut [u32; 3]) -> u32 {
    interface::world_to_index_f(medium, x, y, z, index_bits)
}

pub fn mix(tables: &Tables, medium: &[f32; 18], [x, y, z]: [f32; 3], value: &mut f32) -> u32 {
    interface::mix(grid(tables), medium, x, y, z, value)
}

pub fn build_majorant(
    tables: &Tables,
    medium: &[f32; 18],
    corners: &[i32; 6],
    cells: &[u32; 3],
    majorants: &mut [f32],
) -> u32 {
    interface::build_majorant(grid(tables), medium, corners, cells, majorants)
}

pub fn grid_part(file: &[u8], n: u64, start: &mut u64, length: &mut u64) -> u32 {
    interface::grid_part(file, n, start, length)
}

pub fn grid_name(file: &[u8], n: u64, start: &mut u64, length: &mut u64) -> u32 {
    interface::grid_name(file, n, start, length)
}
