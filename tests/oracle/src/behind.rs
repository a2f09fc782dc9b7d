//! The Rust modules behind the functions of smokegrid.h, as a library: what the comparison is tried on. Built from a copy with one
//! wrong step, it must be found out.

#[path = "../../tables/reference.rs"]
mod reference;
#[path = "../../walks/reference.rs"]
#[allow(dead_code)]
mod walks;

use oracle::file::Part;
use oracle::heat::Heater;
use oracle::loader::{Answer, Lent, Loader, Rust, Tables};
/// What the Rust modules do not have is the reference's.
pub use reference::{print_layer, window_open, window_push};

fn given(value: &mut f32, (number, bits): Answer) -> u32 {
    *value = f32::from_bits(bits);
    number
}

#[allow(clippy::too_many_arguments)]
pub fn decode_density_grid(
    bytes: &[u8],
    blocks: &mut [i32],
    root_links: &mut [u32],
    root_values: &mut [f32],
    upper_links: &mut [u32],
    upper_values: &mut [f32],
    lower_links: &mut [u32],
    lower_values: &mut [f32],
    leaf_values: &mut [f32],
    work: &mut [u64],
    counts: &mut [u64],
    background: &mut f32,
    medium: &mut [f32],
    corners: &mut [i32],
    cells: &mut [u32],
) -> u32 {
    let lent = Lent {
        blocks,
        root_links,
        root_values,
        upper_links,
        upper_values,
        lower_links,
        lower_values,
        leaf_values,
        work,
        counts,
        background,
        medium,
        corners,
        cells,
    };
    Rust.decode_density_grid(bytes, lent)
}

pub fn validate(grid: Tables) -> u32 {
    Rust.validate(grid)
}

pub fn validate_density(grid: Tables) -> u32 {
    Rust.validate_density(grid)
}

pub fn get_value(grid: Tables, x: i32, y: i32, z: i32, value: &mut f32) -> u32 {
    given(value, Rust.get_values(grid, &[[x, y, z]])[0])
}

pub fn get_reading(grid: Tables, x: i32, y: i32, z: i32, value: &mut f32, level: &mut u32) -> u32 {
    let (number, bits, spoke) = Rust.get_readings(grid, &[[x, y, z]])[0];
    *level = spoke;
    given(value, (number, bits))
}

#[allow(clippy::too_many_arguments)]
pub fn load_temperature(
    bytes: &[u8],
    offset: f32,
    scale: f32,
    blocks: &mut [i32],
    root_links: &mut [u32],
    root_values: &mut [f32],
    upper_links: &mut [u32],
    upper_values: &mut [f32],
    lower_links: &mut [u32],
    lower_values: &mut [f32],
    leaf_values: &mut [f32],
    work: &mut [u64],
    counts: &mut [u64],
    background: &mut f32,
) -> u32 {
    let lent = Lent {
        blocks,
        root_links,
        root_values,
        upper_links,
        upper_values,
        lower_links,
        lower_values,
        leaf_values,
        work,
        counts,
        background,
        medium: &mut [],
        corners: &mut [],
        cells: &mut [],
    };
    Rust.load_temperature(bytes, offset, scale, lent)
}

#[allow(clippy::too_many_arguments)]
pub fn get_temperature(
    present: u32,
    grid: Tables,
    offset: f32,
    scale: f32,
    x: i32,
    y: i32,
    z: i32,
    value_bits: &mut u32,
) -> u32 {
    let (number, bits) = Rust.get_temperature(present, grid, offset, scale, [x, y, z]);
    *value_bits = bits;
    number
}

#[allow(clippy::too_many_arguments)]
pub fn box_maximum(
    grid: Tables,
    lx: i32,
    ly: i32,
    lz: i32,
    hx: i32,
    hy: i32,
    hz: i32,
    value: &mut f32,
) -> u32 {
    given(value, Rust.box_maxima(grid, &[[lx, ly, lz, hx, hy, hz]])[0])
}

/// What no wrong build changes: zeros, or the number of the refusal.
#[allow(clippy::too_many_arguments)]
pub fn count_classes(
    grid: Tables,
    limits: &[f32],
    lx: i32,
    ly: i32,
    lz: i32,
    hx: i32,
    hy: i32,
    hz: i32,
    counts: &mut [u64],
) -> u32 {
    counts.fill(0);
    let _ = (limits, [lx, ly, lz, hx, hy, hz]);
    if counts.len() != 17 {
        return 18;
    }
    Rust.validate(grid)
}

#[allow(clippy::too_many_arguments)]
pub fn box_maximum_counted(
    grid: Tables,
    lx: i32,
    ly: i32,
    lz: i32,
    hx: i32,
    hy: i32,
    hz: i32,
    value: &mut f32,
    counts: &mut [u64],
) -> u32 {
    *value = 0.0;
    counts.fill(0);
    if counts.len() != 5 {
        return 18;
    }
    let number = box_maximum(grid, lx, ly, lz, hx, hy, hz, value);
    if number == 0 {
        let links = walks::Links {
            blocks: grid.blocks,
            root: grid.root_links,
            upper: grid.upper_links,
            lower: grid.lower_links,
        };
        let [roots, upper, lower, leaf] = walks::counts(links, [lx, ly, lz], [hx, hy, hz]);
        let words = [roots as u64, upper as u64, lower as u64, (leaf >> 64) as u64, leaf as u64];
        counts.copy_from_slice(&words);
    }
    number
}

pub fn box_maxima(grid: Tables, boxes: &[i32], maxima: &mut [f32], greatest: &mut f32) -> u32 {
    given(greatest, Rust.list_maxima(grid, boxes, maxima))
}

pub fn world_to_index_f(medium: &[f32], x: f32, y: f32, z: f32, index_bits: &mut [u32]) -> u32 {
    Rust.world_to_index_f(medium, [x, y, z], index_bits)
}

pub fn build_majorant(
    grid: Tables,
    medium: &[f32],
    corners: &[i32],
    cells: &[u32],
    majorants: &mut [f32],
) -> u32 {
    Rust.build_majorant(grid, medium, corners, cells, majorants)
}

fn handed(start: &mut u64, length: &mut u64, part: Part) -> u32 {
    (*start, *length) = (part.1, part.2);
    part.0
}

pub fn grid_part(file: &[u8], n: u64, start: &mut u64, length: &mut u64) -> u32 {
    handed(start, length, Rust.grid_part(file, n))
}

pub fn grid_name(file: &[u8], n: u64, start: &mut u64, length: &mut u64) -> u32 {
    handed(start, length, Rust.grid_name(file, n))
}

/// Densities between voxels are set beside a reference by tests/mix: here they are refused.
pub fn mix(_grid: Tables, _medium: &[f32], _x: f32, _y: f32, _z: f32, value: &mut f32) -> u32 {
    *value = 0.0;
    18
}

/// Rays are set beside their source by tests/rays: here they are refused.
#[allow(clippy::too_many_arguments)]
pub fn ray_open(
    _medium: &[f32],
    _cells: &[u32],
    _majorants: &[f32],
    _ox: f32,
    _oy: f32,
    _oz: f32,
    _dx: f32,
    _dy: f32,
    _dz: f32,
    _t_min: f32,
    _t_max: f32,
    ray_times: &mut [f32],
    ray_cells: &mut [i32],
) -> u32 {
    ray_times.fill(0.0);
    ray_cells.fill(0);
    18
}

pub fn ray_next(
    _majorants: &[f32],
    ray_times: &mut [f32],
    ray_cells: &mut [i32],
    more: &mut u32,
    t0: &mut f32,
    t1: &mut f32,
    figure: &mut f32,
) -> u32 {
    ray_times.fill(0.0);
    ray_cells.fill(0);
    (*more, *t0, *t1, *figure) = (0, 0.0, 0.0, 0.0);
    18
}
