//! Written by rust/declare from include/smokegrid.h: change that, and run it again.
//! What C calls: each function hands on to `behind`, over slices.

mod behind;

use oracle::loader::Tables;
use std::slice::{from_raw_parts, from_raw_parts_mut};

/// # Safety
/// Each pointer is valid for its length, and no buffer that is written overlaps another.
#[no_mangle]
pub unsafe extern "C" fn smokegrid_decode_density_grid(
    bytes: *const u8,
    bytes_len: usize,
    blocks: *mut i32,
    blocks_len: usize,
    root_links: *mut u32,
    root_links_len: usize,
    root_values: *mut f32,
    root_values_len: usize,
    upper_links: *mut u32,
    upper_links_len: usize,
    upper_values: *mut f32,
    upper_values_len: usize,
    lower_links: *mut u32,
    lower_links_len: usize,
    lower_values: *mut f32,
    lower_values_len: usize,
    leaf_values: *mut f32,
    leaf_values_len: usize,
    work: *mut u64,
    work_len: usize,
    counts: *mut u64,
    counts_len: usize,
    background: *mut f32,
    medium: *mut f32,
    medium_len: usize,
    corners: *mut i32,
    corners_len: usize,
    cells: *mut u32,
    cells_len: usize,
) -> u32 {
    behind::decode_density_grid(
        from_raw_parts(bytes, bytes_len),
        from_raw_parts_mut(blocks, blocks_len),
        from_raw_parts_mut(root_links, root_links_len),
        from_raw_parts_mut(root_values, root_values_len),
        from_raw_parts_mut(upper_links, upper_links_len),
        from_raw_parts_mut(upper_values, upper_values_len),
        from_raw_parts_mut(lower_links, lower_links_len),
        from_raw_parts_mut(lower_values, lower_values_len),
        from_raw_parts_mut(leaf_values, leaf_values_len),
        from_raw_parts_mut(work, work_len),
        from_raw_parts_mut(counts, counts_len),
        &mut *background,
        from_raw_parts_mut(medium, medium_len),
        from_raw_parts_mut(corners, corners_len),
        from_raw_parts_mut(cells, cells_len),
    )
}

/// # Safety
/// Each pointer is valid for its length, and no buffer that is written overlaps another.
#[no_mangle]
pub unsafe extern "C" fn smokegrid_validate(
    background: f32,
    blocks: *const i32,
    blocks_len: usize,
    root_links: *const u32,
    root_links_len: usize,
    root_values: *const f32,
    root_values_len: usize,
    upper_links: *const u32,
    upper_links_len: usize,
    upper_values: *const f32,
    upper_values_len: usize,
    lower_links: *const u32,
    lower_links_len: usize,
    lower_values: *const f32,
    lower_values_len: usize,
    leaf_values: *const f32,
    leaf_values_len: usize,
) -> u32 {
    let grid = Tables {
        background,
        blocks: from_raw_parts(blocks, blocks_len),
        root_links: from_raw_parts(root_links, root_links_len),
        root_values: from_raw_parts(root_values, root_values_len),
        upper_links: from_raw_parts(upper_links, upper_links_len),
        upper_values: from_raw_parts(upper_values, upper_values_len),
        lower_links: from_raw_parts(lower_links, lower_links_len),
        lower_values: from_raw_parts(lower_values, lower_values_len),
        leaf_values: from_raw_parts(leaf_values, leaf_values_len),
    };
    behind::validate(grid)
}

/// # Safety
/// Each pointer is valid for its length, and no buffer that is written overlaps another.
#[no_mangle]
pub unsafe extern "C" fn smokegrid_validate_density(
    background: f32,
    blocks: *const i32,
    blocks_len: usize,
    root_links: *const u32,
    root_links_len: usize,
    root_values: *const f32,
    root_values_len: usize,
    upper_links: *const u32,
    upper_links_len: usize,
    upper_values: *const f32,
    upper_values_len: usize,
    lower_links: *const u32,
    lower_links_len: usize,
    lower_values: *const f32,
    lower_values_len: usize,
    leaf_values: *const f32,
    leaf_values_len: usize,
) -> u32 {
    let grid = Tables {
        background,
        blocks: from_raw_parts(blocks, blocks_len),
        root_links: from_raw_parts(root_links, root_links_len),
        root_values: from_raw_parts(root_values, root_values_len),
        upper_links: from_raw_parts(upper_links, upper_links_len),
        upper_values: from_raw_parts(upper_values, upper_values_len),
        lower_links: from_raw_parts(lower_links, lower_links_len),
        lower_values: from_raw_parts(lower_values, lower_values_len),
        leaf_values: from_raw_parts(leaf_values, leaf_values_len),
    };
    behind::validate_density(grid)
}

/// # Safety
/// Each pointer is valid for its length, and no buffer that is written overlaps another.
#[no_mangle]
pub unsafe extern "C" fn smokegrid_get_value(
    background: f32,
    blocks: *const i32,
    blocks_len: usize,
    root_links: *const u32,
    root_links_len: usize,
    root_values: *const f32,
    root_values_len: usize,
    upper_links: *const u32,
    upper_links_len: usize,
    upper_values: *const f32,
    upper_values_len: usize,
    lower_links: *const u32,
    lower_links_len: usize,
    lower_values: *const f32,
    lower_values_len: usize,
    leaf_values: *const f32,
    leaf_values_len: usize,
    x: i32,
    y: i32,
    z: i32,
    value: *mut f32,
) -> u32 {
    let grid = Tables {
        background,
        blocks: from_raw_parts(blocks, blocks_len),
        root_links: from_raw_parts(root_links, root_links_len),
        root_values: from_raw_parts(root_values, root_values_len),
        upper_links: from_raw_parts(upper_links, upper_links_len),
        upper_values: from_raw_parts(upper_values, upper_values_len),
        lower_links: from_raw_parts(lower_links, lower_links_len),
        lower_values: from_raw_parts(lower_values, lower_values_len),
        leaf_values: from_raw_parts(leaf_values, leaf_values_len),
    };
    behind::get_value(grid, x, y, z, &mut *value)
}

/// # Safety
/// Each pointer is valid for its length, and no buffer that is written overlaps another.
#[no_mangle]
pub unsafe extern "C" fn smokegrid_get_reading(
    background: f32,
    blocks: *const i32,
    blocks_len: usize,
    root_links: *const u32,
    root_links_len: usize,
    root_values: *const f32,
    root_values_len: usize,
    upper_links: *const u32,
    upper_links_len: usize,
    upper_values: *const f32,
    upper_values_len: usize,
    lower_links: *const u32,
    lower_links_len: usize,
    lower_values: *const f32,
    lower_values_len: usize,
    leaf_values: *const f32,
    leaf_values_len: usize,
    x: i32,
    y: i32,
    z: i32,
    value: *mut f32,
    level: *mut u32,
) -> u32 {
    let grid = Tables {
        background,
        blocks: from_raw_parts(blocks, blocks_len),
        root_links: from_raw_parts(root_links, root_links_len),
        root_values: from_raw_parts(root_values, root_values_len),
        upper_links: from_raw_parts(upper_links, upper_links_len),
        upper_values: from_raw_parts(upper_values, upper_values_len),
        lower_links: from_raw_parts(lower_links, lower_links_len),
        lower_values: from_raw_parts(lower_values, lower_values_len),
        leaf_values: from_raw_parts(leaf_values, leaf_values_len),
    };
    behind::get_reading(grid, x, y, z, &mut *value, &mut *level)
}

/// # Safety
/// Each pointer is valid for its length, and no buffer that is written overlaps another.
#[no_mangle]
pub unsafe extern "C" fn smokegrid_box_maximum(
    background: f32,
    blocks: *const i32,
    blocks_len: usize,
    root_links: *const u32,
    root_links_len: usize,
    root_values: *const f32,
    root_values_len: usize,
    upper_links: *const u32,
    upper_links_len: usize,
    upper_values: *const f32,
    upper_values_len: usize,
    lower_links: *const u32,
    lower_links_len: usize,
    lower_values: *const f32,
    lower_values_len: usize,
    leaf_values: *const f32,
    leaf_values_len: usize,
    lx: i32,
    ly: i32,
    lz: i32,
    hx: i32,
    hy: i32,
    hz: i32,
    value: *mut f32,
) -> u32 {
    let grid = Tables {
        background,
        blocks: from_raw_parts(blocks, blocks_len),
        root_links: from_raw_parts(root_links, root_links_len),
        root_values: from_raw_parts(root_values, root_values_len),
        upper_links: from_raw_parts(upper_links, upper_links_len),
        upper_values: from_raw_parts(upper_values, upper_values_len),
        lower_links: from_raw_parts(lower_links, lower_links_len),
        lower_values: from_raw_parts(lower_values, lower_values_len),
        leaf_values: from_raw_parts(leaf_values, leaf_values_len),
    };
    behind::box_maximum(grid, lx, ly, lz, hx, hy, hz, &mut *value)
}

/// # Safety
/// Each pointer is valid for its length, and no buffer that is written overlaps another.
#[no_mangle]
pub unsafe extern "C" fn smokegrid_box_maximum_counted(
    background: f32,
    blocks: *const i32,
    blocks_len: usize,
    root_links: *const u32,
    root_links_len: usize,
    root_values: *const f32,
    root_values_len: usize,
    upper_links: *const u32,
    upper_links_len: usize,
    upper_values: *const f32,
    upper_values_len: usize,
    lower_links: *const u32,
    lower_links_len: usize,
    lower_values: *const f32,
    lower_values_len: usize,
    leaf_values: *const f32,
    leaf_values_len: usize,
    lx: i32,
    ly: i32,
    lz: i32,
    hx: i32,
    hy: i32,
    hz: i32,
    value: *mut f32,
    counts: *mut u64,
    counts_len: usize,
) -> u32 {
    let grid = Tables {
        background,
        blocks: from_raw_parts(blocks, blocks_len),
        root_links: from_raw_parts(root_links, root_links_len),
        root_values: from_raw_parts(root_values, root_values_len),
        upper_links: from_raw_parts(upper_links, upper_links_len),
        upper_values: from_raw_parts(upper_values, upper_values_len),
        lower_links: from_raw_parts(lower_links, lower_links_len),
        lower_values: from_raw_parts(lower_values, lower_values_len),
        leaf_values: from_raw_parts(leaf_values, leaf_values_len),
    };
    behind::box_maximum_counted(
        grid,
        lx,
        ly,
        lz,
        hx,
        hy,
        hz,
        &mut *value,
        from_raw_parts_mut(counts, counts_len),
    )
}

/// # Safety
/// Each pointer is valid for its length, and no buffer that is written overlaps another.
#[no_mangle]
pub unsafe extern "C" fn smokegrid_count_classes(
    background: f32,
    blocks: *const i32,
    blocks_len: usize,
    root_links: *const u32,
    root_links_len: usize,
    root_values: *const f32,
    root_values_len: usize,
    upper_links: *const u32,
    upper_links_len: usize,
    upper_values: *const f32,
    upper_values_len: usize,
    lower_links: *const u32,
    lower_links_len: usize,
    lower_values: *const f32,
    lower_values_len: usize,
    leaf_values: *const f32,
    leaf_values_len: usize,
    limits: *const f32,
    limits_len: usize,
    lx: i32,
    ly: i32,
    lz: i32,
    hx: i32,
    hy: i32,
    hz: i32,
    counts: *mut u64,
    counts_len: usize,
) -> u32 {
    let grid = Tables {
        background,
        blocks: from_raw_parts(blocks, blocks_len),
        root_links: from_raw_parts(root_links, root_links_len),
        root_values: from_raw_parts(root_values, root_values_len),
        upper_links: from_raw_parts(upper_links, upper_links_len),
        upper_values: from_raw_parts(upper_values, upper_values_len),
        lower_links: from_raw_parts(lower_links, lower_links_len),
        lower_values: from_raw_parts(lower_values, lower_values_len),
        leaf_values: from_raw_parts(leaf_values, leaf_values_len),
    };
    behind::count_classes(
        grid,
        from_raw_parts(limits, limits_len),
        lx,
        ly,
        lz,
        hx,
        hy,
        hz,
        from_raw_parts_mut(counts, counts_len),
    )
}

/// # Safety
/// Each pointer is valid for its length, and no buffer that is written overlaps another.
#[no_mangle]
pub unsafe extern "C" fn smokegrid_box_maxima(
    background: f32,
    blocks: *const i32,
    blocks_len: usize,
    root_links: *const u32,
    root_links_len: usize,
    root_values: *const f32,
    root_values_len: usize,
    upper_links: *const u32,
    upper_links_len: usize,
    upper_values: *const f32,
    upper_values_len: usize,
    lower_links: *const u32,
    lower_links_len: usize,
    lower_values: *const f32,
    lower_values_len: usize,
    leaf_values: *const f32,
    leaf_values_len: usize,
    boxes: *const i32,
    boxes_len: usize,
    maxima: *mut f32,
    maxima_len: usize,
    greatest: *mut f32,
) -> u32 {
    let grid = Tables {
        background,
        blocks: from_raw_parts(blocks, blocks_len),
        root_links: from_raw_parts(root_links, root_links_len),
        root_values: from_raw_parts(root_values, root_values_len),
        upper_links: from_raw_parts(upper_links, upper_links_len),
        upper_values: from_raw_parts(upper_values, upper_values_len),
        lower_links: from_raw_parts(lower_links, lower_links_len),
        lower_values: from_raw_parts(lower_values, lower_values_len),
        leaf_values: from_raw_parts(leaf_values, leaf_values_len),
    };
    behind::box_maxima(
        grid,
        from_raw_parts(boxes, boxes_len),
        from_raw_parts_mut(maxima, maxima_len),
        &mut *greatest,
    )
}

/// # Safety
/// Each pointer is valid for its length, and no buffer that is written overlaps another.
#[no_mangle]
pub unsafe extern "C" fn smokegrid_world_to_index_f(
    medium: *const f32,
    medium_len: usize,
    x: f32,
    y: f32,
    z: f32,
    index_bits: *mut u32,
    index_bits_len: usize,
) -> u32 {
    behind::world_to_index_f(
        from_raw_parts(medium, medium_len),
        x,
        y,
        z,
        from_raw_parts_mut(index_bits, index_bits_len),
    )
}

/// # Safety
/// Each pointer is valid for its length, and no buffer that is written overlaps another.
#[no_mangle]
pub unsafe extern "C" fn smokegrid_mix(
    background: f32,
    blocks: *const i32,
    blocks_len: usize,
    root_links: *const u32,
    root_links_len: usize,
    root_values: *const f32,
    root_values_len: usize,
    upper_links: *const u32,
    upper_links_len: usize,
    upper_values: *const f32,
    upper_values_len: usize,
    lower_links: *const u32,
    lower_links_len: usize,
    lower_values: *const f32,
    lower_values_len: usize,
    leaf_values: *const f32,
    leaf_values_len: usize,
    medium: *const f32,
    medium_len: usize,
    x: f32,
    y: f32,
    z: f32,
    value: *mut f32,
) -> u32 {
    let grid = Tables {
        background,
        blocks: from_raw_parts(blocks, blocks_len),
        root_links: from_raw_parts(root_links, root_links_len),
        root_values: from_raw_parts(root_values, root_values_len),
        upper_links: from_raw_parts(upper_links, upper_links_len),
        upper_values: from_raw_parts(upper_values, upper_values_len),
        lower_links: from_raw_parts(lower_links, lower_links_len),
        lower_values: from_raw_parts(lower_values, lower_values_len),
        leaf_values: from_raw_parts(leaf_values, leaf_values_len),
    };
    behind::mix(grid, from_raw_parts(medium, medium_len), x, y, z, &mut *value)
}

/// # Safety
/// Each pointer is valid for its length, and no buffer that is written overlaps another.
#[no_mangle]
pub unsafe extern "C" fn smokegrid_build_majorant(
    background: f32,
    blocks: *const i32,
    blocks_len: usize,
    root_links: *const u32,
    root_links_len: usize,
    root_values: *const f32,
    root_values_len: usize,
    upper_links: *const u32,
    upper_links_len: usize,
    upper_values: *const f32,
    upper_values_len: usize,
    lower_links: *const u32,
    lower_links_len: usize,
    lower_values: *const f32,
    lower_values_len: usize,
    leaf_values: *const f32,
    leaf_values_len: usize,
    medium: *const f32,
    medium_len: usize,
    corners: *const i32,
    corners_len: usize,
    cells: *const u32,
    cells_len: usize,
    majorants: *mut f32,
    majorants_len: usize,
) -> u32 {
    let grid = Tables {
        background,
        blocks: from_raw_parts(blocks, blocks_len),
        root_links: from_raw_parts(root_links, root_links_len),
        root_values: from_raw_parts(root_values, root_values_len),
        upper_links: from_raw_parts(upper_links, upper_links_len),
        upper_values: from_raw_parts(upper_values, upper_values_len),
        lower_links: from_raw_parts(lower_links, lower_links_len),
        lower_values: from_raw_parts(lower_values, lower_values_len),
        leaf_values: from_raw_parts(leaf_values, leaf_values_len),
    };
    behind::build_majorant(
        grid,
        from_raw_parts(medium, medium_len),
        from_raw_parts(corners, corners_len),
        from_raw_parts(cells, cells_len),
        from_raw_parts_mut(majorants, majorants_len),
    )
}

/// # Safety
/// Each pointer is valid for its length, and no buffer that is written overlaps another.
#[no_mangle]
pub unsafe extern "C" fn smokegrid_load_temperature(
    bytes: *const u8,
    bytes_len: usize,
    offset: f32,
    scale: f32,
    blocks: *mut i32,
    blocks_len: usize,
    root_links: *mut u32,
    root_links_len: usize,
    root_values: *mut f32,
    root_values_len: usize,
    upper_links: *mut u32,
    upper_links_len: usize,
    upper_values: *mut f32,
    upper_values_len: usize,
    lower_links: *mut u32,
    lower_links_len: usize,
    lower_values: *mut f32,
    lower_values_len: usize,
    leaf_values: *mut f32,
    leaf_values_len: usize,
    work: *mut u64,
    work_len: usize,
    counts: *mut u64,
    counts_len: usize,
    background: *mut f32,
) -> u32 {
    behind::load_temperature(
        from_raw_parts(bytes, bytes_len),
        offset,
        scale,
        from_raw_parts_mut(blocks, blocks_len),
        from_raw_parts_mut(root_links, root_links_len),
        from_raw_parts_mut(root_values, root_values_len),
        from_raw_parts_mut(upper_links, upper_links_len),
        from_raw_parts_mut(upper_values, upper_values_len),
        from_raw_parts_mut(lower_links, lower_links_len),
        from_raw_parts_mut(lower_values, lower_values_len),
        from_raw_parts_mut(leaf_values, leaf_values_len),
        from_raw_parts_mut(work, work_len),
        from_raw_parts_mut(counts, counts_len),
        &mut *background,
    )
}

/// # Safety
/// Each pointer is valid for its length, and no buffer that is written overlaps another.
#[no_mangle]
pub unsafe extern "C" fn smokegrid_get_temperature(
    present: u32,
    background: f32,
    blocks: *const i32,
    blocks_len: usize,
    root_links: *const u32,
    root_links_len: usize,
    root_values: *const f32,
    root_values_len: usize,
    upper_links: *const u32,
    upper_links_len: usize,
    upper_values: *const f32,
    upper_values_len: usize,
    lower_links: *const u32,
    lower_links_len: usize,
    lower_values: *const f32,
    lower_values_len: usize,
    leaf_values: *const f32,
    leaf_values_len: usize,
    offset: f32,
    scale: f32,
    x: i32,
    y: i32,
    z: i32,
    value_bits: *mut u32,
) -> u32 {
    let grid = Tables {
        background,
        blocks: from_raw_parts(blocks, blocks_len),
        root_links: from_raw_parts(root_links, root_links_len),
        root_values: from_raw_parts(root_values, root_values_len),
        upper_links: from_raw_parts(upper_links, upper_links_len),
        upper_values: from_raw_parts(upper_values, upper_values_len),
        lower_links: from_raw_parts(lower_links, lower_links_len),
        lower_values: from_raw_parts(lower_values, lower_values_len),
        leaf_values: from_raw_parts(leaf_values, leaf_values_len),
    };
    behind::get_temperature(present, grid, offset, scale, x, y, z, &mut *value_bits)
}

/// # Safety
/// Each pointer is valid for its length, and no buffer that is written overlaps another.
#[no_mangle]
pub unsafe extern "C" fn smokegrid_grid_part(
    file: *const u8,
    file_len: usize,
    n: u64,
    start: *mut u64,
    length: *mut u64,
) -> u32 {
    behind::grid_part(from_raw_parts(file, file_len), n, &mut *start, &mut *length)
}

/// # Safety
/// Each pointer is valid for its length, and no buffer that is written overlaps another.
#[no_mangle]
pub unsafe extern "C" fn smokegrid_grid_name(
    file: *const u8,
    file_len: usize,
    n: u64,
    start: *mut u64,
    length: *mut u64,
) -> u32 {
    behind::grid_name(from_raw_parts(file, file_len), n, &mut *start, &mut *length)
}

/// # Safety
/// Each pointer is valid for its length, and no buffer that is written overlaps another.
#[no_mangle]
pub unsafe extern "C" fn smokegrid_ray_open(
    medium: *const f32,
    medium_len: usize,
    cells: *const u32,
    cells_len: usize,
    majorants: *const f32,
    majorants_len: usize,
    ox: f32,
    oy: f32,
    oz: f32,
    dx: f32,
    dy: f32,
    dz: f32,
    t_min: f32,
    t_max: f32,
    ray_times: *mut f32,
    ray_times_len: usize,
    ray_cells: *mut i32,
    ray_cells_len: usize,
) -> u32 {
    behind::ray_open(
        from_raw_parts(medium, medium_len),
        from_raw_parts(cells, cells_len),
        from_raw_parts(majorants, majorants_len),
        ox,
        oy,
        oz,
        dx,
        dy,
        dz,
        t_min,
        t_max,
        from_raw_parts_mut(ray_times, ray_times_len),
        from_raw_parts_mut(ray_cells, ray_cells_len),
    )
}

/// # Safety
/// Each pointer is valid for its length, and no buffer that is written overlaps another.
#[no_mangle]
pub unsafe extern "C" fn smokegrid_ray_next(
    majorants: *const f32,
    majorants_len: usize,
    ray_times: *mut f32,
    ray_times_len: usize,
    ray_cells: *mut i32,
    ray_cells_len: usize,
    more: *mut u32,
    t0: *mut f32,
    t1: *mut f32,
    figure: *mut f32,
) -> u32 {
    behind::ray_next(
        from_raw_parts(majorants, majorants_len),
        from_raw_parts_mut(ray_times, ray_times_len),
        from_raw_parts_mut(ray_cells, ray_cells_len),
        &mut *more,
        &mut *t0,
        &mut *t1,
        &mut *figure,
    )
}

/// # Safety
/// Each pointer is valid for its length, and no buffer that is written overlaps another.
#[no_mangle]
pub unsafe extern "C" fn smokegrid_print_layer(
    majorants: *const f32,
    majorants_len: usize,
    cells: *const u32,
    cells_len: usize,
    layer: u32,
    text: *mut u8,
    text_len: usize,
    written: *mut u64,
) -> u32 {
    behind::print_layer(
        from_raw_parts(majorants, majorants_len),
        from_raw_parts(cells, cells_len),
        layer,
        from_raw_parts_mut(text, text_len),
        &mut *written,
    )
}

/// # Safety
/// Each pointer is valid for its length, and no buffer that is written overlaps another.
#[no_mangle]
pub unsafe extern "C" fn smokegrid_window_open(
    w: u32,
    cells: *const u32,
    cells_len: usize,
    window: *mut u32,
    window_len: usize,
    memory: *mut f32,
    memory_len: usize,
    answer: *mut f32,
    answer_len: usize,
) -> u32 {
    behind::window_open(
        w,
        from_raw_parts(cells, cells_len),
        from_raw_parts_mut(window, window_len),
        from_raw_parts_mut(memory, memory_len),
        from_raw_parts_mut(answer, answer_len),
    )
}

/// # Safety
/// Each pointer is valid for its length, and no buffer that is written overlaps another.
#[no_mangle]
pub unsafe extern "C" fn smokegrid_window_push(
    majorants: *const f32,
    majorants_len: usize,
    cells: *const u32,
    cells_len: usize,
    window: *mut u32,
    window_len: usize,
    memory: *mut f32,
    memory_len: usize,
    answer: *mut f32,
    answer_len: usize,
) -> u32 {
    behind::window_push(
        from_raw_parts(majorants, majorants_len),
        from_raw_parts(cells, cells_len),
        from_raw_parts_mut(window, window_len),
        from_raw_parts_mut(memory, memory_len),
        from_raw_parts_mut(answer, answer_len),
    )
}
