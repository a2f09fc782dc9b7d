//! Written by rust/declare from include/smokegrid.h: change that, and run it again.
//! The functions of include/smokegrid.h, each behind a function over slices.

/// The tables of a grid as inputs.
#[derive(Clone, Copy)]
pub struct GridTables<'a> {
    pub background: f32,
    pub blocks: &'a [i32],
    pub root_links: &'a [u32],
    pub root_values: &'a [f32],
    pub upper_links: &'a [u32],
    pub upper_values: &'a [f32],
    pub lower_links: &'a [u32],
    pub lower_values: &'a [f32],
    pub leaf_values: &'a [f32],
}

mod c {
    extern "C" {
        pub fn smokegrid_decode_density_grid(
            bytes: *const u8,
            bytes_len: usize,
            blocks: *mut i32,
            blocks_len: usize,
            root_links: *mut u32,
            root_links_len: usize,
            root_values: *mut f32,
            root_values_len: usize,
            upper_links: *mut u32,
            upper_links_len: usize,
            upper_values: *mut f32,
            upper_values_len: usize,
            lower_links: *mut u32,
            lower_links_len: usize,
            lower_values: *mut f32,
            lower_values_len: usize,
            leaf_values: *mut f32,
            leaf_values_len: usize,
            work: *mut u64,
            work_len: usize,
            counts: *mut u64,
            counts_len: usize,
            background: *mut f32,
            medium: *mut f32,
            medium_len: usize,
            corners: *mut i32,
            corners_len: usize,
            cells: *mut u32,
            cells_len: usize,
        ) -> u32;
        pub fn smokegrid_validate(
            background: f32,
            blocks: *const i32,
            blocks_len: usize,
            root_links: *const u32,
            root_links_len: usize,
            root_values: *const f32,
            root_values_len: usize,
            upper_links: *const u32,
            upper_links_len: usize,
            upper_values: *const f32,
            upper_values_len: usize,
            lower_links: *const u32,
            lower_links_len: usize,
            lower_values: *const f32,
            lower_values_len: usize,
            leaf_values: *const f32,
            leaf_values_len: usize,
        ) -> u32;
        pub fn smokegrid_validate_density(
            background: f32,
            blocks: *const i32,
            blocks_len: usize,
            root_links: *const u32,
            root_links_len: usize,
            root_values: *const f32,
            root_values_len: usize,
            upper_links: *const u32,
            upper_links_len: usize,
            upper_values: *const f32,
            upper_values_len: usize,
            lower_links: *const u32,
            lower_links_len: usize,
            lower_values: *const f32,
            lower_values_len: usize,
            leaf_values: *const f32,
            leaf_values_len: usize,
        ) -> u32;
        pub fn smokegrid_get_value(
            background: f32,
            blocks: *const i32,
            blocks_len: usize,
            root_links: *const u32,
            root_links_len: usize,
            root_values: *const f32,
            root_values_len: usize,
            upper_links: *const u32,
            upper_links_len: usize,
            upper_values: *const f32,
            upper_values_len: usize,
            lower_links: *const u32,
            lower_links_len: usize,
            lower_values: *const f32,
            lower_values_len: usize,
            leaf_values: *const f32,
            leaf_values_len: usize,
            x: i32,
            y: i32,
            z: i32,
            value: *mut f32,
        ) -> u32;
        pub fn smokegrid_get_reading(
            background: f32,
            blocks: *const i32,
            blocks_len: usize,
            root_links: *const u32,
            root_links_len: usize,
            root_values: *const f32,
            root_values_len: usize,
            upper_links: *const u32,
            upper_links_len: usize,
            upper_values: *const f32,
            upper_values_len: usize,
            lower_links: *const u32,
            lower_links_len: usize,
            lower_values: *const f32,
            lower_values_len: usize,
            leaf_values: *const f32,
            leaf_values_len: usize,
            x: i32,
            y: i32,
            z: i32,
            value: *mut f32,
            level: *mut u32,
        ) -> u32;
        pub fn smokegrid_box_maximum(
            background: f32,
            blocks: *const i32,
            blocks_len: usize,
            root_links: *const u32,
            root_links_len: usize,
            root_values: *const f32,
            root_values_len: usize,
            upper_links: *const u32,
            upper_links_len: usize,
            upper_values: *const f32,
            upper_values_len: usize,
            lower_links: *const u32,
            lower_links_len: usize,
            lower_values: *const f32,
            lower_values_len: usize,
            leaf_values: *const f32,
            leaf_values_len: usize,
            lx: i32,
            ly: i32,
            lz: i32,
            hx: i32,
            hy: i32,
            hz: i32,
            value: *mut f32,
        ) -> u32;
        pub fn smokegrid_box_maximum_counted(
            background: f32,
            blocks: *const i32,
            blocks_len: usize,
            root_links: *const u32,
            root_links_len: usize,
            root_values: *const f32,
            root_values_len: usize,
            upper_links: *const u32,
            upper_links_len: usize,
            upper_values: *const f32,
            upper_values_len: usize,
            lower_links: *const u32,
            lower_links_len: usize,
            lower_values: *const f32,
            lower_values_len: usize,
            leaf_values: *const f32,
            leaf_values_len: usize,
            lx: i32,
            ly: i32,
            lz: i32,
            hx: i32,
            hy: i32,
            hz: i32,
            value: *mut f32,
            counts: *mut u64,
            counts_len: usize,
        ) -> u32;
        pub fn smokegrid_count_classes(
            background: f32,
            blocks: *const i32,
            blocks_len: usize,
            root_links: *const u32,
            root_links_len: usize,
            root_values: *const f32,
            root_values_len: usize,
            upper_links: *const u32,
            upper_links_len: usize,
            upper_values: *const f32,
            upper_values_len: usize,
            lower_links: *const u32,
            lower_links_len: usize,
            lower_values: *const f32,
            lower_values_len: usize,
            leaf_values: *const f32,
            leaf_values_len: usize,
            limits: *const f32,
            limits_len: usize,
            lx: i32,
            ly: i32,
            lz: i32,
            hx: i32,
            hy: i32,
            hz: i32,
            counts: *mut u64,
            counts_len: usize,
        ) -> u32;
        pub fn smokegrid_box_maxima(
            background: f32,
            blocks: *const i32,
            blocks_len: usize,
            root_links: *const u32,
            root_links_len: usize,
            root_values: *const f32,
            root_values_len: usize,
            upper_links: *const u32,
            upper_links_len: usize,
            upper_values: *const f32,
            upper_values_len: usize,
            lower_links: *const u32,
            lower_links_len: usize,
            lower_values: *const f32,
            lower_values_len: usize,
            leaf_values: *const f32,
            leaf_values_len: usize,
            boxes: *const i32,
            boxes_len: usize,
            maxima: *mut f32,
            maxima_len: usize,
            greatest: *mut f32,
        ) -> u32;
        pub fn smokegrid_world_to_index_f(
            medium: *const f32,
            medium_len: usize,
            x: f32,
            y: f32,
            z: f32,
            index_bits: *mut u32,
            index_bits_len: usize,
        ) -> u32;
        pub fn smokegrid_mix(
            background: f32,
            blocks: *const i32,
            blocks_len: usize,
            root_links: *const u32,
            root_links_len: usize,
            root_values: *const f32,
            root_values_len: usize,
            upper_links: *const u32,
            upper_links_len: usize,
            upper_values: *const f32,
            upper_values_len: usize,
            lower_links: *const u32,
            lower_links_len: usize,
            lower_values: *const f32,
            lower_values_len: usize,
            leaf_values: *const f32,
            leaf_values_len: usize,
            medium: *const f32,
            medium_len: usize,
            x: f32,
            y: f32,
            z: f32,
            value: *mut f32,
        ) -> u32;
        pub fn smokegrid_build_majorant(
            background: f32,
            blocks: *const i32,
            blocks_len: usize,
            root_links: *const u32,
            root_links_len: usize,
            root_values: *const f32,
            root_values_len: usize,
            upper_links: *const u32,
            upper_links_len: usize,
            upper_values: *const f32,
            upper_values_len: usize,
            lower_links: *const u32,
            lower_links_len: usize,
            lower_values: *const f32,
            lower_values_len: usize,
            leaf_values: *const f32,
            leaf_values_len: usize,
            medium: *const f32,
            medium_len: usize,
            corners: *const i32,
            corners_len: usize,
            cells: *const u32,
            cells_len: usize,
            majorants: *mut f32,
            majorants_len: usize,
        ) -> u32;
        pub fn smokegrid_load_temperature(
            bytes: *const u8,
            bytes_len: usize,
            offset: f32,
            scale: f32,
            blocks: *mut i32,
            blocks_len: usize,
            root_links: *mut u32,
            root_links_len: usize,
            root_values: *mut f32,
            root_values_len: usize,
            upper_links: *mut u32,
            upper_links_len: usize,
            upper_values: *mut f32,
            upper_values_len: usize,
            lower_links: *mut u32,
            lower_links_len: usize,
            lower_values: *mut f32,
            lower_values_len: usize,
            leaf_values: *mut f32,
            leaf_values_len: usize,
            work: *mut u64,
            work_len: usize,
            counts: *mut u64,
            counts_len: usize,
            background: *mut f32,
        ) -> u32;
        pub fn smokegrid_get_temperature(
            present: u32,
            background: f32,
            blocks: *const i32,
            blocks_len: usize,
            root_links: *const u32,
            root_links_len: usize,
            root_values: *const f32,
            root_values_len: usize,
            upper_links: *const u32,
            upper_links_len: usize,
            upper_values: *const f32,
            upper_values_len: usize,
            lower_links: *const u32,
            lower_links_len: usize,
            lower_values: *const f32,
            lower_values_len: usize,
            leaf_values: *const f32,
            leaf_values_len: usize,
            offset: f32,
            scale: f32,
            x: i32,
            y: i32,
            z: i32,
            value_bits: *mut u32,
        ) -> u32;
        pub fn smokegrid_grid_part(
            file: *const u8,
            file_len: usize,
            n: u64,
            start: *mut u64,
            length: *mut u64,
        ) -> u32;
        pub fn smokegrid_grid_name(
            file: *const u8,
            file_len: usize,
            n: u64,
            start: *mut u64,
            length: *mut u64,
        ) -> u32;
        pub fn smokegrid_ray_open(
            medium: *const f32,
            medium_len: usize,
            cells: *const u32,
            cells_len: usize,
            majorants: *const f32,
            majorants_len: usize,
            ox: f32,
            oy: f32,
            oz: f32,
            dx: f32,
            dy: f32,
            dz: f32,
            t_min: f32,
            t_max: f32,
            ray_times: *mut f32,
            ray_times_len: usize,
            ray_cells: *mut i32,
            ray_cells_len: usize,
        ) -> u32;
        pub fn smokegrid_ray_next(
            majorants: *const f32,
            majorants_len: usize,
            ray_times: *mut f32,
            ray_times_len: usize,
            ray_cells: *mut i32,
            ray_cells_len: usize,
            more: *mut u32,
            t0: *mut f32,
            t1: *mut f32,
            figure: *mut f32,
        ) -> u32;
        pub fn smokegrid_print_layer(
            majorants: *const f32,
            majorants_len: usize,
            cells: *const u32,
            cells_len: usize,
            layer: u32,
            text: *mut u8,
            text_len: usize,
            written: *mut u64,
        ) -> u32;
        pub fn smokegrid_window_open(
            w: u32,
            cells: *const u32,
            cells_len: usize,
            window: *mut u32,
            window_len: usize,
            memory: *mut f32,
            memory_len: usize,
            answer: *mut f32,
            answer_len: usize,
        ) -> u32;
        pub fn smokegrid_window_push(
            majorants: *const f32,
            majorants_len: usize,
            cells: *const u32,
            cells_len: usize,
            window: *mut u32,
            window_len: usize,
            memory: *mut f32,
            memory_len: usize,
            answer: *mut f32,
            answer_len: usize,
        ) -> u32;
    }
}

#[inline]
#[allow(clippy::too_many_arguments)]
pub fn decode_density_grid(
    bytes: &[u8],
    blocks: &mut [i32],
    root_links: &mut [u32],
    root_values: &mut [f32],
    upper_links: &mut [u32],
    upper_values: &mut [f32],
    lower_links: &mut [u32],
    lower_values: &mut [f32],
    leaf_values: &mut [f32],
    work: &mut [u64],
    counts: &mut [u64],
    background: &mut f32,
    medium: &mut [f32],
    corners: &mut [i32],
    cells: &mut [u32],
) -> u32 {
    // SAFETY: each pointer is valid for its length, and what is written is borrowed mutably, so it overlaps nothing.
    unsafe {
        c::smokegrid_decode_density_grid(
            bytes.as_ptr(),
            bytes.len(),
            blocks.as_mut_ptr(),
            blocks.len(),
            root_links.as_mut_ptr(),
            root_links.len(),
            root_values.as_mut_ptr(),
            root_values.len(),
            upper_links.as_mut_ptr(),
            upper_links.len(),
            upper_values.as_mut_ptr(),
            upper_values.len(),
            lower_links.as_mut_ptr(),
            lower_links.len(),
            lower_values.as_mut_ptr(),
            lower_values.len(),
            leaf_values.as_mut_ptr(),
            leaf_values.len(),
            work.as_mut_ptr(),
            work.len(),
            counts.as_mut_ptr(),
            counts.len(),
            background,
            medium.as_mut_ptr(),
            medium.len(),
            corners.as_mut_ptr(),
            corners.len(),
            cells.as_mut_ptr(),
            cells.len(),
        )
    }
}

#[inline]
#[allow(clippy::too_many_arguments)]
pub fn validate(grid: GridTables) -> u32 {
    // SAFETY: each pointer is valid for its length, and what is written is borrowed mutably, so it overlaps nothing.
    unsafe {
        c::smokegrid_validate(
            grid.background,
            grid.blocks.as_ptr(),
            grid.blocks.len(),
            grid.root_links.as_ptr(),
            grid.root_links.len(),
            grid.root_values.as_ptr(),
            grid.root_values.len(),
            grid.upper_links.as_ptr(),
            grid.upper_links.len(),
            grid.upper_values.as_ptr(),
            grid.upper_values.len(),
            grid.lower_links.as_ptr(),
            grid.lower_links.len(),
            grid.lower_values.as_ptr(),
            grid.lower_values.len(),
            grid.leaf_values.as_ptr(),
            grid.leaf_values.len(),
        )
    }
}

#[inline]
#[allow(clippy::too_many_arguments)]
pub fn validate_density(grid: GridTables) -> u32 {
    // SAFETY: each pointer is valid for its length, and what is written is borrowed mutably, so it overlaps nothing.
    unsafe {
        c::smokegrid_validate_density(
            grid.background,
            grid.blocks.as_ptr(),
            grid.blocks.len(),
            grid.root_links.as_ptr(),
            grid.root_links.len(),
            grid.root_values.as_ptr(),
            grid.root_values.len(),
            grid.upper_links.as_ptr(),
            grid.upper_links.len(),
            grid.upper_values.as_ptr(),
            grid.upper_values.len(),
            grid.lower_links.as_ptr(),
            grid.lower_links.len(),
            grid.lower_values.as_ptr(),
            grid.lower_values.len(),
            grid.leaf_values.as_ptr(),
            grid.leaf_values.len(),
        )
    }
}

#[inline]
#[allow(clippy::too_many_arguments)]
pub fn get_value(grid: GridTables, x: i32, y: i32, z: i32, value: &mut f32) -> u32 {
    // SAFETY: each pointer is valid for its length, and what is written is borrowed mutably, so it overlaps nothing.
    unsafe {
        c::smokegrid_get_value(
            grid.background,
            grid.blocks.as_ptr(),
            grid.blocks.len(),
            grid.root_links.as_ptr(),
            grid.root_links.len(),
            grid.root_values.as_ptr(),
            grid.root_values.len(),
            grid.upper_links.as_ptr(),
            grid.upper_links.len(),
            grid.upper_values.as_ptr(),
            grid.upper_values.len(),
            grid.lower_links.as_ptr(),
            grid.lower_links.len(),
            grid.lower_values.as_ptr(),
            grid.lower_values.len(),
            grid.leaf_values.as_ptr(),
            grid.leaf_values.len(),
            x,
            y,
            z,
            value,
        )
    }
}

#[inline]
#[allow(clippy::too_many_arguments)]
pub fn get_reading(
    grid: GridTables,
    x: i32,
    y: i32,
    z: i32,
    value: &mut f32,
    level: &mut u32,
) -> u32 {
    // SAFETY: each pointer is valid for its length, and what is written is borrowed mutably, so it overlaps nothing.
    unsafe {
        c::smokegrid_get_reading(
            grid.background,
            grid.blocks.as_ptr(),
            grid.blocks.len(),
            grid.root_links.as_ptr(),
            grid.root_links.len(),
            grid.root_values.as_ptr(),
            grid.root_values.len(),
            grid.upper_links.as_ptr(),
            grid.upper_links.len(),
            grid.upper_values.as_ptr(),
            grid.upper_values.len(),
            grid.lower_links.as_ptr(),
            grid.lower_links.len(),
            grid.lower_values.as_ptr(),
            grid.lower_values.len(),
            grid.leaf_values.as_ptr(),
            grid.leaf_values.len(),
            x,
            y,
            z,
            value,
            level,
        )
    }
}

#[inline]
#[allow(clippy::too_many_arguments)]
pub fn box_maximum(
    grid: GridTables,
    lx: i32,
    ly: i32,
    lz: i32,
    hx: i32,
    hy: i32,
    hz: i32,
    value: &mut f32,
) -> u32 {
    // SAFETY: each pointer is valid for its length, and what is written is borrowed mutably, so it overlaps nothing.
    unsafe {
        c::smokegrid_box_maximum(
            grid.background,
            grid.blocks.as_ptr(),
            grid.blocks.len(),
            grid.root_links.as_ptr(),
            grid.root_links.len(),
            grid.root_values.as_ptr(),
            grid.root_values.len(),
            grid.upper_links.as_ptr(),
            grid.upper_links.len(),
            grid.upper_values.as_ptr(),
            grid.upper_values.len(),
            grid.lower_links.as_ptr(),
            grid.lower_links.len(),
            grid.lower_values.as_ptr(),
            grid.lower_values.len(),
            grid.leaf_values.as_ptr(),
            grid.leaf_values.len(),
            lx,
            ly,
            lz,
            hx,
            hy,
            hz,
            value,
        )
    }
}

#[inline]
#[allow(clippy::too_many_arguments)]
pub fn box_maximum_counted(
    grid: GridTables,
    lx: i32,
    ly: i32,
    lz: i32,
    hx: i32,
    hy: i32,
    hz: i32,
    value: &mut f32,
    counts: &mut [u64],
) -> u32 {
    // SAFETY: each pointer is valid for its length, and what is written is borrowed mutably, so it overlaps nothing.
    unsafe {
        c::smokegrid_box_maximum_counted(
            grid.background,
            grid.blocks.as_ptr(),
            grid.blocks.len(),
            grid.root_links.as_ptr(),
            grid.root_links.len(),
            grid.root_values.as_ptr(),
            grid.root_values.len(),
            grid.upper_links.as_ptr(),
            grid.upper_links.len(),
            grid.upper_values.as_ptr(),
            grid.upper_values.len(),
            grid.lower_links.as_ptr(),
            grid.lower_links.len(),
            grid.lower_values.as_ptr(),
            grid.lower_values.len(),
            grid.leaf_values.as_ptr(),
            grid.leaf_values.len(),
            lx,
            ly,
            lz,
            hx,
            hy,
            hz,
            value,
            counts.as_mut_ptr(),
            counts.len(),
        )
    }
}

#[inline]
#[allow(clippy::too_many_arguments)]
pub fn count_classes(
    grid: GridTables,
    limits: &[f32],
    lx: i32,
    ly: i32,
    lz: i32,
    hx: i32,
    hy: i32,
    hz: i32,
    counts: &mut [u64],
) -> u32 {
    // SAFETY: each pointer is valid for its length, and what is written is borrowed mutably, so it overlaps nothing.
    unsafe {
        c::smokegrid_count_classes(
            grid.background,
            grid.blocks.as_ptr(),
            grid.blocks.len(),
            grid.root_links.as_ptr(),
            grid.root_links.len(),
            grid.root_values.as_ptr(),
            grid.root_values.len(),
            grid.upper_links.as_ptr(),
            grid.upper_links.len(),
            grid.upper_values.as_ptr(),
            grid.upper_values.len(),
            grid.lower_links.as_ptr(),
            grid.lower_links.len(),
            grid.lower_values.as_ptr(),
            grid.lower_values.len(),
            grid.leaf_values.as_ptr(),
            grid.leaf_values.len(),
            limits.as_ptr(),
            limits.len(),
            lx,
            ly,
            lz,
            hx,
            hy,
            hz,
            counts.as_mut_ptr(),
            counts.len(),
        )
    }
}

#[inline]
#[allow(clippy::too_many_arguments)]
pub fn box_maxima(grid: GridTables, boxes: &[i32], maxima: &mut [f32], greatest: &mut f32) -> u32 {
    // SAFETY: each pointer is valid for its length, and what is written is borrowed mutably, so it overlaps nothing.
    unsafe {
        c::smokegrid_box_maxima(
            grid.background,
            grid.blocks.as_ptr(),
            grid.blocks.len(),
            grid.root_links.as_ptr(),
            grid.root_links.len(),
            grid.root_values.as_ptr(),
            grid.root_values.len(),
            grid.upper_links.as_ptr(),
            grid.upper_links.len(),
            grid.upper_values.as_ptr(),
            grid.upper_values.len(),
            grid.lower_links.as_ptr(),
            grid.lower_links.len(),
            grid.lower_values.as_ptr(),
            grid.lower_values.len(),
            grid.leaf_values.as_ptr(),
            grid.leaf_values.len(),
            boxes.as_ptr(),
            boxes.len(),
            maxima.as_mut_ptr(),
            maxima.len(),
            greatest,
        )
    }
}

#[inline]
#[allow(clippy::too_many_arguments)]
pub fn world_to_index_f(medium: &[f32], x: f32, y: f32, z: f32, index_bits: &mut [u32]) -> u32 {
    // SAFETY: each pointer is valid for its length, and what is written is borrowed mutably, so it overlaps nothing.
    unsafe {
        c::smokegrid_world_to_index_f(
            medium.as_ptr(),
            medium.len(),
            x,
            y,
            z,
            index_bits.as_mut_ptr(),
            index_bits.len(),
        )
    }
}

#[inline]
#[allow(clippy::too_many_arguments)]
pub fn mix(grid: GridTables, medium: &[f32], x: f32, y: f32, z: f32, value: &mut f32) -> u32 {
    // SAFETY: each pointer is valid for its length, and what is written is borrowed mutably, so it overlaps nothing.
    unsafe {
        c::smokegrid_mix(
            grid.background,
            grid.blocks.as_ptr(),
            grid.blocks.len(),
            grid.root_links.as_ptr(),
            grid.root_links.len(),
            grid.root_values.as_ptr(),
            grid.root_values.len(),
            grid.upper_links.as_ptr(),
            grid.upper_links.len(),
            grid.upper_values.as_ptr(),
            grid.upper_values.len(),
            grid.lower_links.as_ptr(),
            grid.lower_links.len(),
            grid.lower_values.as_ptr(),
            grid.lower_values.len(),
            grid.leaf_values.as_ptr(),
            grid.leaf_values.len(),
            medium.as_ptr(),
            medium.len(),
            x,
            y,
            z,
            value,
        )
    }
}

#[inline]
#[allow(clippy::too_many_arguments)]
pub fn build_majorant(
    grid: GridTables,
    medium: &[f32],
    corners: &[i32],
    cells: &[u32],
    majorants: &mut [f32],
) -> u32 {
    // SAFETY: each pointer is valid for its length, and what is written is borrowed mutably, so it overlaps nothing.
    unsafe {
        c::smokegrid_build_majorant(
            grid.background,
            grid.blocks.as_ptr(),
            grid.blocks.len(),
            grid.root_links.as_ptr(),
            grid.root_links.len(),
            grid.root_values.as_ptr(),
            grid.root_values.len(),
            grid.upper_links.as_ptr(),
            grid.upper_links.len(),
            grid.upper_values.as_ptr(),
            grid.upper_values.len(),
            grid.lower_links.as_ptr(),
            grid.lower_links.len(),
            grid.lower_values.as_ptr(),
            grid.lower_values.len(),
            grid.leaf_values.as_ptr(),
            grid.leaf_values.len(),
            medium.as_ptr(),
            medium.len(),
            corners.as_ptr(),
            corners.len(),
            cells.as_ptr(),
            cells.len(),
            majorants.as_mut_ptr(),
            majorants.len(),
        )
    }
}

#[inline]
#[allow(clippy::too_many_arguments)]
pub fn load_temperature(
    bytes: &[u8],
    offset: f32,
    scale: f32,
    blocks: &mut [i32],
    root_links: &mut [u32],
    root_values: &mut [f32],
    upper_links: &mut [u32],
    upper_values: &mut [f32],
    lower_links: &mut [u32],
    lower_values: &mut [f32],
    leaf_values: &mut [f32],
    work: &mut [u64],
    counts: &mut [u64],
    background: &mut f32,
) -> u32 {
    // SAFETY: each pointer is valid for its length, and what is written is borrowed mutably, so it overlaps nothing.
    unsafe {
        c::smokegrid_load_temperature(
            bytes.as_ptr(),
            bytes.len(),
            offset,
            scale,
            blocks.as_mut_ptr(),
            blocks.len(),
            root_links.as_mut_ptr(),
            root_links.len(),
            root_values.as_mut_ptr(),
            root_values.len(),
            upper_links.as_mut_ptr(),
            upper_links.len(),
            upper_values.as_mut_ptr(),
            upper_values.len(),
            lower_links.as_mut_ptr(),
            lower_links.len(),
            lower_values.as_mut_ptr(),
            lower_values.len(),
            leaf_values.as_mut_ptr(),
            leaf_values.len(),
            work.as_mut_ptr(),
            work.len(),
            counts.as_mut_ptr(),
            counts.len(),
            background,
        )
    }
}

#[inline]
#[allow(clippy::too_many_arguments)]
pub fn get_temperature(
    present: u32,
    grid: GridTables,
    offset: f32,
    scale: f32,
    x: i32,
    y: i32,
    z: i32,
    value_bits: &mut u32,
) -> u32 {
    // SAFETY: each pointer is valid for its length, and what is written is borrowed mutably, so it overlaps nothing.
    unsafe {
        c::smokegrid_get_temperature(
            present,
            grid.background,
            grid.blocks.as_ptr(),
            grid.blocks.len(),
            grid.root_links.as_ptr(),
            grid.root_links.len(),
            grid.root_values.as_ptr(),
            grid.root_values.len(),
            grid.upper_links.as_ptr(),
            grid.upper_links.len(),
            grid.upper_values.as_ptr(),
            grid.upper_values.len(),
            grid.lower_links.as_ptr(),
            grid.lower_links.len(),
            grid.lower_values.as_ptr(),
            grid.lower_values.len(),
            grid.leaf_values.as_ptr(),
            grid.leaf_values.len(),
            offset,
            scale,
            x,
            y,
            z,
            value_bits,
        )
    }
}

#[inline]
#[allow(clippy::too_many_arguments)]
pub fn grid_part(file: &[u8], n: u64, start: &mut u64, length: &mut u64) -> u32 {
    // SAFETY: each pointer is valid for its length, and what is written is borrowed mutably, so it overlaps nothing.
    unsafe { c::smokegrid_grid_part(file.as_ptr(), file.len(), n, start, length) }
}

#[inline]
#[allow(clippy::too_many_arguments)]
pub fn grid_name(file: &[u8], n: u64, start: &mut u64, length: &mut u64) -> u32 {
    // SAFETY: each pointer is valid for its length, and what is written is borrowed mutably, so it overlaps nothing.
    unsafe { c::smokegrid_grid_name(file.as_ptr(), file.len(), n, start, length) }
}

#[inline]
#[allow(clippy::too_many_arguments)]
pub fn ray_open(
    medium: &[f32],
    cells: &[u32],
    majorants: &[f32],
    ox: f32,
    oy: f32,
    oz: f32,
    dx: f32,
    dy: f32,
    dz: f32,
    t_min: f32,
    t_max: f32,
    ray_times: &mut [f32],
    ray_cells: &mut [i32],
) -> u32 {
    // SAFETY: each pointer is valid for its length, and what is written is borrowed mutably, so it overlaps nothing.
    unsafe {
        c::smokegrid_ray_open(
            medium.as_ptr(),
            medium.len(),
            cells.as_ptr(),
            cells.len(),
            majorants.as_ptr(),
            majorants.len(),
            ox,
            oy,
            oz,
            dx,
            dy,
            dz,
            t_min,
            t_max,
            ray_times.as_mut_ptr(),
            ray_times.len(),
            ray_cells.as_mut_ptr(),
            ray_cells.len(),
        )
    }
}

#[inline]
#[allow(clippy::too_many_arguments)]
pub fn ray_next(
    majorants: &[f32],
    ray_times: &mut [f32],
    ray_cells: &mut [i32],
    more: &mut u32,
    t0: &mut f32,
    t1: &mut f32,
    figure: &mut f32,
) -> u32 {
    // SAFETY: each pointer is valid for its length, and what is written is borrowed mutably, so it overlaps nothing.
    unsafe {
        c::smokegrid_ray_next(
            majorants.as_ptr(),
            majorants.len(),
            ray_times.as_mut_ptr(),
            ray_times.len(),
            ray_cells.as_mut_ptr(),
            ray_cells.len(),
            more,
            t0,
            t1,
            figure,
        )
    }
}

#[inline]
#[allow(clippy::too_many_arguments)]
pub fn print_layer(
    majorants: &[f32],
    cells: &[u32],
    layer: u32,
    text: &mut [u8],
    written: &mut u64,
) -> u32 {
    // SAFETY: each pointer is valid for its length, and what is written is borrowed mutably, so it overlaps nothing.
    unsafe {
        c::smokegrid_print_layer(
            majorants.as_ptr(),
            majorants.len(),
            cells.as_ptr(),
            cells.len(),
            layer,
            text.as_mut_ptr(),
            text.len(),
            written,
        )
    }
}

#[inline]
#[allow(clippy::too_many_arguments)]
pub fn window_open(
    w: u32,
    cells: &[u32],
    window: &mut [u32],
    memory: &mut [f32],
    answer: &mut [f32],
) -> u32 {
    // SAFETY: each pointer is valid for its length, and what is written is borrowed mutably, so it overlaps nothing.
    unsafe {
        c::smokegrid_window_open(
            w,
            cells.as_ptr(),
            cells.len(),
            window.as_mut_ptr(),
            window.len(),
            memory.as_mut_ptr(),
            memory.len(),
            answer.as_mut_ptr(),
            answer.len(),
        )
    }
}

#[inline]
#[allow(clippy::too_many_arguments)]
pub fn window_push(
    majorants: &[f32],
    cells: &[u32],
    window: &mut [u32],
    memory: &mut [f32],
    answer: &mut [f32],
) -> u32 {
    // SAFETY: each pointer is valid for its length, and what is written is borrowed mutably, so it overlaps nothing.
    unsafe {
        c::smokegrid_window_push(
            majorants.as_ptr(),
            majorants.len(),
            cells.as_ptr(),
            cells.len(),
            window.as_mut_ptr(),
            window.len(),
            memory.as_mut_ptr(),
            memory.len(),
            answer.as_mut_ptr(),
            answer.len(),
        )
    }
}
