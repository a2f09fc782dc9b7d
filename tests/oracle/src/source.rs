//! The functions of the two Rust modules with numbers for messages.

use crate::gpu::flat::flatten::any_cells;
pub use crate::gpu::flat::flatten::nanovdb::reach::majorant_index;
pub use crate::gpu::flat::flatten::nanovdb::world_to_index_f;
use crate::gpu::flat::flatten::nanovdb::{self, reach};
pub use crate::gpu::flat::medium::NanoVDBMedium;
pub use crate::gpu::flat::sparse_grid::{SparseGridEntry, SparseGridRoot, SparseScalarGrid};
use crate::numbers::{number_of, numbers_of, UNKNOWN};
use crate::util::error::PbrtError;
use crate::walk::u64_at;
use std::borrow::Cow;
use std::panic::{catch_unwind, set_hook, take_hook, AssertUnwindSafe};
use std::sync::Once;

fn numbered<T>(result: Result<T, PbrtError>) -> Result<T, u32> {
    result.map_err(|e| number_of(&e.to_string()))
}

/// Runs what may panic. The message of a panic is not printed.
fn caught<T>(run: impl FnOnce() -> T) -> Option<T> {
    static QUIET: Once = Once::new();
    thread_local!(static WITHIN: std::cell::Cell<bool> = const { std::cell::Cell::new(false) });
    QUIET.call_once(|| {
        let loud = take_hook();
        set_hook(Box::new(move |panic| {
            if !WITHIN.get() {
                loud(panic)
            }
        }));
    });
    WITHIN.set(true);
    let result = catch_unwind(AssertUnwindSafe(run)).ok();
    WITHIN.set(false);
    result
}

/// `root + 24` passes 2^64: where overflow is checked the Rust panics here, and the number is 5.
fn root_overflows(bytes: &[u8]) -> bool {
    let offset = bytes.get(696..704).map(|b| u64::from_le_bytes(b.try_into().unwrap()));
    offset.is_some_and(|offset| offset.checked_add(672 + 24).is_none())
}

fn decoded<T>(bytes: &[u8], decode: impl FnOnce() -> Result<T, PbrtError>) -> Result<T, u32> {
    match caught(decode) {
        Some(result) => numbered(result),
        None if root_overflows(bytes) => Err(5),
        None => Err(UNKNOWN),
    }
}

/// The marks that a grid may begin with: "NanoVDB0" and "NanoVDB1".
pub const MARKS: [u64; 2] = [0x304244566f6e614e, 0x314244566f6e614e];

pub fn has_newer_mark(bytes: &[u8]) -> bool {
    bytes.len() >= 8 && u64_at(bytes, 0) == MARKS[1]
}

/// The Rust knows the older mark alone: it gets the newer one rewritten (document 02, A1).
fn with_older_mark(bytes: &[u8]) -> Cow<'_, [u8]> {
    if !has_newer_mark(bytes) {
        return Cow::Borrowed(bytes);
    }
    let mut older = bytes.to_vec();
    older[..8].copy_from_slice(&MARKS[0].to_le_bytes());
    Cow::Owned(older)
}

pub fn decode_density_grid(bytes: &[u8]) -> Result<NanoVDBMedium, u32> {
    let bytes = with_older_mark(bytes);
    decoded(&bytes, || nanovdb::decode_density_grid(&bytes))
}

/// Everything but the test for negative densities.
pub fn decode_scalar_grid(bytes: &[u8]) -> Result<SparseScalarGrid, u32> {
    let bytes = with_older_mark(bytes);
    decoded(&bytes, || reach::decode_scalar_grid(&bytes).map(|(grid, _)| grid.values))
}

pub fn validate(grid: &SparseScalarGrid) -> Result<(), u32> {
    numbered(grid.validate())
}

pub fn validate_density(grid: &SparseScalarGrid) -> Result<(), u32> {
    numbered(grid.validate_density())
}

pub fn get_value(grid: &SparseScalarGrid, coordinate: [i32; 3]) -> Result<f32, u32> {
    numbered(grid.get_value(coordinate))
}

/// The maximum over a box of a grid that passed `validate`; a zero is +0.0.
pub fn range_max(grid: &SparseScalarGrid, lo: [i32; 3], hi: [i32; 3]) -> Result<f32, u32> {
    numbered(reach::range_max(grid, lo, hi)).map(positive_zero)
}

/// The figures of the cells; a zero is +0.0. The source knows 64 on each axis alone; elsewhere its copy for any cells answers.
pub fn build_majorant(medium: &NanoVDBMedium) -> Result<Vec<f32>, u32> {
    let build = match medium.majorant_resolution {
        [64, 64, 64] => nanovdb::build_majorant,
        _ => any_cells::build_majorant,
    };
    match caught(|| build(medium)) {
        Some(Ok(figures)) => Ok(figures.into_iter().map(positive_zero).collect()),
        Some(Err(e)) => Err(build_number(medium, &e.to_string())),
        None => Err(UNKNOWN),
    }
}

/// The source leaves the sign of a zero maximum open.
fn positive_zero(value: f32) -> f32 {
    if value == 0.0 {
        0.0
    } else {
        value
    }
}

/// The build has one message for 4, 14 and 13: the first of them, in this order, that the record
/// has on any axis.
fn build_number(medium: &NanoVDBMedium, message: &str) -> u32 {
    match numbers_of(message) {
        [number] => *number,
        numbers => *numbers.iter().find(|n| record_fault(medium, **n)).unwrap_or(&UNKNOWN),
    }
}

fn record_fault(medium: &NanoVDBMedium, number: u32) -> bool {
    (0..3).any(|axis| match number {
        4 => world_fault(medium.bounds_min[axis], medium.bounds_max[axis]),
        14 => medium.index_bbox_min[axis] > medium.index_bbox_max[axis],
        _ => map_fault(medium, axis),
    })
}

fn world_fault(min: f32, max: f32) -> bool {
    !(min.is_finite() && max.is_finite() && min < max && (max - min).is_finite())
}

fn map_fault(medium: &NanoVDBMedium, row: usize) -> bool {
    !medium.translation_f[row].is_finite()
        || (0..3).any(|column| {
            let place = medium.inverse_map_f[row][column];
            !place.is_finite() || if row == column { place <= 0.0 } else { place != 0.0 }
        })
}

/// 13 in the map or the translation, on any axis.
pub fn has_map_fault(medium: &NanoVDBMedium) -> bool {
    record_fault(medium, 13)
}
