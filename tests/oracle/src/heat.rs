//! Temperature beside density, from document 02's words (A12): a load over the source's `decode_scalar_grid`, and a reading over its
//! `get_value`. 27, the zeros after it and the arithmetic are ours.

use crate::loader::{decoded_into, one_nan, Answer, Lent, Loader, Rust, Tables};
use crate::source;

/// The two functions of smokegrid.h. A load writes neither medium, corners nor cells.
pub trait Heater {
    fn load_temperature(&self, bytes: &[u8], offset: f32, scale: f32, lent: Lent) -> u32;
    fn get_temperature(
        &self,
        present: u32,
        grid: Tables,
        offset: f32,
        scale: f32,
        at: [i32; 3],
    ) -> Answer;
}

/// The bits of a value as a temperature.
pub fn degrees(value: f32, offset: f32, scale: f32) -> u32 {
    one_nan((value - offset) * scale)
}

fn factors_pass(offset: f32, scale: f32) -> bool {
    offset.is_finite() && scale.is_finite()
}

impl Heater for Rust {
    fn load_temperature(&self, bytes: &[u8], offset: f32, scale: f32, mut lent: Lent) -> u32 {
        lent.clear();
        let paired = lent.counts.len() == 4 && lent.paired();
        match decoded_into(bytes, paired, &lent, source::decode_scalar_grid) {
            Ok(_) if !factors_pass(offset, scale) => 27,
            Ok(grid) => {
                lent.fill_grid(&grid);
                0
            }
            Err(number) => number,
        }
    }

    fn get_temperature(
        &self,
        present: u32,
        grid: Tables,
        offset: f32,
        scale: f32,
        at: [i32; 3],
    ) -> Answer {
        if present == 0 {
            return (0, 0);
        }
        if !factors_pass(offset, scale) {
            return (27, 0);
        }
        match self.get_values(grid, &[at])[0] {
            (0, bits) => (0, degrees(f32::from_bits(bits), offset, scale)),
            (number, _) => (number, 0),
        }
    }
}
