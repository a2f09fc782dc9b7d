//! A temperature grid beside a density grid.

use crate::ffi;
use crate::grid::lend;
use crate::refusal::Refusal;
use crate::tables::{Places, Tables};

/// A temperature grid that the library accepted: tables of its own, and how a value of it is read.
#[derive(Clone, Debug)]
pub struct Temperature {
    tables: Tables,
    used: Places,
    offset: f32,
    scale: f32,
}

impl Temperature {
    /// A raw grid, of which values below zero pass; 27 for an offset or a scale that is not finite, once the grid has loaded.
    pub fn load(bytes: &[u8], offset: f32, scale: f32) -> Result<Self, Refusal> {
        lend(bytes, |places| load_into(bytes, offset, scale, places))
    }

    /// The bytes of its tables.
    pub fn table_bytes(&self) -> usize {
        self.used.table_bytes()
    }

    /// (value - offset) * scale at a coordinate of this grid.
    pub fn at(&self, coordinate: [i32; 3]) -> Result<f32, Refusal> {
        read(1, &self.tables, self.offset, self.scale, coordinate)
    }
}

/// What is read where there is no such grid, beside any tables.
pub fn none(tables: &Tables, coordinate: [i32; 3]) -> Result<f32, Refusal> {
    read(0, tables, 0.0, 0.0, coordinate)
}

fn read(
    present: u32,
    tables: &Tables,
    offset: f32,
    scale: f32,
    coordinate: [i32; 3],
) -> Result<f32, Refusal> {
    let mut bits = 0;
    Refusal::check(ffi::get_temperature(present, tables, offset, scale, coordinate, &mut bits))
        .map(|()| f32::from_bits(bits))
}

/// A load with places for so much, and a work table to match.
fn load_into(
    bytes: &[u8],
    offset: f32,
    scale: f32,
    places: Places,
) -> Result<Temperature, Refusal> {
    let mut tables = Tables::new(places);
    let mut work = vec![0; places.work_words(bytes)];
    let mut counts = [0; 4];
    let number = ffi::load_temperature(bytes, offset, scale, &mut tables, &mut work, &mut counts);
    Refusal::check(number)?;
    let [roots, upper, lower, leaf] = counts.map(|count| count as usize);
    let used = Places { roots, nodes: [upper, lower, leaf] };
    tables.truncate(used);
    Ok(Temperature { tables, used, offset, scale })
}
