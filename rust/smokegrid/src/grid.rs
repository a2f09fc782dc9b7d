//! An accepted grid, its medium record, and what can be asked of it.

use crate::contents::grid_part;
use crate::ffi::{self, Record};
use crate::level::{Level, Reading};
use crate::load::Load;
use crate::majorant::{table_length, Majorant};
use crate::ray::{Beam, Pieces};
use crate::refusal::Refusal;
use crate::tables::{Places, Tables};
use crate::temperature::{self, Temperature};

/// A grid that the library accepted. It owns its tables and keeps nothing of the bytes.
#[derive(Clone, Debug)]
pub struct Grid {
    tables: Tables,
    used: Places,
    medium: [f32; 18],
    corners: [i32; 6],
    cells: [u32; 3],
    temperature: Option<Temperature>,
}

/// How many roots and nodes a grid has.
#[derive(Clone, Copy, Debug, PartialEq, Eq)]
pub struct Counts {
    pub roots: usize,
    pub upper: usize,
    pub lower: usize,
    pub leaf: usize,
}

/// Where a grid stands in the world. Both boxes have their ends inside.
#[derive(Clone, Copy, Debug, PartialEq)]
pub struct Medium {
    pub world_min: [f32; 3],
    pub world_max: [f32; 3],
    /// Row after row, from world to index.
    pub inverse_map: [[f32; 3]; 3],
    pub translation: [f32; 3],
    pub index_min: [i32; 3],
    pub index_max: [i32; 3],
    /// The cells that `build_majorant` cuts the world box into on each axis.
    pub cells: [u32; 3],
}

/// The maxima of a list of boxes.
#[derive(Clone, Debug, PartialEq)]
pub struct Maxima {
    /// One for each box, in order.
    pub each: Vec<f32>,
    /// The greatest of them, and zero where there is none: the greatest density in the boxes together.
    pub greatest: f32,
}

/// More tiles than lent root places, or no place for a node or a span.
const NO_PLACE: u32 = 9;

/// Tables of so many bytes are lent to any bytes, longer ones where the header and the root pass.
const LENT_AT_ONCE: usize = 64 * 1024;

impl Grid {
    /// Decodes one raw grid. Whatever the bytes say, no more than four times their length is lent:
    /// tables for the node counts that they state, and where those are wrong, for the most nodes
    /// that they can hold.
    pub fn decode(bytes: &[u8]) -> Result<Grid, Refusal> {
        lend(bytes, |places| decode_into(bytes, places))
    }

    /// Decodes grid n of a whole .nvdb file, counted from 0 through all its segments: the file's refusal (19, 20, 21), or what
    /// `decode` answers for the bytes of that grid alone.
    pub fn from_file(file: &[u8], n: u64) -> Result<Grid, Refusal> {
        Grid::decode(grid_part(file, n)?)
    }

    /// With a second grid for temperature beside it, one raw grid of any box and map: a reading is (value - offset) * scale. The density
    /// grid, its record and every figure stay as they are. A refusal of the second grid drops this one too.
    pub fn with_temperature(
        mut self,
        bytes: &[u8],
        offset: f32,
        scale: f32,
    ) -> Result<Grid, Refusal> {
        self.temperature = Some(Temperature::load(bytes, offset, scale)?);
        Ok(self)
    }

    pub fn has_temperature(&self) -> bool {
        self.temperature.is_some()
    }

    pub fn counts(&self) -> Counts {
        let [upper, lower, leaf] = self.used.nodes;
        Counts { roots: self.used.roots, upper, lower, leaf }
    }

    /// What a coordinate in no root block reads.
    pub fn background(&self) -> f32 {
        self.tables.background
    }

    pub fn medium(&self) -> Medium {
        let three = |at: usize| [self.medium[at], self.medium[at + 1], self.medium[at + 2]];
        let corner = |at: usize| [self.corners[at], self.corners[at + 1], self.corners[at + 2]];
        Medium {
            world_min: three(0),
            world_max: three(3),
            inverse_map: [three(6), three(9), three(12)],
            translation: three(15),
            index_min: corner(0),
            index_max: corner(3),
            cells: self.cells,
        }
    }

    /// The bytes of its tables.
    pub fn table_bytes(&self) -> usize {
        self.used.table_bytes()
    }

    /// The bytes of the tables of its temperature grid, and 0 where there is none.
    pub fn temperature_bytes(&self) -> usize {
        self.temperature.as_ref().map_or(0, Temperature::table_bytes)
    }

    pub fn validate(&self) -> Result<(), Refusal> {
        Refusal::check(ffi::validate(&self.tables))
    }

    pub fn validate_density(&self) -> Result<(), Refusal> {
        Refusal::check(ffi::validate_density(&self.tables))
    }

    /// The density at a voxel.
    #[inline]
    pub fn get_value(&self, coordinate: [i32; 3]) -> Result<f32, Refusal> {
        value(|place| ffi::get_value(&self.tables, coordinate, place))
    }

    /// The density at a voxel, and the level that it is read at.
    pub fn reading(&self, coordinate: [i32; 3]) -> Result<Reading, Refusal> {
        let mut level = 0;
        let value = value(|place| ffi::get_reading(&self.tables, coordinate, place, &mut level))?;
        Ok(Reading { value, level: Level::of(level) })
    }

    /// The temperature at a voxel of the temperature grid, and 0 where there is none.
    pub fn temperature(&self, coordinate: [i32; 3]) -> Result<f32, Refusal> {
        match &self.temperature {
            Some(temperature) => temperature.at(coordinate),
            None => temperature::none(&self.tables, coordinate),
        }
    }

    /// The greatest of zero and the densities from `low` to `high`, ends included.
    pub fn box_maximum(&self, low: [i32; 3], high: [i32; 3]) -> Result<f32, Refusal> {
        value(|place| ffi::box_maximum(&self.tables, low, high, place))
    }

    /// The same, by the same walk, and how much was read for it.
    pub fn box_maximum_counted(&self, low: [i32; 3], high: [i32; 3]) -> Result<Load, Refusal> {
        let mut counts = [0; 5];
        let value =
            value(|place| ffi::box_maximum_counted(&self.tables, low, high, place, &mut counts))?;
        Ok(Load::new(value, counts))
    }

    /// How many coordinates of a box, ends included, lie below the first limit, between each pair (lower end included), and at or
    /// above the last: one count for each class, so one more than there are limits.
    pub fn classes(
        &self,
        limits: &[f32],
        low: [i32; 3],
        high: [i32; 3],
    ) -> Result<Vec<u64>, Refusal> {
        let mut counts = [0; 17];
        Refusal::check(ffi::count_classes(&self.tables, limits, low, high, &mut counts))?;
        Ok(counts[..=limits.len()].to_vec())
    }

    /// The maximum for each box of a list, from its low voxel to its high one. The grid is validated once, where each single call
    /// validates it anew.
    pub fn box_maxima(&self, boxes: &[([i32; 3], [i32; 3])]) -> Result<Maxima, Refusal> {
        let mut numbers = Vec::with_capacity(6 * boxes.len());
        for (low, high) in boxes {
            numbers.extend_from_slice(low);
            numbers.extend_from_slice(high);
        }
        let mut each = vec![0.0; boxes.len()];
        let greatest = value(|place| ffi::box_maxima(&self.tables, &numbers, &mut each, place))?;
        Ok(Maxima { each, greatest })
    }

    /// The index position of a world point.
    pub fn world_to_index_f(&self, point: [f32; 3]) -> Result<[f32; 3], Refusal> {
        let mut bits = [0; 3];
        Refusal::check(ffi::world_to_index_f(&self.medium, point, &mut bits))?;
        Ok(bits.map(f32::from_bits))
    }

    /// The density between voxels at a world point: the eight voxels around it, mixed along z, then y, then x.
    pub fn mix(&self, point: [f32; 3]) -> Result<f32, Refusal> {
        value(|place| ffi::mix(&self.tables, &self.medium, point, place))
    }

    /// The figures of the cells of the world box, as many as stand in the record: 64 on each axis.
    pub fn build_majorant(&self) -> Result<Majorant, Refusal> {
        self.build_majorant_with(self.cells)
    }

    /// The same with other numbers of cells on x, y and z, from 1 to 128 each.
    pub fn build_majorant_with(&self, cells: [u32; 3]) -> Result<Majorant, Refusal> {
        let mut figures = vec![0.0; table_length(cells)];
        let number =
            ffi::build_majorant(&self.tables, &self.medium, &self.corners, &cells, &mut figures);
        Refusal::check(number).map(|()| Majorant::new(cells, figures))
    }

    /// The pieces of a ray through the figures of a build.
    pub fn ray<'a>(&self, cells: &'a Majorant, beam: &Beam) -> Result<Pieces<'a>, Refusal> {
        Pieces::open(&self.medium, cells.cells(), cells.figures(), beam)
    }
}

/// Lends places for what the bytes state, and where that is wrong, for the most that they can hold.
pub(crate) fn lend<T>(
    bytes: &[u8],
    load: impl Fn(Places) -> Result<T, Refusal>,
) -> Result<T, Refusal> {
    let stated = Places::stated(bytes);
    if stated.table_bytes() > LENT_AT_ONCE {
        // With no table but two spans, only a grid with tiles, whose header and root pass, is 9.
        match load(Places::default()) {
            Err(refusal) if refusal.number() == NO_PLACE => (),
            answer => return answer,
        }
    }
    match load(stated) {
        Err(refusal) if refusal.number() == NO_PLACE => load(Places::most(bytes)),
        answer => answer,
    }
}

#[inline]
fn value(call: impl FnOnce(&mut f32) -> u32) -> Result<f32, Refusal> {
    let mut value = 0.0;
    Refusal::check(call(&mut value)).map(|()| value)
}

/// A decode with places for so much, and a work table to match.
fn decode_into(bytes: &[u8], places: Places) -> Result<Grid, Refusal> {
    let mut tables = Tables::new(places);
    let mut work = vec![0; places.work_words(bytes)];
    let mut record = Record::default();
    Refusal::check(ffi::decode_density_grid(bytes, &mut tables, &mut work, &mut record))?;
    let [roots, upper, lower, leaf] = record.counts.map(|count| count as usize);
    let used = Places { roots, nodes: [upper, lower, leaf] };
    tables.truncate(used);
    let Record { medium, corners, cells, .. } = record;
    Ok(Grid { tables, used, medium, corners, cells, temperature: None })
}
