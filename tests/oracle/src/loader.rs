//! What is compared: the functions of smokegrid.h over slices, and the Rust modules behind them.

use crate::file;
use crate::level;
use crate::source::{self, NanoVDBMedium, SparseGridEntry, SparseGridRoot, SparseScalarGrid};
use crate::walk::{self, Places};

/// The cells that a decode writes into the record.
pub const CELLS: [u32; 3] = [64; 3];

/// The library where it is linked, unless the words ask for the Rust.
pub fn ours(words: &[String]) -> &'static dyn Loader {
    if words.iter().any(|word| word == "rust") {
        return &Rust;
    }
    #[cfg(linked)]
    return &crate::linked::Linked;
    #[cfg(not(linked))]
    return &Rust;
}

/// The figures of so many cells.
pub fn figures_of(cells: &[u32]) -> usize {
    cells.iter().map(|number| *number as usize).product()
}

/// A grid as it is handed in: link 0 is a tile with its value beside it, link k + 1 is child k.
#[derive(Clone, Copy)]
pub struct Tables<'a> {
    pub background: f32,
    pub blocks: &'a [i32],
    pub root_links: &'a [u32],
    pub root_values: &'a [f32],
    pub upper_links: &'a [u32],
    pub upper_values: &'a [f32],
    pub lower_links: &'a [u32],
    pub lower_values: &'a [f32],
    pub leaf_values: &'a [f32],
}

/// What is lent to a decode.
pub struct Lent<'a> {
    pub blocks: &'a mut [i32],
    pub root_links: &'a mut [u32],
    pub root_values: &'a mut [f32],
    pub upper_links: &'a mut [u32],
    pub upper_values: &'a mut [f32],
    pub lower_links: &'a mut [u32],
    pub lower_values: &'a mut [f32],
    pub leaf_values: &'a mut [f32],
    pub work: &'a mut [u64],
    pub counts: &'a mut [u64],
    pub background: &'a mut f32,
    pub medium: &'a mut [f32],
    pub corners: &'a mut [i32],
    pub cells: &'a mut [u32],
}

/// A number and the bits of a value.
pub type Answer = (u32, u32);

/// A number, the bits of a value, and a level: 0 background, 1 root tile, 2 upper tile, 3 lower tile, 4 leaf.
pub type Reading = (u32, u32, u32);

/// Each function answers a number, 0 where it gave a value.
pub trait Loader {
    fn decode_density_grid(&self, bytes: &[u8], lent: Lent) -> u32;
    fn validate(&self, grid: Tables) -> u32;
    fn validate_density(&self, grid: Tables) -> u32;
    fn get_values(&self, grid: Tables, coordinates: &[[i32; 3]]) -> Vec<Answer>;
    fn get_readings(&self, grid: Tables, coordinates: &[[i32; 3]]) -> Vec<Reading>;
    /// Boxes are low x, y, z and then high x, y, z.
    fn box_maxima(&self, grid: Tables, boxes: &[[i32; 6]]) -> Vec<Answer>;
    /// A list of boxes, six numbers each: their maxima, and the greatest.
    fn list_maxima(&self, grid: Tables, boxes: &[i32], maxima: &mut [f32]) -> Answer;
    fn world_to_index_f(&self, medium: &[f32], point: [f32; 3], index_bits: &mut [u32]) -> u32;
    fn build_majorant(
        &self,
        grid: Tables,
        medium: &[f32],
        corners: &[i32],
        cells: &[u32],
        majorants: &mut [f32],
    ) -> u32;
    /// The parts of a file that hold grid n and its name.
    fn grid_part(&self, file: &[u8], n: u64) -> file::Part;
    fn grid_name(&self, file: &[u8], n: u64) -> file::Part;
}

/// The Rust modules. They lend nothing and take vectors, so 1, 9 and 18 of the lengths come from
/// here; every other number and every value is theirs.
pub struct Rust;

impl Loader for Rust {
    fn decode_density_grid(&self, bytes: &[u8], mut lent: Lent) -> u32 {
        lent.clear();
        match decode(bytes, &lent) {
            Ok(medium) => {
                lent.fill(&medium);
                0
            }
            Err(number) => number,
        }
    }

    fn validate(&self, grid: Tables) -> u32 {
        number(grid.paired().and_then(|()| source::validate(&grid.sparse())))
    }

    fn validate_density(&self, grid: Tables) -> u32 {
        number(grid.paired().and_then(|()| source::validate_density(&grid.sparse())))
    }

    fn get_values(&self, grid: Tables, coordinates: &[[i32; 3]]) -> Vec<Answer> {
        let paired = grid.paired();
        let sparse = paired.map(|()| grid.sparse());
        let value =
            |at: &[i32; 3]| sparse.as_ref().map_err(|n| *n).and_then(|g| source::get_value(g, *at));
        coordinates.iter().map(|at| answer(value(at))).collect()
    }

    /// The Rust gives no level: it is that of a walk of our own down its tables, `level::of`.
    fn get_readings(&self, grid: Tables, coordinates: &[[i32; 3]]) -> Vec<Reading> {
        let sparse = grid.paired().map(|()| grid.sparse());
        let level = |at| sparse.as_ref().map_or(0, |sparse| level::of(sparse, at));
        let values = self.get_values(grid, coordinates);
        let readings = values.into_iter().zip(coordinates);
        readings
            .map(|((number, bits), at)| (number, bits, if number == 0 { level(*at) } else { 0 }))
            .collect()
    }

    fn box_maxima(&self, grid: Tables, boxes: &[[i32; 6]]) -> Vec<Answer> {
        let valid = grid.paired().and_then(|()| {
            let sparse = grid.sparse();
            source::validate(&sparse).map(|()| sparse)
        });
        let maximum = |b: &[i32; 6]| {
            let sparse = valid.as_ref().map_err(|n| *n)?;
            source::range_max(sparse, [b[0], b[1], b[2]], [b[3], b[4], b[5]])
        };
        boxes.iter().map(|b| answer(maximum(b))).collect()
    }

    /// The Rust has no list: each box by itself, with the order and the zeros of document 02, A8.
    fn list_maxima(&self, grid: Tables, boxes: &[i32], maxima: &mut [f32]) -> Answer {
        maxima.fill(0.0);
        if boxes.len() % 6 != 0 || boxes.len() / 6 != maxima.len() {
            return (18, 0);
        }
        let number = self.validate(grid);
        if number != 0 {
            return (number, 0);
        }
        let boxes: Vec<[i32; 6]> = boxes.chunks_exact(6).map(|b| b.try_into().unwrap()).collect();
        let mut greatest = 0.0f32;
        for (maximum, (_, bits)) in maxima.iter_mut().zip(self.box_maxima(grid, &boxes)) {
            *maximum = f32::from_bits(bits);
            greatest = greatest.max(*maximum);
        }
        (0, greatest.to_bits())
    }

    fn world_to_index_f(&self, medium: &[f32], point: [f32; 3], index_bits: &mut [u32]) -> u32 {
        index_bits.fill(0);
        if medium.len() != 18 || index_bits.len() != 3 {
            return 18;
        }
        let record = record(SparseScalarGrid::default(), medium, &[0; 6], CELLS);
        if source::has_map_fault(&record) {
            return 13;
        }
        let index = source::world_to_index_f(&record, point);
        index_bits.copy_from_slice(&index.map(one_nan));
        0
    }

    fn build_majorant(
        &self,
        grid: Tables,
        medium: &[f32],
        corners: &[i32],
        cells: &[u32],
        majorants: &mut [f32],
    ) -> u32 {
        majorants.fill(0.0);
        let &[x, y, z] = cells else { return 18 };
        if medium.len() != 18 || corners.len() != 6 {
            return 18;
        }
        if cells.iter().any(|number| !(1..=128).contains(number)) {
            return 23;
        }
        if majorants.len() != figures_of(cells) || grid.paired().is_err() {
            return 18;
        }
        match source::build_majorant(&record(grid.sparse(), medium, corners, [x, y, z])) {
            Ok(figures) => {
                majorants.copy_from_slice(&figures);
                0
            }
            Err(number) => number,
        }
    }

    /// The source's reader of files is not at hand: these are ours, from document 02.
    fn grid_part(&self, file: &[u8], n: u64) -> file::Part {
        file::part(file, n, |grid| grid.body.clone())
    }

    fn grid_name(&self, file: &[u8], n: u64) -> file::Part {
        file::part(file, n, |grid| grid.name.clone())
    }
}

/// A NaN that is worked out has one pattern; the source leaves it open.
pub fn one_nan(value: f32) -> u32 {
    if value.is_nan() {
        0x7fc00000
    } else {
        value.to_bits()
    }
}

fn number(result: Result<(), u32>) -> u32 {
    result.err().unwrap_or(0)
}

fn answer(result: Result<f32, u32>) -> Answer {
    result.map_or_else(|number| (number, 0), |value| (0, value.to_bits()))
}

/// 18, 1, and 9 where the lent places run out before another fault is met. The header's faults (2,
/// 3 and 4) come before any place is used.
fn decode(bytes: &[u8], lent: &Lent) -> Result<NanoVDBMedium, u32> {
    decoded_into(bytes, lent.passes(), lent, source::decode_density_grid)
}

/// The same of any decode of the source, once it is known whether the lengths pass.
pub fn decoded_into<T>(
    bytes: &[u8],
    passes: bool,
    lent: &Lent,
    decode: impl FnOnce(&[u8]) -> Result<T, u32>,
) -> Result<T, u32> {
    if !passes {
        return Err(18);
    }
    if bytes.len() > u32::MAX as usize {
        return Err(1);
    }
    let result = decode(bytes);
    if matches!(result, Err(2..=4)) {
        return result;
    }
    match walk::reach(bytes, lent.places()) {
        (9, _) => Err(9),
        _ => result,
    }
}

/// The medium record of a grid, from the 18 floats, the 6 index corners and the 3 numbers of cells.
pub fn record(
    density: SparseScalarGrid,
    medium: &[f32],
    corners: &[i32],
    cells: [u32; 3],
) -> NanoVDBMedium {
    let three = |at: usize| [medium[at], medium[at + 1], medium[at + 2]];
    NanoVDBMedium {
        density,
        temperature: None,
        temperature_offset: 0.0,
        temperature_scale: 1.0,
        le_scale: 1.0,
        index_bbox_min: [corners[0], corners[1], corners[2]],
        index_bbox_max: [corners[3], corners[4], corners[5]],
        inverse_map_f: [three(6), three(9), three(12)],
        translation_f: three(15),
        bounds_min: three(0),
        bounds_max: three(3),
        majorant_resolution: cells,
        majorant: Vec::new(),
    }
}

impl Tables<'_> {
    /// 18 for paired tables of unequal length and for blocks that are not three a root.
    fn paired(&self) -> Result<(), u32> {
        let paired = self.root_links.len() == self.root_values.len()
            && self.upper_links.len() == self.upper_values.len()
            && self.lower_links.len() == self.lower_values.len()
            && self.blocks.len() == 3 * self.root_links.len();
        if paired {
            Ok(())
        } else {
            Err(18)
        }
    }

    pub fn sparse(&self) -> SparseScalarGrid {
        let entry = |link: &u32, value: &f32| SparseGridEntry {
            child_index: link.checked_sub(1),
            value: *value,
        };
        let entries = |links: &[u32], values: &[f32]| -> Vec<SparseGridEntry> {
            links.iter().zip(values).map(|(link, value)| entry(link, value)).collect()
        };
        let roots = self.blocks.chunks_exact(3).zip(entries(self.root_links, self.root_values));
        SparseScalarGrid {
            background: self.background,
            roots: roots
                .map(|(b, entry)| SparseGridRoot { block: [b[0], b[1], b[2]], entry })
                .collect(),
            upper_entries: entries(self.upper_links, self.upper_values),
            lower_entries: entries(self.lower_links, self.lower_values),
            leaf_values: self.leaf_values.to_vec(),
        }
    }
}

impl Lent<'_> {
    pub fn paired(&self) -> bool {
        self.root_links.len() == self.root_values.len()
            && self.upper_links.len() == self.upper_values.len()
            && self.lower_links.len() == self.lower_values.len()
            && self.blocks.len() == 3 * self.root_links.len()
    }

    fn passes(&self) -> bool {
        self.paired()
            && self.counts.len() == 4
            && self.medium.len() == 18
            && self.corners.len() == 6
            && self.cells.len() == 3
    }

    /// Whole places alone count.
    fn places(&self) -> Places {
        Places {
            roots: self.root_links.len(),
            nodes: [
                self.leaf_values.len() / walk::entries(0),
                self.lower_links.len() / walk::entries(1),
                self.upper_links.len() / walk::entries(2),
            ],
            spans: self.work.len() / 4,
        }
    }

    pub fn clear(&mut self) {
        self.blocks.fill(0);
        self.root_links.fill(0);
        self.root_values.fill(0.0);
        self.upper_links.fill(0);
        self.upper_values.fill(0.0);
        self.lower_links.fill(0);
        self.lower_values.fill(0.0);
        self.leaf_values.fill(0.0);
        self.work.fill(0);
        self.counts.fill(0);
        *self.background = 0.0;
        self.medium.fill(0.0);
        self.corners.fill(0);
        self.cells.fill(0);
    }

    /// Tables, counts and background.
    pub fn fill_grid(&mut self, grid: &SparseScalarGrid) {
        let blocks = grid.roots.iter().flat_map(|root| root.block);
        self.blocks.iter_mut().zip(blocks).for_each(|(place, number)| *place = number);
        let roots = grid.roots.iter().map(|root| &root.entry);
        put(roots, self.root_links, self.root_values);
        put(grid.upper_entries.iter(), self.upper_links, self.upper_values);
        put(grid.lower_entries.iter(), self.lower_links, self.lower_values);
        let leaves = self.leaf_values.iter_mut().zip(&grid.leaf_values);
        leaves.for_each(|(place, value)| *place = *value);
        let nodes = |length: usize, level: usize| (length / walk::entries(level)) as u64;
        self.counts.copy_from_slice(&[
            grid.roots.len() as u64,
            nodes(grid.upper_entries.len(), 2),
            nodes(grid.lower_entries.len(), 1),
            nodes(grid.leaf_values.len(), 0),
        ]);
        *self.background = grid.background;
    }

    fn fill(&mut self, medium: &NanoVDBMedium) {
        self.fill_grid(&medium.density);
        self.medium[..3].copy_from_slice(&medium.bounds_min);
        self.medium[3..6].copy_from_slice(&medium.bounds_max);
        self.medium[6..15].copy_from_slice(medium.inverse_map_f.as_flattened());
        self.medium[15..].copy_from_slice(&medium.translation_f);
        self.corners[..3].copy_from_slice(&medium.index_bbox_min);
        self.corners[3..].copy_from_slice(&medium.index_bbox_max);
        self.cells.copy_from_slice(&medium.majorant_resolution);
    }
}

/// Entries as links and values, as far as the tables go.
fn put<'a>(
    entries: impl Iterator<Item = &'a SparseGridEntry>,
    links: &mut [u32],
    values: &mut [f32],
) {
    for ((entry, link), value) in entries.zip(links).zip(values) {
        *link = entry.child_index.map_or(0, |child| child + 1);
        *value = entry.value;
    }
}

/// How long each lent table is.
#[derive(Clone, Copy, Debug, PartialEq)]
pub struct Lengths {
    pub blocks: usize,
    pub root_links: usize,
    pub root_values: usize,
    pub upper_links: usize,
    pub upper_values: usize,
    pub lower_links: usize,
    pub lower_values: usize,
    pub leaf_values: usize,
    pub work: usize,
    pub counts: usize,
    pub medium: usize,
    pub corners: usize,
    pub cells: usize,
}

impl Lengths {
    /// Exactly as long as these places.
    pub fn of(places: Places) -> Self {
        let [leaf, lower, upper] =
            [0, 1, 2].map(|level| places.nodes[level] * walk::entries(level));
        Lengths {
            blocks: 3 * places.roots,
            root_links: places.roots,
            root_values: places.roots,
            upper_links: upper,
            upper_values: upper,
            lower_links: lower,
            lower_values: lower,
            leaf_values: leaf,
            work: 4 * places.spans,
            counts: 4,
            medium: 18,
            corners: 6,
            cells: 3,
        }
    }
}

/// A table with words before and after it that nobody may write.
pub struct Guarded<T> {
    all: Vec<T>,
    fill: T,
}

const GUARD: usize = 4;

impl<T: Copy + PartialEq> Guarded<T> {
    fn new(length: usize, fill: T) -> Self {
        Guarded { all: vec![fill; length + 2 * GUARD], fill }
    }

    pub fn table(&self) -> &[T] {
        &self.all[GUARD..self.all.len() - GUARD]
    }

    fn table_mut(&mut self) -> &mut [T] {
        let end = self.all.len() - GUARD;
        &mut self.all[GUARD..end]
    }

    fn intact(&self) -> bool {
        let end = self.all.len() - GUARD;
        self.all[..GUARD].iter().chain(&self.all[end..]).all(|word| *word == self.fill)
    }
}

/// The tables of one decode, filled with a pattern beforehand so that what is left unwritten shows.
pub struct Held {
    pub blocks: Guarded<i32>,
    pub root_links: Guarded<u32>,
    pub root_values: Guarded<f32>,
    pub upper_links: Guarded<u32>,
    pub upper_values: Guarded<f32>,
    pub lower_links: Guarded<u32>,
    pub lower_values: Guarded<f32>,
    pub leaf_values: Guarded<f32>,
    pub work: Guarded<u64>,
    pub counts: Guarded<u64>,
    pub background: f32,
    pub medium: Guarded<f32>,
    pub corners: Guarded<i32>,
    pub cells: Guarded<u32>,
}

impl Held {
    pub fn new(lengths: Lengths) -> Self {
        let bits = 0x5a5a5a5au32;
        let value = f32::from_bits(bits);
        Held {
            blocks: Guarded::new(lengths.blocks, bits as i32),
            root_links: Guarded::new(lengths.root_links, bits),
            root_values: Guarded::new(lengths.root_values, value),
            upper_links: Guarded::new(lengths.upper_links, bits),
            upper_values: Guarded::new(lengths.upper_values, value),
            lower_links: Guarded::new(lengths.lower_links, bits),
            lower_values: Guarded::new(lengths.lower_values, value),
            leaf_values: Guarded::new(lengths.leaf_values, value),
            work: Guarded::new(lengths.work, u64::from(bits)),
            counts: Guarded::new(lengths.counts, u64::from(bits)),
            background: value,
            medium: Guarded::new(lengths.medium, value),
            corners: Guarded::new(lengths.corners, bits as i32),
            cells: Guarded::new(lengths.cells, bits),
        }
    }

    pub fn lent(&mut self) -> Lent<'_> {
        Lent {
            blocks: self.blocks.table_mut(),
            root_links: self.root_links.table_mut(),
            root_values: self.root_values.table_mut(),
            upper_links: self.upper_links.table_mut(),
            upper_values: self.upper_values.table_mut(),
            lower_links: self.lower_links.table_mut(),
            lower_values: self.lower_values.table_mut(),
            leaf_values: self.leaf_values.table_mut(),
            work: self.work.table_mut(),
            counts: self.counts.table_mut(),
            background: &mut self.background,
            medium: self.medium.table_mut(),
            corners: self.corners.table_mut(),
            cells: self.cells.table_mut(),
        }
    }

    /// Nothing was written outside the tables.
    pub fn intact(&self) -> bool {
        self.blocks.intact()
            && self.root_links.intact()
            && self.root_values.intact()
            && self.upper_links.intact()
            && self.upper_values.intact()
            && self.lower_links.intact()
            && self.lower_values.intact()
            && self.leaf_values.intact()
            && self.work.intact()
            && self.counts.intact()
            && self.medium.intact()
            && self.corners.intact()
            && self.cells.intact()
    }

    /// Each table's name and words, floats by their bits.
    pub fn words(&self) -> [(&'static str, Words<'_>); 14] {
        [
            ("counts", Words::Long(self.counts.table())),
            ("background", Words::Float(std::slice::from_ref(&self.background))),
            ("medium", Words::Float(self.medium.table())),
            ("corners", Words::Signed(self.corners.table())),
            ("cells", Words::Word(self.cells.table())),
            ("blocks", Words::Signed(self.blocks.table())),
            ("root_links", Words::Word(self.root_links.table())),
            ("root_values", Words::Float(self.root_values.table())),
            ("upper_links", Words::Word(self.upper_links.table())),
            ("upper_values", Words::Float(self.upper_values.table())),
            ("lower_links", Words::Word(self.lower_links.table())),
            ("lower_values", Words::Float(self.lower_values.table())),
            ("leaf_values", Words::Float(self.leaf_values.table())),
            ("work", Words::Long(self.work.table())),
        ]
    }

    /// The accepted grid: the used part of each table.
    pub fn grid(&self) -> Grid {
        let [roots, upper, lower, leaf] = [0, 1, 2, 3].map(|i| self.counts.table()[i] as usize);
        let [upper, lower, leaf] =
            [upper * walk::entries(2), lower * walk::entries(1), leaf * walk::entries(0)];
        Grid {
            background: self.background,
            blocks: self.blocks.table()[..3 * roots].to_vec(),
            root_links: self.root_links.table()[..roots].to_vec(),
            root_values: self.root_values.table()[..roots].to_vec(),
            upper_links: self.upper_links.table()[..upper].to_vec(),
            upper_values: self.upper_values.table()[..upper].to_vec(),
            lower_links: self.lower_links.table()[..lower].to_vec(),
            lower_values: self.lower_values.table()[..lower].to_vec(),
            leaf_values: self.leaf_values.table()[..leaf].to_vec(),
            medium: self.medium.table().to_vec(),
            corners: self.corners.table().to_vec(),
            cells: self.cells.table().to_vec(),
        }
    }
}

pub enum Words<'a> {
    Signed(&'a [i32]),
    Word(&'a [u32]),
    Long(&'a [u64]),
    Float(&'a [f32]),
}

impl Words<'_> {
    pub fn len(&self) -> usize {
        match self {
            Words::Signed(t) => t.len(),
            Words::Word(t) => t.len(),
            Words::Long(t) => t.len(),
            Words::Float(t) => t.len(),
        }
    }

    pub fn is_empty(&self) -> bool {
        self.len() == 0
    }

    /// Word i as 64 bits.
    pub fn at(&self, i: usize) -> u64 {
        match self {
            Words::Signed(t) => u64::from(t[i] as u32),
            Words::Word(t) => u64::from(t[i]),
            Words::Long(t) => t[i],
            Words::Float(t) => u64::from(t[i].to_bits()),
        }
    }
}

/// An accepted grid with its medium record, owned.
#[derive(Clone)]
pub struct Grid {
    pub background: f32,
    pub blocks: Vec<i32>,
    pub root_links: Vec<u32>,
    pub root_values: Vec<f32>,
    pub upper_links: Vec<u32>,
    pub upper_values: Vec<f32>,
    pub lower_links: Vec<u32>,
    pub lower_values: Vec<f32>,
    pub leaf_values: Vec<f32>,
    pub medium: Vec<f32>,
    pub corners: Vec<i32>,
    pub cells: Vec<u32>,
}

impl Grid {
    /// The build with the cells of the record.
    pub fn build(&self, loader: &dyn Loader, figures: &mut [f32]) -> u32 {
        loader.build_majorant(self.tables(), &self.medium, &self.corners, &self.cells, figures)
    }

    pub fn tables(&self) -> Tables<'_> {
        Tables {
            background: self.background,
            blocks: &self.blocks,
            root_links: &self.root_links,
            root_values: &self.root_values,
            upper_links: &self.upper_links,
            upper_values: &self.upper_values,
            lower_links: &self.lower_links,
            lower_values: &self.lower_values,
            leaf_values: &self.leaf_values,
        }
    }
}

/// A decode with tables of these lengths: the number, and what the tables hold then.
pub fn decode_into(loader: &dyn Loader, bytes: &[u8], lengths: Lengths) -> (u32, Held) {
    let mut held = Held::new(lengths);
    let number = loader.decode_density_grid(bytes, held.lent());
    (number, held)
}
