//! What a whole .nvdb file holds, and the parts of its bytes.

use crate::ffi;
use crate::refusal::Refusal;
use std::borrow::Cow;
use std::ops::Range;

/// The header of a segment, and an entry without its name.
const HEADER: usize = 16;
const ENTRY: usize = 176;

/// Where a header keeps the count of its grids, and an entry the length of its name.
const GRID_COUNT: usize = 12;
const NAME_LENGTH: usize = 136;

/// The grids of a file, counted from 0 through all its segments.
#[derive(Clone, Debug, PartialEq, Eq)]
pub struct Contents<'a> {
    grids: Vec<Listed<'a>>,
}

/// A grid of a file.
#[derive(Clone, Debug, PartialEq, Eq)]
pub struct Listed<'a> {
    /// Its number, by which `Grid::from_file` takes it.
    pub index: usize,
    /// The bytes of its name, with the zero byte that ends it in most files.
    pub name: &'a [u8],
    /// Where its bytes stand in the file.
    pub place: Range<usize>,
}

impl Listed<'_> {
    /// How many bytes it has.
    pub fn size(&self) -> usize {
        self.place.len()
    }

    /// Its name up to the first zero byte.
    pub fn name(&self) -> Cow<'_, str> {
        String::from_utf8_lossy(text(self.name))
    }
}

impl<'a> Contents<'a> {
    /// The library tests the whole file. The list of one that passes is made here, in one pass: the library answers for one grid at a
    /// time, and each answer is a pass of its own.
    pub fn of(file: &'a [u8]) -> Result<Self, Refusal> {
        grid_part(file, 0)?;
        let mut grids = Vec::new();
        let mut at = 0;
        while at < file.len() {
            at = list(file, at, &mut grids);
        }
        Ok(Contents { grids })
    }

    pub fn grids(&self) -> &[Listed<'a>] {
        &self.grids
    }

    /// The grids of a name: more than one where it stands twice.
    pub fn named(&self, name: &str) -> Vec<&Listed<'a>> {
        self.grids.iter().filter(|grid| text(grid.name) == name.as_bytes()).collect()
    }
}

/// The bytes of grid n, counted from 0 through all segments. Every segment is tested, whatever n is.
pub fn grid_part(file: &[u8], n: u64) -> Result<&[u8], Refusal> {
    part(file, |start, length| ffi::grid_part(file, n, start, length))
}

/// The bytes of its name, with the zero bytes that the file has in it.
pub fn grid_name(file: &[u8], n: u64) -> Result<&[u8], Refusal> {
    part(file, |start, length| ffi::grid_name(file, n, start, length))
}

fn part(file: &[u8], call: impl FnOnce(&mut u64, &mut u64) -> u32) -> Result<&[u8], Refusal> {
    let (mut start, mut length) = (0, 0);
    Refusal::check(call(&mut start, &mut length))?;
    Ok(&file[start as usize..][..length as usize])
}

/// Adds the grids of the segment at `at`, which has passed, and gives the place after its last body.
fn list<'a>(file: &'a [u8], at: usize, grids: &mut Vec<Listed<'a>>) -> usize {
    let first = grids.len();
    let mut entry = at + HEADER;
    for _ in 0..number(file, at + GRID_COUNT, 2) {
        let size = number(file, entry, 8);
        let name = &file[entry + ENTRY..][..number(file, entry + NAME_LENGTH, 4)];
        grids.push(Listed { index: grids.len(), name, place: 0..size });
        entry += ENTRY + name.len();
    }
    let mut body = entry;
    for grid in &mut grids[first..] {
        grid.place = body..body + grid.size();
        body = grid.place.end;
    }
    body
}

/// A little-endian number of so many bytes.
fn number(file: &[u8], at: usize, width: usize) -> usize {
    file[at..at + width].iter().rev().fold(0, |number, byte| number << 8 | usize::from(*byte))
}

fn text(name: &[u8]) -> &[u8] {
    name.split(|byte| *byte == 0).next().unwrap_or(name)
}
