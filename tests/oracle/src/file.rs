//! A whole .nvdb file from the words of document 02, request A2, apart from the proved code: the parts of its grids and of their
//! names, or the first fault in file order.

use std::ops::Range;

/// "NanoVDB0" and "NanoVDB2".
pub const MARKS: [&[u8; 8]; 2] = [b"NanoVDB0", b"NanoVDB2"];

pub const FILE: u32 = 19;
pub const CODEC: u32 = 20;
pub const NO_GRID: u32 = 21;

/// Where a grid's name and its body stand.
#[derive(Clone, Debug, PartialEq)]
pub struct Grid {
    pub name: Range<usize>,
    pub body: Range<usize>,
}

/// A number, a start and a length.
pub type Part = (u32, u64, u64);

/// What is still to be read.
struct Rest<'a> {
    file: &'a [u8],
    at: usize,
}

impl Rest<'_> {
    fn take(&mut self, count: u64) -> Result<Range<usize>, u32> {
        let left = self.file.len() - self.at;
        let count = usize::try_from(count).ok().filter(|count| *count <= left).ok_or(FILE)?;
        self.at += count;
        Ok(self.at - count..self.at)
    }

    /// A little-endian number of so many bytes, from a place inside what was taken.
    fn number(&self, taken: &Range<usize>, at: usize, width: usize) -> u64 {
        let bytes = &self.file[taken.clone()][at..at + width];
        bytes.iter().rev().fold(0, |number, byte| number << 8 | u64::from(*byte))
    }

    fn segment(&mut self, grids: &mut Vec<Grid>) -> Result<(), u32> {
        let header = self.take(16)?;
        let mark = &self.file[header.start..header.start + 8];
        let version = self.number(&header, 8, 4);
        let count = self.number(&header, 12, 2);
        let codec = self.number(&header, 14, 2);
        if !MARKS.iter().any(|due| mark == &due[..]) || count == 0 || version >> 21 != 32 {
            return Err(FILE);
        }
        let mut sizes = Vec::new();
        for _ in 0..count {
            let entry = self.take(176)?;
            let alike =
                self.number(&entry, 168, 2) == codec && self.number(&entry, 172, 4) == version;
            let name = self.number(&entry, 136, 4);
            if !alike || name == 0 {
                return Err(FILE);
            }
            sizes.push((self.number(&entry, 0, 8), self.take(name)?));
        }
        if codec != 0 {
            return Err(CODEC);
        }
        for (size, name) in sizes {
            if size < 736 {
                return Err(FILE);
            }
            grids.push(Grid { name, body: self.take(size)? });
        }
        Ok(())
    }
}

/// The grids of all segments in order, or 19 or 20.
pub fn grids(file: &[u8]) -> Result<Vec<Grid>, u32> {
    let mut rest = Rest { file, at: 0 };
    let mut grids = Vec::new();
    if file.is_empty() {
        return Err(FILE);
    }
    while rest.at < file.len() {
        rest.segment(&mut grids)?;
    }
    Ok(grids)
}

/// The part that `of` takes of grid n.
pub fn part(file: &[u8], n: u64, of: impl Fn(&Grid) -> Range<usize>) -> Part {
    let found = grids(file).and_then(|grids| {
        let grid = usize::try_from(n).ok().and_then(|n| grids.get(n));
        grid.map(&of).ok_or(NO_GRID)
    });
    match found {
        Ok(part) => (0, part.start as u64, part.len() as u64),
        Err(number) => (number, 0, 0),
    }
}
