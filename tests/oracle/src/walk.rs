//! Two readings of the bytes that owe nothing to the Rust modules: NanoVDB.h's walk to one voxel,
//! and how far a decode comes with the tables that it is lent.

use std::collections::BTreeMap;

/// For levels 0, 1 and 2: the node's size, its entries a side, and where mask and table stand.
pub const SIZE: [usize; 3] = [2144, 33856, 270400];
pub const SIDE: [usize; 3] = [8, 16, 32];
pub const MASK: [usize; 3] = [0, 544, 4128];
pub const TABLE: [usize; 3] = [96, 1088, 8256];

const KEY_BITS: u64 = 0xfffff << 42 | 0xfffff << 21 | 0xfffff;

/// The entries of a node of this level.
pub fn entries(level: usize) -> usize {
    SIDE[level].pow(3)
}

/// A byte past the end counts as 0.
fn word(bytes: &[u8], at: u64, size: u64) -> u64 {
    let byte = |i| usize::try_from(at.saturating_add(i)).ok().and_then(|at| bytes.get(at));
    (0..size).rev().fold(0, |word, i| word << 8 | u64::from(*byte(i).unwrap_or(&0)))
}

pub fn u32_at(bytes: &[u8], at: usize) -> u32 {
    word(bytes, at as u64, 4) as u32
}

pub fn u64_at(bytes: &[u8], at: usize) -> u64 {
    word(bytes, at as u64, 8)
}

fn mask_bit(bytes: &[u8], mask: usize, i: usize) -> bool {
    word(bytes, (mask + i / 8) as u64, 1) >> (i % 8) & 1 != 0
}

/// The slot of a coordinate in a node of this level.
pub fn slot(coordinate: [i32; 3], level: usize) -> usize {
    let voxels = [1, 8, 128][level];
    let side = SIDE[level] as i64;
    let [x, y, z] = coordinate.map(|c| i64::from(c).rem_euclid(side * voxels) / voxels);
    ((x * side + y) * side + z) as usize
}

/// The 32 bits that NanoVDB.h reads at a coordinate of an accepted grid.
pub fn voxel(bytes: &[u8], coordinate: [i32; 3]) -> u32 {
    reading(bytes, coordinate).0
}

/// These bits, and where its walk stops: 0 background, 1 root tile, 2 upper tile, 3 lower tile, 4 leaf.
pub fn reading(bytes: &[u8], coordinate: [i32; 3]) -> (u32, u32) {
    let root = 672 + u64_at(bytes, 696) as usize;
    let key = coordinate.map(|c| u64::from((c >> 12) as u32 & 0xfffff));
    let key = key[0] << 42 | key[1] << 21 | key[2];
    let mut tiles = (0..u32_at(bytes, root + 24) as usize).map(|i| root + 64 + 32 * i);
    let Some(tile) = tiles.find(|tile| u64_at(bytes, *tile) == key) else {
        return (u32_at(bytes, root + 28), 0);
    };
    let mut child = u64_at(bytes, tile + 8);
    if child == 0 {
        return (u32_at(bytes, tile + 20), 1);
    }
    let mut node = root;
    for (level, spoke) in [(2, 2), (1, 3)] {
        node = node.wrapping_add(child as usize);
        let i = slot(coordinate, level);
        let entry = node + TABLE[level] + 8 * i;
        if !mask_bit(bytes, node + MASK[level], i) {
            return (u32_at(bytes, entry), spoke);
        }
        child = u64_at(bytes, entry);
    }
    (u32_at(bytes, node.wrapping_add(child as usize) + 96 + 4 * slot(coordinate, 0)), 4)
}

/// How many roots, nodes (by level) and spans there is room for, or were reached.
#[derive(Clone, Copy, Debug, PartialEq)]
pub struct Places {
    pub roots: usize,
    pub nodes: [usize; 3],
    pub spans: usize,
}

pub const ROOMY: Places = Places { roots: usize::MAX, nodes: [usize::MAX; 3], spans: usize::MAX };

/// How far the nodes of a grid with a passing header are read with these places: 5, 6, 7, 8 or 9, or
/// 0 where every node is reached, and what was used up to there.
pub fn reach(bytes: &[u8], places: Places) -> (u32, Places) {
    let none = Places { roots: 0, nodes: [0; 3], spans: 0 };
    let mut reader = Reader { bytes, places, reached: none, spans: BTreeMap::new() };
    let number = reader.tree().err().unwrap_or(0);
    (number, reader.reached)
}

/// A walk with room for everything stops at 5, 6, 7 or 8 just where a decode does; the faults of the
/// header come before it, those of what was read after it.
pub fn agrees(decode: u32, reach: u32) -> bool {
    match decode {
        2..=4 => true,
        5..=8 => reach == decode,
        _ => reach == 0,
    }
}

struct Reader<'a> {
    bytes: &'a [u8],
    places: Places,
    reached: Places,
    /// By start: the end and the level; header and root have level 3.
    spans: BTreeMap<usize, (usize, usize)>,
}

impl Reader<'_> {
    fn tree(&mut self) -> Result<(), u32> {
        self.claim(0, 736, 3)?;
        let length = self.bytes.len() as u128;
        let root = 672 + u128::from(u64_at(self.bytes, 696));
        need(root + 28 <= length, 5)?;
        let root = root as usize;
        let count = u32_at(self.bytes, root + 24) as usize;
        self.claim(root, 64 + 32 * count, 3)?;
        need(count <= self.places.roots, 9)?;
        self.reached.roots = count;
        for tile in (0..count).map(|i| root + 64 + 32 * i) {
            need(u64_at(self.bytes, tile) & !KEY_BITS == 0, 7)?;
            let child = u64_at(self.bytes, tile + 8);
            if child != 0 {
                self.node(root, child, 2)?;
            }
        }
        Ok(())
    }

    /// A span of the bytes, which no other may overlap.
    fn claim(&mut self, start: usize, size: usize, level: usize) -> Result<(), u32> {
        let end = start as u128 + size as u128;
        need(end <= self.bytes.len() as u128, 5)?;
        let end = end as usize;
        let before = self.spans.range(..end).next_back();
        need(before.is_none_or(|(_, (other, _))| *other <= start), 6)?;
        need(self.reached.spans < self.places.spans, 9)?;
        self.reached.spans += 1;
        self.spans.insert(start, (end, level));
        Ok(())
    }

    /// The node that stands `child` bytes from `base`, and all below it.
    fn node(&mut self, base: usize, child: u64, level: usize) -> Result<(), u32> {
        let target = base as i128 + i128::from(child as i64);
        need(child != 0 && target >= 0 && target % 32 == 0, 8)?;
        let source = usize::try_from(target).map_err(|_| 5u32)?;
        if self.spans.get(&source).is_some_and(|(_, read)| *read == level) {
            return Ok(());
        }
        self.claim(source, SIZE[level], level)?;
        need(self.reached.nodes[level] < self.places.nodes[level], 9)?;
        self.reached.nodes[level] += 1;
        if level == 0 {
            return Ok(());
        }
        for i in 0..entries(level) {
            if mask_bit(self.bytes, source + MASK[level], i) {
                let child = u64_at(self.bytes, source + TABLE[level] + 8 * i);
                self.node(source, child, level - 1)?;
            }
        }
        Ok(())
    }
}

fn need(holds: bool, number: u32) -> Result<(), u32> {
    if holds {
        Ok(())
    } else {
        Err(number)
    }
}
