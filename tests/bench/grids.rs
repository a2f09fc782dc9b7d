//! Grids that are measured: raw bytes (NanoVDB.h, ABI 32) under a map of powers of two, so that no
//! build is refused by rounding.

use std::ops::Deref;

/// The names by which grids are asked for: tiles of the root, or leaves.
pub const NAMES: [&str; 6] = ["1-tile", "999-tiles", "27", "2000", "20000", "200000"];

/// The bytes of an upper node, a lower node and a leaf, and where masks and tables stand.
const UPPER: Node = Node { size: 270_400, mask: 4_128, table: 8_256, side: 32 };
const LOWER: Node = Node { size: 33_856, mask: 544, table: 1_088, side: 16 };
const LEAF: usize = 2_144;
const LEAF_TABLE: usize = 96;
const ROOT: usize = 736;
const TILES: usize = ROOT + 64;

struct Node {
    size: usize,
    mask: usize,
    table: usize,
    side: usize,
}

pub struct Grid {
    pub name: String,
    pub bytes: Aligned,
    /// Voxels of the index box, which starts at 0 on each axis.
    pub side: i32,
}

/// Bytes at a multiple of 32, as NanoVDB.h asks.
pub struct Aligned {
    all: Vec<u8>,
    start: usize,
    length: usize,
}

impl Aligned {
    fn new(length: usize) -> Self {
        let all = vec![0; length + 31];
        let start = all.as_ptr().align_offset(32);
        Aligned { all, start, length }
    }

    fn put32(&mut self, at: usize, word: u32) {
        self.all[self.start + at..][..4].copy_from_slice(&word.to_le_bytes());
    }

    fn put64(&mut self, at: usize, word: u64) {
        self.all[self.start + at..][..8].copy_from_slice(&word.to_le_bytes());
    }

    fn put_child(&mut self, node: &Node, at: usize, slot: usize, child: usize) {
        self.all[self.start + at + node.mask + slot / 8] |= 1 << (slot % 8);
        self.put64(at + node.table + 8 * slot, (child - at) as u64);
    }

    fn header(&mut self, side: usize, tiles: usize, nodes: [usize; 3]) {
        self.put64(0, 0x304244566f6e614e);
        self.put32(16, 32 << 21);
        self.put32(28, 1);
        self.put64(32, self.length as u64);
        for axis in 0..3 {
            self.put32(332 + 16 * axis, 4f32.to_bits());
            self.put64(584 + 8 * axis, (side as f64 / 4.0).to_bits());
            self.put32(ROOT + 12 + 4 * axis, side as u32 - 1);
        }
        self.put32(632, 2);
        self.put32(636, 1);
        self.put64(696, 64);
        for (level, count) in nodes.iter().enumerate() {
            self.put32(704 + 4 * level, *count as u32);
        }
        self.put32(ROOT + 24, tiles as u32);
    }
}

impl Deref for Aligned {
    type Target = [u8];

    fn deref(&self) -> &[u8] {
        &self.all[self.start..self.start + self.length]
    }
}

pub fn grid(name: &str) -> Option<Grid> {
    match name {
        "1-tile" => Some(tiles("1 tile", 1, 1)),
        "999-tiles" => Some(tiles("999 tiles", 999, 10)),
        _ => NAMES.contains(&name).then(|| leaves(name.parse().unwrap_or(0))),
    }
}

/// Density number i: three in ten are clear, the others differ.
fn density(i: usize) -> f32 {
    let mut word = (i as u64).wrapping_add(1).wrapping_mul(0x9e3779b97f4a7c15);
    word = (word ^ (word >> 30)).wrapping_mul(0xbf58476d1ce4e5b9);
    match word >> 32 & 0xff {
        0..77 => 0.0,
        _ => (word >> 40) as f32 / (1 << 24) as f32,
    }
}

/// So many root tiles, in blocks of a cube with so many a side.
fn tiles(name: &str, count: usize, side: usize) -> Grid {
    let mut bytes = Aligned::new(TILES + 32 * count);
    bytes.header(4096 * side, count, [0; 3]);
    for i in 0..count {
        let tile = TILES + 32 * i;
        let key = [i / side / side, i / side % side, i % side].map(|block| block as u64);
        bytes.put64(tile, key[0] << 42 | key[1] << 21 | key[2]);
        bytes.put32(tile + 20, density(i + 1).to_bits());
    }
    Grid { name: name.to_string(), bytes, side: (4096 * side) as i32 }
}

/// So many leaves, filling a cube of one block slice by slice.
fn leaves(count: usize) -> Grid {
    let side = (1..).find(|side: &usize| side.pow(3) >= count).unwrap_or(1);
    let place = |i: usize| [i / side / side, i / side % side, i % side];
    let lower_of = |i: usize| {
        let [x, y, z] = place(i).map(|leaf| leaf / LOWER.side);
        (x * UPPER.side + y) * UPPER.side + z
    };
    let mut slots: Vec<usize> = (0..count).map(lower_of).collect();
    slots.sort_unstable();
    slots.dedup();
    let upper = TILES + 32;
    let lower =
        |slot: usize| upper + UPPER.size + LOWER.size * slots.partition_point(|s| *s < slot);
    let first = upper + UPPER.size + LOWER.size * slots.len();
    let mut bytes = Aligned::new(first + LEAF * count);
    bytes.header(8 * side, 1, [count, slots.len(), 1]);
    bytes.put64(TILES + 8, (upper - ROOT) as u64);
    for slot in &slots {
        bytes.put_child(&UPPER, upper, *slot, lower(*slot));
    }
    for i in 0..count {
        let [x, y, z] = place(i).map(|leaf| leaf % LOWER.side);
        let leaf = first + LEAF * i;
        bytes.put_child(&LOWER, lower(lower_of(i)), (x * LOWER.side + y) * LOWER.side + z, leaf);
        for voxel in 0..512 {
            bytes.put32(leaf + LEAF_TABLE + 4 * voxel, density(512 * i + voxel).to_bits());
        }
    }
    Grid { name: format!("{count} leaves"), bytes, side: (8 * side) as i32 }
}
