//! Random grids in the raw layout of NanoVDB.h (ABI 32), sound ones and damaged ones. A seed and a
//! case number give the same bytes everywhere.

use crate::random::Random;
use crate::source::MARKS;
use crate::walk::{entries, MASK, SIDE, SIZE, TABLE};

pub mod bench;
mod damage;

pub struct Case {
    /// Its shape and, if it was damaged, how.
    pub name: String,
    pub bytes: Vec<u8>,
    /// Coordinates at which something stands.
    pub near: Vec<[i32; 3]>,
    /// Few enough roots that the Rust builds it in well under a second.
    pub builds: bool,
}

/// Half of the cases are damaged.
pub fn case(seed: u64, number: u64) -> Case {
    let mut draft = Draft::new(seed, number);
    if draft.random.percent(50) {
        draft.damage(number);
    }
    draft.case()
}

/// A case without damage.
pub fn sound(seed: u64, number: u64) -> Case {
    Draft::new(seed, number).case()
}

/// A place that holds a child's offset: the node or root it counts from, and the child's level.
#[derive(Clone, Copy)]
struct Link {
    base: usize,
    at: usize,
    level: usize,
}

struct Draft {
    random: Random,
    shape: &'static str,
    damages: Vec<String>,
    bytes: Vec<u8>,
    root: usize,
    tiles: usize,
    /// Where the nodes start, leaves first.
    nodes: [Vec<usize>; 3],
    links: Vec<Link>,
    /// Places of values: background, tiles, entries, voxels.
    values: Vec<usize>,
    /// Coordinates at which a tile, a node or a voxel stands.
    near: Vec<[i32; 3]>,
}

/// A shape's name, its share in a hundred, and its greatest numbers of upper, lower and leaf nodes.
const SHAPES: [(&str, usize, [usize; 3]); 6] = [
    ("tiles", 58, [0, 0, 0]),
    ("many tiles", 1, [0, 0, 0]),
    ("upper", 9, [1, 0, 0]),
    ("lower", 10, [1, 3, 0]),
    ("leaf", 18, [1, 3, 9]),
    ("two uppers", 4, [2, 3, 6]),
];

/// How a world box lies over the voxels.
#[derive(Clone, Copy)]
enum Stretch {
    Exact,
    Rough,
    Lined,
    Thin,
}

/// As often as each is chosen.
const STRETCHES: [Stretch; 15] = {
    use Stretch::*;
    [
        Exact, Exact, Exact, Exact, Exact, Exact, Rough, Rough, Rough, Rough, Lined, Lined, Lined,
        Lined, Thin,
    ]
};

impl Draft {
    fn new(seed: u64, number: u64) -> Self {
        let mut random = Random::new(seed, number);
        let mut share = random.below(100);
        let mut shape = 0;
        while share >= SHAPES[shape].1 {
            share -= SHAPES[shape].1;
            shape += 1;
        }
        let (shape, _, most) = SHAPES[shape];
        let some =
            |random: &mut Random, most: usize| if most == 0 { 0 } else { 1 + random.below(most) };
        let upper = most[0];
        let lower = some(&mut random, most[1]);
        let leaf = some(&mut random, most[2]);
        let tiles = match shape {
            "many tiles" => 200 + random.below(1300),
            "tiles" => random.below(7),
            _ => upper + random.below(5),
        };
        let mut draft = Draft {
            random,
            shape,
            damages: Vec::new(),
            bytes: Vec::new(),
            root: 0,
            tiles,
            nodes: [Vec::new(), Vec::new(), Vec::new()],
            links: Vec::new(),
            values: Vec::new(),
            near: Vec::new(),
        };
        draft.places([leaf, lower, upper]);
        draft.header(number);
        draft.tree();
        draft.world();
        draft
    }

    fn case(self) -> Case {
        let mut name = self.shape.to_string();
        for damage in &self.damages {
            name = format!("{name}, {damage}");
        }
        Case { name, bytes: self.bytes, near: self.near, builds: self.tiles <= 40 }
    }

    fn put32(&mut self, at: usize, word: u32) {
        self.bytes[at..at + 4].copy_from_slice(&word.to_le_bytes());
    }

    fn put64(&mut self, at: usize, word: u64) {
        self.bytes[at..at + 8].copy_from_slice(&word.to_le_bytes());
    }

    fn put_value(&mut self, at: usize, value: f32) {
        self.put32(at, value.to_bits());
        self.values.push(at);
    }

    fn noise(&mut self, from: usize, to: usize) {
        for at in from..to {
            self.bytes[at] = self.random.next() as u8;
        }
    }

    /// Where root and nodes stand: in any order, with gaps, the nodes at multiples of 32.
    fn places(&mut self, counts: [usize; 3]) {
        let mut order = vec![3];
        for level in [2, 1, 0] {
            order.extend(vec![level; counts[level]]);
        }
        if self.random.percent(50) {
            self.random.shuffle(&mut order);
        }
        let mut end = 736;
        for level in order {
            if level == 3 {
                self.root = end + if self.random.percent(70) { 0 } else { self.random.below(100) };
                end = self.root + 64 + 32 * self.tiles;
            } else {
                let start = end.next_multiple_of(32) + 32 * self.random.pick(&[0, 0, 0, 1, 5]);
                self.nodes[level].push(start);
                end = start + SIZE[level];
            }
        }
        end += self.random.pick(&[0, 0, 0, 1, 32, 77]);
        self.bytes = vec![0; end];
        if self.random.percent(30) {
            self.noise(0, 736);
            self.noise(self.root, self.root + 64 + 32 * self.tiles);
            for level in [1, 2] {
                for node in self.nodes[level].clone() {
                    self.noise(node, node + MASK[level]);
                }
            }
        }
    }

    /// The fields that must pass. Cases have the two marks in turn, so that every damage meets both.
    fn header(&mut self, number: u64) {
        let count = self.random.pick(&[1, 1, 2, 7, u32::MAX]);
        let index = if self.random.percent(50) { 0 } else { count - 1 };
        let minor = self.random.next() as u32 & 0x1fffff;
        let class = self.random.pick(&[0, 2]);
        self.put64(0, MARKS[number as usize % 2]);
        self.put32(16, 32 << 21 | minor);
        self.put32(24, index);
        self.put32(28, count);
        self.put64(32, self.bytes.len() as u64);
        self.put32(632, class);
        self.put32(636, 1);
        self.put64(696, (self.root - 672) as u64);
        for level in 0..3 {
            self.put32(704 + 4 * level, self.nodes[level].len() as u32);
        }
    }

    /// A density: finite and not negative.
    fn density(&mut self) -> f32 {
        match self.random.below(12) {
            0 => 0.0,
            1 => -0.0,
            2 => f32::from_bits(self.random.next() as u32 & 0x7fffff),
            3 => f32::MAX,
            4 | 5 => self.random.below(5) as f32,
            _ => self.random.unit() as f32,
        }
    }

    /// Blocks that differ, of both signs, close together, at the ends or anywhere.
    fn blocks(&mut self) -> Vec<[i32; 3]> {
        let mut blocks = Vec::new();
        let reach = if self.tiles > 40 { 12 } else { 2 };
        while blocks.len() < self.tiles {
            let far = self.random.percent(8);
            let block = [0; 3].map(|_| match self.random.below(if far { 3 } else { 1 }) {
                0 => self.random.between(-reach, reach) as i32,
                1 => self.random.pick(&[-524288, 524287]),
                _ => self.random.between(-524288, 524287) as i32,
            });
            if !blocks.contains(&block) {
                blocks.push(block);
            }
        }
        blocks
    }

    fn tree(&mut self) {
        let (root, tiles) = (self.root, self.tiles);
        let even = self.random.percent(15);
        let smoke = self.density();
        self.put32(root + 24, tiles as u32);
        let background = match self.random.below(4) {
            0 => self.density(),
            _ if even => smoke,
            _ => 0.0,
        };
        self.put_value(root + 28, background);
        let blocks = self.blocks();
        let uppers = self.nodes[2].len();
        let mut origins = [0, 1, 2].map(|level| vec![[0; 3]; self.nodes[level].len()]);
        let mut order: Vec<usize> = (0..tiles).collect();
        self.random.shuffle(&mut order);
        for (i, block) in blocks.iter().enumerate() {
            let tile = root + 64 + 32 * order[i];
            let origin = block.map(|b| b << 12);
            let key = block.map(|b| u64::from(b as u32 & 0xfffff));
            self.put64(tile, key[0] << 42 | key[1] << 21 | key[2]);
            self.near.push(origin);
            // The first tiles name each upper node once, later ones name it again.
            if i < uppers || uppers > 0 && self.random.percent(30) {
                let child = if i < uppers { i } else { self.random.below(uppers) };
                origins[2][child] = origin;
                self.link(root, tile + 8, 2, child);
            } else {
                let value = if even { smoke } else { self.density() };
                self.put64(tile + 8, 0);
                self.put_value(tile + 20, value);
            }
        }
        for level in [2, 1] {
            self.internal(level, even.then_some(smoke), &mut origins);
        }
        self.leaves(even.then_some(smoke), &origins[0]);
    }

    fn link(&mut self, base: usize, at: usize, level: usize, child: usize) {
        let target = self.nodes[level][child];
        self.put64(at, (target as u64).wrapping_sub(base as u64));
        self.links.push(Link { base, at, level });
    }

    /// The entries of the nodes of level 2 or 1: values, and each node below named at least once.
    fn internal(&mut self, level: usize, even: Option<f32>, origins: &mut [Vec<[i32; 3]>; 3]) {
        let nodes = self.nodes[level].clone();
        let below = self.nodes[level - 1].len();
        for (i, node) in nodes.iter().enumerate() {
            self.tile_values(*node + TABLE[level], entries(level), 8, even);
            let children: Vec<usize> =
                (0..below).filter(|child| child % nodes.len() == i).collect();
            let again = if below == 0 { 0 } else { self.random.pick(&[0, 0, 1, 2, 6]) };
            let mut named = children;
            named.extend((0..again).map(|_| self.random.below(below)));
            let mut taken = Vec::new();
            for child in named {
                let mut slot = self.random.below(entries(level));
                while taken.contains(&slot) {
                    slot = (slot + 1) % entries(level);
                }
                taken.push(slot);
                self.child(*node, level, slot, child, origins, i);
            }
        }
    }

    fn child(
        &mut self,
        node: usize,
        level: usize,
        slot: usize,
        child: usize,
        origins: &mut [Vec<[i32; 3]>; 3],
        parent: usize,
    ) {
        let at = node + TABLE[level] + 8 * slot;
        self.bytes[node + MASK[level] + slot / 8] |= 1 << (slot % 8);
        self.values.retain(|value| *value != at);
        self.link(node, at, level - 1, child);
        let side = SIDE[level];
        let voxels = [1, 8, 128][level];
        let places = [slot / side / side, slot / side % side, slot % side];
        let origin = std::array::from_fn(|axis| {
            origins[level][parent][axis] + (places[axis] * voxels) as i32
        });
        origins[level - 1][child] = origin;
        self.near.push(origin);
    }

    fn leaves(&mut self, even: Option<f32>, origins: &[[i32; 3]]) {
        for (i, leaf) in self.nodes[0].clone().into_iter().enumerate() {
            self.tile_values(leaf + 96, entries(0), 4, even);
            let inside = [0; 3].map(|_| self.random.below(8) as i32);
            self.near.push(std::array::from_fn(|axis| origins[i][axis] + inside[axis]));
        }
    }

    /// Values all alike, all different, or a few among zeros.
    fn tile_values(&mut self, table: usize, count: usize, stride: usize, even: Option<f32>) {
        let style = self.random.below(4);
        if style < 2 && even.is_none() {
            for _ in 0..self.random.below(30) {
                let (i, value) = (self.random.below(count), self.density());
                self.put_value(table + stride * i, value);
            }
            return;
        }
        let one = even.unwrap_or_else(|| self.density());
        for i in 0..count {
            let value = if style == 3 && even.is_none() { self.density() } else { one };
            self.put32(table + stride * i, value.to_bits());
        }
        let i = self.random.below(count);
        self.values.push(table + stride * i);
    }

    /// Map, translation, world box and index box: mostly a stretch around something in the grid.
    fn world(&mut self) {
        let near = if self.near.is_empty() { [0; 3] } else { self.random.pick(&self.near) };
        let width = self.random.pick(&[2.0, 9.0, 40.0, 130.0, 700.0, 5000.0, 40000.0, 3e9]);
        let stretch = self.random.pick(&STRETCHES);
        let cover = self.random.below(10);
        for place in 0..9 {
            let zero = self.random.pick(&[0.0f32, 0.0, 0.0, -0.0]);
            self.put32(332 + 4 * place, zero.to_bits());
        }
        for axis in 0..3 {
            let centre = f64::from(near[axis]);
            match stretch {
                Stretch::Exact => self.exact_axis(axis, centre, width, cover),
                Stretch::Rough => self.rough_axis(axis, centre, width, cover),
                Stretch::Lined => self.lined_axis(axis, centre, cover),
                Stretch::Thin => self.thin_axis(axis),
            }
        }
    }

    fn exact_axis(&mut self, axis: usize, centre: f64, width: f64, cover: usize) {
        let scale = self.random.pick(&[1.0, 1.0, 0.5, 2.0, 4.0, 0.125, 1024.0]);
        let shift = self.random.pick(&[0.0, 0.0, 8.0, -50.0, 3.0]);
        let low = (centre - width * self.random.unit()).floor();
        let high = (centre + 1.0 + width * self.random.unit()).ceil();
        let ends = match self.random.below(20) {
            0 => (-0.0, high.abs()),
            1 => (-low.abs() - 1.0, -0.0),
            _ => (low, high),
        };
        self.put_axis(axis, scale, shift, ends, cover);
    }

    fn rough_axis(&mut self, axis: usize, centre: f64, width: f64, cover: usize) {
        let scale = (self.random.unit() * 4.0 + 0.01) as f32;
        let shift = ((self.random.unit() - 0.5) * 100.0) as f32;
        let low = centre - width * self.random.unit();
        let high = centre + 1.0 + width * self.random.unit();
        self.put_axis(axis, scale, shift, (low, high), cover);
    }

    /// Cells of whole voxels, under a map that rounds: an index falls on either side of a voxel's end.
    fn lined_axis(&mut self, axis: usize, centre: f64, cover: usize) {
        let scale = self.random.pick(&[10.0, 3.3, 0.3, 0.7, 14.3]);
        let shift = ((self.random.unit() - 0.5) * 100.0) as f32;
        let low = centre - self.random.below(40) as f64;
        let high = low + 64.0 * self.random.pick(&[1.0, 1.0, 2.0, 8.0]);
        self.put_axis(axis, scale, shift, (low, high), cover);
    }

    /// One axis from the ends of the stretch in index space. Mostly the index box covers it.
    fn put_axis(&mut self, axis: usize, scale: f32, shift: f32, ends: (f64, f64), cover: usize) {
        let world = |index: f64| index / f64::from(scale) + f64::from(shift);
        let (low, high) = (ends.0.floor() as i32, ends.1.ceil() as i32);
        let (first, last) = match cover {
            0 => (i32::MIN, i32::MAX),
            1 => (low, high),
            2 => (low, high.saturating_sub(1)),
            3 => (low, low.saturating_add(self.random.below(50) as i32)),
            _ => (low.saturating_sub(3), high.saturating_add(3)),
        };
        self.put32(332 + 16 * axis, scale.to_bits());
        self.put32(368 + 4 * axis, shift.to_bits());
        self.put64(560 + 8 * axis, world(ends.0).to_bits());
        self.put64(584 + 8 * axis, world(ends.1).to_bits());
        self.put32(self.root + 4 * axis, first as u32);
        self.put32(self.root + 12 + 4 * axis, last.max(first) as u32);
    }

    /// A few floats wide: cells share corners there, and rounding can swap two of them.
    fn thin_axis(&mut self, axis: usize) {
        let low: u32 = self.random.pick(&[
            0x015262eb, 0x7f7fff58, 0x3f800000, 0x00000001, 0x80000006, 0x447a0000, 0x4b7ffffe,
        ]);
        let step = self.random.pick(&[1, 2, 5, 6, 7, 40]);
        let (low, high) = match low {
            0x80000006 => (f32::from_bits(low), f32::from_bits(step)),
            _ => (f32::from_bits(low), f32::from_bits(low + step)),
        };
        let scale = match low.abs() {
            small if small < 1e-30 => 1e37,
            large if large > 1e30 => 1e-36,
            _ => 1.0f32,
        };
        self.put32(332 + 16 * axis, scale.to_bits());
        self.put32(368 + 4 * axis, 0);
        self.put64(560 + 8 * axis, f64::from(low).to_bits());
        self.put64(584 + 8 * axis, f64::from(high).to_bits());
        self.put32(self.root + 4 * axis, -4000i32 as u32);
        self.put32(self.root + 12 + 4 * axis, 17000000);
    }
}
