//! Damage to a sound grid: one field, offset, length or value at a time, sometimes two.

use super::Draft;
use crate::walk::{entries, u32_at, u64_at, MASK, SIZE, TABLE};

#[derive(Clone, Copy)]
enum Kind {
    Word,
    Long,
    Float,
    Double,
}

/// A field's name, where it stands, and what it holds.
type Field = (String, usize, Kind);

const FLOATS: [u32; 14] = [
    0x00000000, 0x80000000, 0x7fc00000, 0x7f800001, 0xffc12345, 0x7fbfffff, 0x7f800000, 0xff800000,
    0xbf800000, 0x80000001, 0x00000001, 0x7f7fffff, 0xff7fffff, 0x3f800001,
];

const DOUBLES: [f64; 16] = [
    0.0,
    -0.0,
    f64::NAN,
    f64::INFINITY,
    f64::NEG_INFINITY,
    1e300,
    -1e300,
    f32::MAX as f64,
    // Rounds to the largest f32, and to infinity.
    3.402823567797336e38,
    3.4028235677973366e38,
    -3.4028235677973366e38,
    -1e38,
    3e38,
    1e-50,
    -1e-50,
    5e-324,
];

impl Draft {
    pub(super) fn damage(&mut self, number: u64) {
        let times = if self.random.percent(10) { 2 } else { 1 };
        for _ in 0..times {
            let linked = !self.links.is_empty() && self.random.percent(25);
            let what = match self.random.below(14) {
                _ if linked => self.damage_link(),
                0..=3 => self.damage_field(number),
                4 | 5 => self.damage_length(),
                6 | 7 => self.damage_link(),
                8 => self.damage_key(),
                9 => self.damage_count(),
                10 => self.damage_value(),
                11 => self.damage_mask(),
                12 => self.damage_root(),
                _ => self.damage_unread(),
            };
            self.damages.push(what);
        }
    }

    /// Every field that is read, of the header, the tree, the root, its first tile and its last.
    fn fields(&self) -> Vec<Field> {
        let mut fields = vec![
            ("mark".to_string(), 0, Kind::Long),
            ("version".to_string(), 16, Kind::Word),
            ("index".to_string(), 24, Kind::Word),
            ("count".to_string(), 28, Kind::Word),
            ("size".to_string(), 32, Kind::Long),
            ("class".to_string(), 632, Kind::Word),
            ("type".to_string(), 636, Kind::Word),
            ("root offset".to_string(), 696, Kind::Long),
            ("leaf count".to_string(), 704, Kind::Word),
            ("lower count".to_string(), 708, Kind::Word),
            ("upper count".to_string(), 712, Kind::Word),
            ("tile count".to_string(), self.root + 24, Kind::Word),
            ("background".to_string(), self.root + 28, Kind::Float),
        ];
        fields.extend((0..9).map(|i| (format!("map {i}"), 332 + 4 * i, Kind::Float)));
        fields.extend((0..3).map(|i| (format!("translation {i}"), 368 + 4 * i, Kind::Float)));
        fields.extend((0..6).map(|i| (format!("world {i}"), 560 + 8 * i, Kind::Double)));
        fields.extend((0..6).map(|i| (format!("index box {i}"), self.root + 4 * i, Kind::Word)));
        for i in [0, self.tiles.saturating_sub(1)] {
            let tile = self.root + 64 + 32 * i;
            if i < self.tiles {
                fields.push((format!("key {i}"), tile, Kind::Long));
                fields.push((format!("child {i}"), tile + 8, Kind::Long));
                fields.push((format!("value {i}"), tile + 20, Kind::Float));
            }
        }
        fields
    }

    /// The fields in turn: the case's number says which.
    fn damage_field(&mut self, number: u64) -> String {
        let fields = self.fields();
        let (name, at, kind) = fields[(number / 2 % fields.len() as u64) as usize].clone();
        if at + 8 > self.bytes.len() {
            return format!("{name} gone");
        }
        match kind {
            Kind::Word => {
                let word = u32_at(&self.bytes, at);
                let word = self.other_word(u64::from(word), 32) as u32;
                self.put32(at, word);
            }
            Kind::Long => {
                let word = u64_at(&self.bytes, at);
                let word = self.other_word(word, 64);
                self.put64(at, word);
            }
            Kind::Float => {
                let word = self.other_float();
                self.put32(at, word);
            }
            Kind::Double => {
                let value = match self.random.below(4) {
                    0 => f64::from_bits(self.random.next()),
                    _ => self.random.pick(&DOUBLES),
                };
                self.put64(at, value.to_bits());
            }
        }
        name
    }

    fn other_word(&mut self, word: u64, bits: u32) -> u64 {
        let ones = u64::MAX >> (64 - bits);
        let top = 1u64 << (bits - 1);
        let bit = 1u64 << self.random.below(bits as usize);
        let any = self.random.next() & ones;
        let other = [
            0,
            1,
            2,
            ones,
            top,
            top - 1,
            word.wrapping_add(1),
            word.wrapping_sub(1),
            word ^ bit,
            word ^ bit,
            any,
        ];
        self.random.pick(&other) & ones
    }

    fn other_float(&mut self) -> u32 {
        match self.random.below(4) {
            0 => self.random.next() as u32,
            _ => self.random.pick(&FLOATS),
        }
    }

    /// Cut or drawn out to a length around a boundary; the size field mostly follows.
    fn damage_length(&mut self) -> String {
        let whole = self.bytes.len();
        let mut edges = vec![0, 40, 672, 696, 704, 716, 736, 760, 764, 788, 800, 832];
        edges.extend([self.root, self.root + 28, self.root + 64, self.root + 64 + 32 * self.tiles]);
        edges.extend([whole, whole + 100]);
        for level in 0..3 {
            edges.extend(self.nodes[level].iter().flat_map(|node| [*node, node + SIZE[level]]));
        }
        let edge = if self.random.percent(30) { whole } else { self.random.pick(&edges) };
        let length = (edge + self.random.pick(&[0, 1, 2])).saturating_sub(1);
        self.bytes.resize(length, 0);
        if length >= 40 && self.random.percent(85) {
            self.put64(32, length as u64);
        }
        format!("length {length} of {whole}")
    }

    fn damage_link(&mut self) -> String {
        let end = self.bytes.len();
        if self.links.is_empty() {
            return self.tile_to_child();
        }
        let link = self.random.pick(&self.links);
        if link.at + 8 > end {
            return "link gone".to_string();
        }
        let level = (link.level + 1 + self.random.below(2)) % 3;
        let other = self.nodes[level].first().copied().unwrap_or(736);
        let now = link.base.wrapping_add(u64_at(&self.bytes, link.at) as usize);
        let to_end = end.wrapping_sub(SIZE[link.level]);
        let (name, target) = self.random.pick(&[
            ("itself", link.base),
            ("start", 0),
            ("header", 704),
            ("behind header", 736),
            ("root", self.root),
            ("unaligned 1", now.wrapping_add(1)),
            ("unaligned 16", now.wrapping_add(16)),
            ("32 on", now.wrapping_add(32)),
            ("32 back", now.wrapping_sub(32)),
            ("negative", 0usize.wrapping_sub(32)),
            ("end", end.next_multiple_of(32)),
            ("last place", to_end & !31),
            ("past last place", (to_end & !31).wrapping_add(32)),
            ("far", 1 << 40),
            ("a node of another level", other),
            ("a node of another level", other),
            ("a node of another level", other),
            ("inside a node", other + 2112),
            ("farthest", link.base.wrapping_add(i64::MAX as usize)),
            ("nearest", link.base.wrapping_add(i64::MIN as usize)),
            ("no offset", link.base),
        ]);
        let offset =
            if name == "no offset" { 0 } else { (target as u64).wrapping_sub(link.base as u64) };
        self.put64(link.at, offset);
        format!("level {} link to {name}", link.level)
    }

    /// A tile that names a node where there is none.
    fn tile_to_child(&mut self) -> String {
        let offset = self.random.pick(&[
            1,
            32,
            80,
            96,
            4096,
            u64::MAX,
            u64::MAX - 31,
            1 << 63,
            i64::MAX as u64,
        ]);
        let aligned = (self.root.next_multiple_of(32) - self.root) as u64;
        let offset = if self.random.percent(50) { offset.wrapping_add(aligned) } else { offset };
        let at = self.root + 64 + 32 * self.random.below(self.tiles.max(1)) + 8;
        if self.tiles == 0 || at + 8 > self.bytes.len() {
            return "no tile".to_string();
        }
        self.put64(at, offset);
        // With room behind it the target's fault shows, and not the end of the bytes.
        if self.random.percent(20) {
            let length = self.bytes.len() + 2 * SIZE[2];
            self.bytes.resize(length, 0);
            self.put64(32, length as u64);
        }
        "tile with an offset".to_string()
    }

    fn damage_key(&mut self) -> String {
        let table = self.root + 64;
        if self.tiles == 0 || table + 32 * self.tiles > self.bytes.len() {
            return "no key".to_string();
        }
        let at = table + 32 * self.random.below(self.tiles);
        let key = u64_at(&self.bytes, at);
        if self.random.percent(50) {
            let from = table + 32 * self.random.below(self.tiles);
            let twin = u64_at(&self.bytes, from);
            self.put64(at, twin);
            return "block repeated".to_string();
        }
        let bit = self.random.pick(&[20, 41, 62, 63, 19, 0]);
        self.put64(at, key ^ 1 << bit);
        format!("key bit {bit}")
    }

    fn damage_count(&mut self) -> String {
        let level = self.random.below(4);
        let at = if level == 3 { self.root + 24 } else { 704 + 4 * level };
        if at + 4 > self.bytes.len() {
            return "count gone".to_string();
        }
        let count = u32_at(&self.bytes, at);
        let count = match self.random.below(6) {
            0..=2 => count.wrapping_add(1),
            3 | 4 => count.wrapping_sub(1),
            _ => self.random.next() as u32,
        };
        self.put32(at, count);
        format!("count {level}")
    }

    fn damage_value(&mut self) -> String {
        let at = self.random.pick(&self.values);
        if at + 4 > self.bytes.len() {
            return "value gone".to_string();
        }
        let word = self.other_float();
        self.put32(at, word);
        format!("value {word:08x}")
    }

    /// A bit of a child mask the other way: an offset read as a value, or a value as an offset.
    fn damage_mask(&mut self) -> String {
        let links: Vec<_> = self.links.iter().filter(|link| link.level < 2).copied().collect();
        let level = self.random.pick(&[1, 2]);
        if self.nodes[level].is_empty() {
            return self.damage_value();
        }
        let (level, node, slot) = if links.is_empty() || self.random.percent(50) {
            (level, self.random.pick(&self.nodes[level]), self.random.below(entries(level)))
        } else {
            let link = self.random.pick(&links);
            let level = link.level + 1;
            (level, link.base, (link.at - link.base - TABLE[level]) / 8)
        };
        let at = node + MASK[level] + slot / 8;
        if at < self.bytes.len() {
            self.bytes[at] ^= 1 << (slot % 8);
        }
        format!("level {level} mask")
    }

    fn damage_root(&mut self) -> String {
        if self.bytes.len() < 704 {
            return "root gone".to_string();
        }
        let end = self.bytes.len() as u64;
        let offset = self.random.pick(&[
            0,
            1,
            32,
            62,
            63,
            64,
            65,
            96,
            200,
            end.wrapping_sub(672),
            end.wrapping_sub(700),
            end.wrapping_sub(699),
            end.wrapping_sub(736),
            u64::MAX,
            u64::MAX - 1,
            u64::MAX - 671,
            u64::MAX - 672,
            u64::MAX - 695,
            u64::MAX - 696,
            u64::MAX - 697,
            u64::MAX - 700,
            u64::MAX - 736,
            1 << 63,
            1 << 32,
        ]);
        self.put64(696, offset);
        format!("root offset {offset}")
    }

    /// Bytes that nothing reads: the answers stay as they were.
    fn damage_unread(&mut self) -> String {
        let root = self.root;
        let mut places = vec![
            (8, 16),
            (20, 24),
            (40, 332),
            (380, 560),
            (608, 632),
            (640, 696),
            (716, 736),
            (root + 32, root + 64),
        ];
        if self.tiles > 0 {
            places.push((root + 64 + 24, root + 96));
            places.push((root + 64 + 16, root + 84));
        }
        for level in [1, 2] {
            for node in &self.nodes[level] {
                places.push((*node, node + MASK[level]));
                places.push((node + TABLE[level] - 32, node + TABLE[level]));
            }
        }
        places.extend(self.nodes[0].iter().map(|leaf| (*leaf, leaf + 96)));
        let (from, to) = self.random.pick(&places);
        let end = self.bytes.len();
        self.noise(from.min(end), to.min(end));
        "unread bytes".to_string()
    }
}
