// Writes the tables that the program replay_grid replays, with the answers of sparse_grid.rs on them.
//
//     SPARSE_GRID=path/to/sparse_grid.rs rustc --edition 2021 -O -o target/vectors tests/vectors/grid.rs
//     target/vectors > crates/replay_grid/stdin
//
// Everything is little-endian words of 32 bits. First the number of cases. A case is
//     the lengths of blocks, root links, root values, upper links, upper values, lower links, lower values, leaf values;
//     how many words of each of them are not 0;
//     the background's pattern; how many lookups; the number of `validate`; that of `validate_density`;
//     those words, table by table, each an index and the word;
//     the lookups, each x, y, z, the number of the refusal (0 for none) and the value's pattern.
// A NaN's pattern is written as 7fc00000. Tables that are not paired are none of sparse_grid.rs's grids: their number is 18.
mod random;

use random::Random;
use std::io::Write;

mod util {
    pub mod error {
        pub struct PbrtError(pub String);

        impl PbrtError {
            pub fn error(message: &str) -> Self {
                PbrtError(message.to_string())
            }
        }
    }
}

#[allow(dead_code)]
mod sparse_grid {
    include!(env!("SPARSE_GRID"));
}

use sparse_grid::{SparseGridEntry, SparseGridRoot, SparseScalarGrid};
use util::error::PbrtError;

impl Random {
    fn one_of<T: Copy>(&mut self, from: &[T]) -> T {
        from[self.below(from.len() as u64) as usize]
    }
}

const UPPER: usize = 32768;
const LOWER: usize = 4096;
const LEAF: usize = 512;

// A grid of lent tables: each of its eight tables as words.
#[derive(Clone)]
struct Tables {
    background: u32,
    words: [Vec<u32>; 8],
}

const BLOCKS: usize = 0;
const ROOT_LINKS: usize = 1;
const ROOT_VALUES: usize = 2;
const UPPER_LINKS: usize = 3;
const UPPER_VALUES: usize = 4;
const LOWER_LINKS: usize = 5;
const LOWER_VALUES: usize = 6;
const LEAF_VALUES: usize = 7;

impl Tables {
    // No roots, and this many nodes whose entries are tiles of 0.0.
    fn new(background: f32, upper: usize, lower: usize, leaf: usize) -> Self {
        let zeros = |n: usize| vec![0u32; n];
        Tables {
            background: background.to_bits(),
            words: [
                zeros(0),
                zeros(0),
                zeros(0),
                zeros(UPPER * upper),
                zeros(UPPER * upper),
                zeros(LOWER * lower),
                zeros(LOWER * lower),
                zeros(LEAF * leaf),
            ],
        }
    }

    fn root(mut self, block: [i32; 3], link: u32, value: u32) -> Self {
        self.words[BLOCKS].extend(block.map(|b| b as u32));
        self.words[ROOT_LINKS].push(link);
        self.words[ROOT_VALUES].push(value);
        self
    }

    fn set(mut self, table: usize, index: usize, word: u32) -> Self {
        self.words[table][index] = word;
        self
    }

    fn length(mut self, table: usize, length: usize) -> Self {
        self.words[table].resize(length, 0);
        self
    }

    fn paired(&self) -> bool {
        let n = |t: usize| self.words[t].len();
        n(ROOT_LINKS) == n(ROOT_VALUES) && n(BLOCKS) == 3 * n(ROOT_LINKS) && n(UPPER_LINKS) == n(UPPER_VALUES) && n(LOWER_LINKS) == n(LOWER_VALUES)
    }

    fn grid(&self) -> SparseScalarGrid {
        let entries = |links: usize, values: usize| -> Vec<SparseGridEntry> {
            let links = self.words[links].iter();
            links.zip(&self.words[values]).map(|(l, v)| SparseGridEntry { child_index: l.checked_sub(1), value: f32::from_bits(*v) }).collect()
        };
        let roots = self.words[BLOCKS].chunks_exact(3).zip(entries(ROOT_LINKS, ROOT_VALUES));
        SparseScalarGrid {
            background: f32::from_bits(self.background),
            roots: roots.map(|(b, entry)| SparseGridRoot { block: [b[0] as i32, b[1] as i32, b[2] as i32], entry }).collect(),
            upper_entries: entries(UPPER_LINKS, UPPER_VALUES),
            lower_entries: entries(LOWER_LINKS, LOWER_VALUES),
            leaf_values: self.words[LEAF_VALUES].iter().map(|v| f32::from_bits(*v)).collect(),
        }
    }
}

fn number(error: &PbrtError) -> u32 {
    match error.0.as_str() {
        "Invalid sparse grid array length." | "Sparse grid root count exceeds u32." => 18,
        "Invalid or duplicate sparse grid root block." | "Invalid sparse child reference or child value." => 11,
        "Invalid sparse node reference." | "Invalid sparse leaf reference." => 11,
        "Sparse grid values must be finite." => 12,
        "Sparse density values must be non-negative." => 15,
        other => panic!("a message with no number: {other}"),
    }
}

fn fault(result: Result<(), PbrtError>) -> u32 {
    result.err().map_or(0, |e| number(&e))
}

fn pattern(value: f32) -> u32 {
    if value.is_nan() { 0x7fc0_0000 } else { value.to_bits() }
}

// A coordinate and what is read there: a pattern, or a refusal's number.
type Lookup = ([i32; 3], u32, u32);

fn lookup(tables: &Tables, grid: &SparseScalarGrid, at: [i32; 3]) -> Lookup {
    if !tables.paired() {
        return (at, 18, 0);
    }
    match grid.get_value(at) {
        Ok(value) => (at, 0, pattern(value)),
        Err(error) => (at, number(&error), 0),
    }
}

// Coordinates in and beside the roots' blocks, at slots that the tables use, and at the ends of i32.
fn coordinates(tables: &Tables, random: &mut Random, n: usize) -> Vec<[i32; 3]> {
    let edges = [i32::MIN, -4097, -4096, -129, -128, -9, -8, -1, 0, 7, 8, 127, 128, 4095, 4096, i32::MAX];
    let within = [0, 1, 7, 8, 9, 127, 128, 129, 2048, 4088, 4095];
    (0..n)
        .map(|k| {
            let roots = tables.words[BLOCKS].len() / 3;
            let root = random.below(roots.max(1) as u64) as usize;
            [0, 1, 2].map(|axis| {
                if roots == 0 || k % 5 == 0 {
                    return random.one_of(&edges);
                }
                let low = (tables.words[BLOCKS][3 * root + axis] as i32).wrapping_shl(12);
                let step = if k % 2 == 0 { random.one_of(&within) } else { random.below(16) as i32 };
                low.wrapping_add(step)
            })
        })
        .collect()
}

fn write_case(out: &mut Vec<u8>, tables: &Tables, random: &mut Random, wanted: &[[i32; 3]]) {
    let grid = tables.grid();
    let mut at = wanted.to_vec();
    at.extend(coordinates(tables, random, 24));
    let lookups: Vec<Lookup> = at.iter().map(|c| lookup(tables, &grid, *c)).collect();
    let (plain, density) = if tables.paired() { (fault(grid.validate()), fault(grid.validate_density())) } else { (18, 18) };
    let mut word = |w: u32| out.extend(w.to_le_bytes());
    tables.words.iter().for_each(|t| word(t.len() as u32));
    tables.words.iter().for_each(|t| word(t.iter().filter(|w| **w != 0).count() as u32));
    word(tables.background);
    word(lookups.len() as u32);
    word(plain);
    word(density);
    for table in &tables.words {
        for (i, w) in table.iter().enumerate().filter(|(_, w)| **w != 0) {
            [i as u32, *w].into_iter().for_each(&mut word);
        }
    }
    for (at, number, bits) in lookups {
        [at[0] as u32, at[1] as u32, at[2] as u32, number, bits].into_iter().for_each(&mut word);
    }
}

// Slot 0 of the first node of each level leads to the next: a valid grid whose last slots hold values too.
fn tree() -> Tables {
    Tables::new(0.25, 1, 1, 1)
        .root([-1, -1, -1], 1, 0)
        .root([0, 0, 0], 0, 2.5f32.to_bits())
        .set(UPPER_LINKS, 0, 1)
        .set(UPPER_LINKS, 32767, 1)
        .set(UPPER_VALUES, 1, 3.5f32.to_bits())
        .set(LOWER_LINKS, 0, 1)
        .set(LOWER_LINKS, 4095, 1)
        .set(LOWER_VALUES, 1, 4.5f32.to_bits())
        .set(LEAF_VALUES, 0, 5.5f32.to_bits())
        .set(LEAF_VALUES, 1, 6.5f32.to_bits())
        .set(LEAF_VALUES, 64, 7.5f32.to_bits())
        .set(LEAF_VALUES, 511, 8.5f32.to_bits())
}

const NANS: [u32; 6] = [0x7fc0_0000, 0xffc0_0000, 0x7f80_0001, 0xff80_0001, 0x7fff_ffff, 0x7fa5_a5a5];

// Grids picked by hand: each corner of the checks and of the lookup.
fn picked() -> Vec<Tables> {
    let one = 1.0f32.to_bits();
    let minus = (-1.0f32).to_bits();
    let minus_zero = (-0.0f32).to_bits();
    let infinity = f32::INFINITY.to_bits();
    let none = || Tables::new(0.5, 0, 0, 0);
    let mut all = vec![none(), Tables::new(-2.0, 0, 0, 0), Tables::new(-0.0, 0, 0, 0), tree()];
    for nan in NANS {
        all.push(Tables::new(f32::from_bits(nan), 0, 0, 0));
        all.push(none().root([0, 0, 0], 0, nan));
        all.push(tree().set(UPPER_VALUES, 1, nan));
        all.push(tree().set(LOWER_VALUES, 1, nan));
        all.push(tree().set(LEAF_VALUES, 511, nan));
        all.push(tree().set(UPPER_VALUES, 0, nan));
    }
    // values beside a child, at each level
    for value in [minus_zero, one, minus, infinity] {
        all.push(tree().set(ROOT_VALUES, 0, value));
        all.push(tree().set(UPPER_VALUES, 0, value));
        all.push(tree().set(LOWER_VALUES, 0, value));
        all.push(tree().set(LEAF_VALUES, 0, value));
        all.push(tree().set(ROOT_VALUES, 1, value));
        all.push(tree().set(LOWER_VALUES, 7, value));
    }
    // links past their tables, and a link to a node that the table holds in part
    for link in [2, 3, 4096, u32::MAX] {
        all.push(tree().set(ROOT_LINKS, 0, link));
        all.push(tree().set(UPPER_LINKS, 0, link));
        all.push(tree().set(LOWER_LINKS, 0, link));
        all.push(tree().set(LOWER_LINKS, 0, link).set(LOWER_VALUES, 0, NANS[0]));
    }
    for (table, lengths) in [(UPPER_LINKS, [32767, 32769]), (LOWER_LINKS, [4095, 4097]), (LEAF_VALUES, [511, 513])] {
        for n in lengths {
            let paired = tree().length(table, n);
            all.push(if table == LEAF_VALUES { paired } else { paired.length(table + 1, n) });
        }
    }
    // not paired
    for table in [BLOCKS, ROOT_LINKS, ROOT_VALUES, UPPER_VALUES, LOWER_VALUES] {
        let n = tree().words[table].len();
        all.push(tree().length(table, n - 1));
        all.push(tree().length(table, n + 1));
    }
    // the range of blocks
    for b in [-524289, -524288, 524287, 524288, i32::MIN, i32::MAX] {
        all.push(none().root([b, 0, 0], 0, one));
        all.push(none().root([0, b, 0], 0, one));
        all.push(none().root([0, 0, b], 0, one));
    }
    // blocks that rise, that do not, and repeats of either kind; the first root that fits is read
    let blocks: [&[[i32; 3]]; 9] = [
        &[[-1, -1, -1], [-1, -1, 0], [-1, 0, -1], [0, -1, -1], [0, 0, 0]],
        &[[0, 0, 0], [0, 0, 0]],
        &[[0, 0, 0], [0, 0, 1], [0, 0, 2], [0, 0, 1]],
        &[[3, 0, 0], [2, 0, 0], [1, 0, 0]],
        &[[3, 0, 0], [2, 0, 0], [1, 0, 0], [3, 0, 0]],
        &[[1, 0, 0], [5, 0, 0], [2, 0, 0], [5, 0, 0]],
        &[[1, 0, 0], [5, 0, 0], [2, 0, 0], [4, 0, 0], [6, 0, 0], [2, 0, 0]],
        &[[0, 1, 0], [0, 0, 1], [1, 0, 0], [0, 0, 1]],
        &[[-524288, -524288, -524288], [524287, 524287, 524287], [-524288, -524288, -524288]],
    ];
    for row in blocks {
        let rooted = row.iter().enumerate().fold(none(), |t, (i, b)| t.root(*b, 0, (i as f32 + 1.0).to_bits()));
        all.push(rooted.clone());
        // a value that is not finite comes before a later repeat, and after an earlier one
        for i in 0..row.len() {
            all.push(rooted.clone().set(ROOT_VALUES, i, infinity));
        }
    }
    all
}

// A tree of random links and values, most of them sound.
fn random_tables(random: &mut Random) -> Tables {
    let sizes = [random.below(3) as usize, random.below(3) as usize, random.below(3) as usize];
    let mut t = Tables::new(random.one_of(&[0.0, 0.5, -0.0, 1e30]), sizes[0], sizes[1], sizes[2]);
    let values = [0.0f32, -0.0, 0.5, 1.0, 1e-40, 3e38, 0.125].map(f32::to_bits);
    for _ in 0..random.below(8) {
        let block = [0, 1, 2].map(|_| random.below(4) as i32 - 2);
        let link = random.below(sizes[0] as u64 + 1) as u32;
        t = t.root(block, link, if link == 0 { random.one_of(&values) } else { 0 });
    }
    let slots = |random: &mut Random, n: usize| -> usize {
        if random.below(2) == 0 { random.below(n as u64) as usize } else { random.one_of(&[0, 1, 16, 17, n - 1]) }
    };
    for (links, node, nodes, below) in [(UPPER_LINKS, UPPER, sizes[0], sizes[1]), (LOWER_LINKS, LOWER, sizes[1], sizes[2])] {
        for _ in 0..if nodes == 0 { 0 } else { 12 } {
            let i = node * random.below(nodes as u64) as usize + slots(random, node);
            let link = random.below(below as u64 + 1) as u32;
            t = t.set(links, i, link).set(links + 1, i, if link == 0 { random.one_of(&values) } else { 0 });
        }
    }
    for _ in 0..if sizes[2] == 0 { 0 } else { 24 } {
        let i = LEAF * random.below(sizes[2] as u64) as usize + slots(random, LEAF);
        t = t.set(LEAF_VALUES, i, random.one_of(&values));
    }
    // one word in three grids is damaged
    if random.below(3) == 0 {
        let table = 1 + random.below(7) as usize;
        let n = t.words[table].len();
        if n != 0 {
            let i = random.below(n.min(20) as u64) as usize;
            let word = if [ROOT_LINKS, UPPER_LINKS, LOWER_LINKS].contains(&table) { random.below(5) as u32 } else { random.one_of(&[0xbf80_0000, 0x7f80_0000, 0x7fc0_0000, 0x8000_0000]) };
            t = t.set(table, i, word);
        }
    }
    t
}

fn main() {
    let mut random = Random(4);
    let mut all = picked();
    all.extend((0..160).map(|_| random_tables(&mut random)));
    let wanted = [[-1, -1, -1], [-4096, -4096, -4096], [-4096, -4096, -4095], [-4095, -4096, -4096], [-4096, -4096, -4088], [-4096, -4096, -3968], [0, 0, 0]];
    let mut out = (all.len() as u32).to_le_bytes().to_vec();
    for tables in &all {
        write_case(&mut out, tables, &mut random, &wanted);
    }
    std::io::stdout().write_all(&out).unwrap();
}
