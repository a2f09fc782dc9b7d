//! The tables of a grid, and how long they must be for given bytes.

/// The entries of an upper node, a lower node and a leaf.
const ENTRIES: [usize; 3] = [32 * 32 * 32, 16 * 16 * 16, 8 * 8 * 8];

/// The bytes of an upper node, a lower node and a leaf in a raw grid.
const SIZES: [usize; 3] = [270_400, 33_856, 2_144];

/// Header and tree, the root without its tiles, and a tile.
const HEADER: usize = 672 + 64;
const ROOT: usize = 64;
const TILE: usize = 32;

/// Where the tree keeps the root's place and the counts of leaf, lower and upper nodes, and the
/// root its tile count.
const ROOT_PLACE: usize = 696;
const NODE_COUNTS: usize = 704;
const TILE_COUNT: usize = 24;

/// A root place takes a block, a link and a value.
const ROOT_WORDS: usize = 3 + 1 + 1;

/// The words of the work table for a span.
const SPAN_WORDS: usize = 4;

/// Asks the kernel to lay a long fresh table in large pages. It hands pages out as they are first written, and one by one that takes longer
/// than the decode itself. Nothing but the time depends on its answer.
#[cfg(target_os = "linux")]
fn in_large_pages<T>(mut table: Vec<T>) -> Vec<T> {
    const LARGE: usize = 2 << 20;
    const MADV_HUGEPAGE: i32 = 14;
    extern "C" {
        fn madvise(start: *mut std::ffi::c_void, length: usize, advice: i32) -> i32;
    }
    let bytes = std::mem::size_of_val(&table[..]);
    let start = table.as_mut_ptr().cast::<u8>();
    let skipped = start.align_offset(LARGE);
    if bytes > skipped.saturating_add(LARGE) {
        // SAFETY: the range begins at a page and lies within the table; the advice changes no byte of it.
        unsafe { madvise(start.add(skipped).cast(), bytes - skipped, MADV_HUGEPAGE) };
    }
    table
}

#[cfg(not(target_os = "linux"))]
fn in_large_pages<T>(table: Vec<T>) -> Vec<T> {
    table
}

/// Places for roots, and for upper, lower and leaf nodes.
#[derive(Clone, Copy, Debug, Default, PartialEq)]
pub struct Places {
    pub roots: usize,
    pub nodes: [usize; 3],
}

impl Places {
    /// What the bytes themselves say, as far as they can hold it: the counts of nodes that reach
    /// past the end are those of no accepted grid.
    pub fn stated(bytes: &[u8]) -> Self {
        let most = Places::most(bytes);
        let counts = [2, 1, 0].map(|level| u32_at(bytes, NODE_COUNTS + 4 * level));
        let spans = counts.iter().zip(SIZES).map(|(count, size)| *count as u128 * size as u128);
        if spans.sum::<u128>() > bytes.len() as u128 {
            return most;
        }
        Places { roots: most.roots, nodes: counts }
    }

    /// Room for every root and node that disjoint spans of these bytes can hold: no decode of them
    /// asks for more.
    pub fn most(bytes: &[u8]) -> Self {
        let roots = tile_count(bytes).min(bytes.len() / TILE);
        let rest = bytes.len().saturating_sub(HEADER + ROOT + TILE * roots);
        Places { roots, nodes: SIZES.map(|size| rest / size) }
    }

    /// Words of the work table: a span for the header, for the root and for each node. Leaves are
    /// the smallest, so no more nodes than leaves fit.
    pub fn work_words(&self, bytes: &[u8]) -> usize {
        let nodes = self.nodes.iter().sum::<usize>().min(bytes.len() / SIZES[2]);
        SPAN_WORDS * (2 + nodes)
    }

    /// The bytes of tables with these places.
    pub fn table_bytes(&self) -> usize {
        let [upper, lower, leaf] = self.entries();
        4 * (ROOT_WORDS * self.roots + 2 * upper + 2 * lower + leaf)
    }

    fn entries(&self) -> [usize; 3] {
        std::array::from_fn(|level| self.nodes[level] * ENTRIES[level])
    }
}

/// Fields past the end count as 0; the library, not this, refuses them.
fn u32_at(bytes: &[u8], at: usize) -> usize {
    let field = at.checked_add(4).and_then(|end| bytes.get(at..end));
    field.map_or(0, |field| u32::from_le_bytes([field[0], field[1], field[2], field[3]]) as usize)
}

fn tile_count(bytes: &[u8]) -> usize {
    let place = (u32_at(bytes, ROOT_PLACE) as u64) | (u32_at(bytes, ROOT_PLACE + 4) as u64) << 32;
    let place = usize::try_from(place).ok().and_then(|place| place.checked_add(672 + TILE_COUNT));
    place.map_or(0, |at| u32_at(bytes, at))
}

/// A grid as the library takes it: link 0 is a tile, its value beside it; link k + 1 is child k.
#[derive(Clone, Debug, Default)]
pub struct Tables {
    pub background: f32,
    pub blocks: Vec<i32>,
    pub root_links: Vec<u32>,
    pub root_values: Vec<f32>,
    pub upper_links: Vec<u32>,
    pub upper_values: Vec<f32>,
    pub lower_links: Vec<u32>,
    pub lower_values: Vec<f32>,
    pub leaf_values: Vec<f32>,
}

impl Tables {
    pub fn new(places: Places) -> Self {
        let [upper, lower, leaf] = places.entries();
        Tables {
            background: 0.0,
            blocks: vec![0; 3 * places.roots],
            root_links: vec![0; places.roots],
            root_values: vec![0.0; places.roots],
            upper_links: in_large_pages(vec![0; upper]),
            upper_values: in_large_pages(vec![0.0; upper]),
            lower_links: in_large_pages(vec![0; lower]),
            lower_values: in_large_pages(vec![0.0; lower]),
            leaf_values: in_large_pages(vec![0.0; leaf]),
        }
    }

    /// Keeps the used part of each table.
    pub fn truncate(&mut self, used: Places) {
        let [upper, lower, leaf] = used.entries();
        self.blocks.truncate(3 * used.roots);
        self.root_links.truncate(used.roots);
        self.root_values.truncate(used.roots);
        self.upper_links.truncate(upper);
        self.upper_values.truncate(upper);
        self.lower_links.truncate(lower);
        self.lower_values.truncate(lower);
        self.leaf_values.truncate(leaf);
    }
}

#[cfg(test)]
mod tests {
    use super::*;

    fn with_counts(length: usize, counts: [u32; 3]) -> Vec<u8> {
        let mut bytes = vec![0; length];
        bytes[ROOT_PLACE..ROOT_PLACE + 8].copy_from_slice(&64u64.to_le_bytes());
        for (i, count) in counts.iter().rev().enumerate() {
            bytes[NODE_COUNTS + 4 * i..][..4].copy_from_slice(&count.to_le_bytes());
        }
        bytes
    }

    #[test]
    fn counts_that_fit_are_taken_as_they_stand() {
        let bytes = with_counts(800 + 270_400 + 2 * 33_856 + 5 * 2_144, [1, 2, 5]);
        assert_eq!(Places::stated(&bytes).nodes, [1, 2, 5]);
        assert_eq!(Places::stated(&bytes).work_words(&bytes), 4 * 10);
    }

    #[test]
    fn counts_that_do_not_fit_give_way_to_what_the_bytes_hold() {
        let bytes = with_counts(800 + 2 * 33_856, [0, u32::MAX, 3]);
        assert_eq!(Places::stated(&bytes).nodes, [0, 2, 2 * 33_856 / 2_144]);
    }

    #[test]
    fn no_header_asks_for_more_than_four_times_its_bytes() {
        for length in [0, 671, 736, 800, 10_000, 300_000, 3_000_000] {
            let mut bytes = vec![0xff; length];
            for root in [0u64, 64, 63, u64::MAX, 1 << 31] {
                if length >= 736 {
                    bytes[ROOT_PLACE..ROOT_PLACE + 8].copy_from_slice(&root.to_le_bytes());
                }
                for places in [Places::stated(&bytes), Places::most(&bytes)] {
                    let lent = places.table_bytes() + 8 * places.work_words(&bytes);
                    assert!(lent <= 4 * length + 64, "{length} bytes, root {root}: {lent}");
                }
            }
        }
    }

    #[test]
    fn tables_have_the_bytes_that_are_stated() {
        let places = Places { roots: 7, nodes: [1, 2, 3] };
        let tables = Tables::new(places);
        let words = tables.blocks.len()
            + tables.root_links.len()
            + tables.root_values.len()
            + tables.upper_links.len()
            + tables.upper_values.len()
            + tables.lower_links.len()
            + tables.lower_values.len()
            + tables.leaf_values.len();
        assert_eq!(4 * words, places.table_bytes());
    }
}
