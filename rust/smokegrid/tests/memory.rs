//! Whatever a header says, a decode allocates no more than a fixed multiple of the bytes.

mod common;

use common::{put32, put64, resize, tile};
use smokegrid::Grid;
use std::alloc::{GlobalAlloc, Layout, System};
use std::sync::atomic::{AtomicUsize, Ordering::Relaxed};

/// Counts what Rust code holds, and the most of it.
struct Counting;

static HELD: AtomicUsize = AtomicUsize::new(0);
static MOST: AtomicUsize = AtomicUsize::new(0);

// SAFETY: the system's allocator does the work.
unsafe impl GlobalAlloc for Counting {
    unsafe fn alloc(&self, layout: Layout) -> *mut u8 {
        let held = HELD.fetch_add(layout.size(), Relaxed) + layout.size();
        MOST.fetch_max(held, Relaxed);
        System.alloc(layout)
    }

    unsafe fn dealloc(&self, place: *mut u8, layout: Layout) {
        HELD.fetch_sub(layout.size(), Relaxed);
        System.dealloc(place, layout)
    }
}

#[global_allocator]
static ALLOCATOR: Counting = Counting;

/// The most that a decode of these bytes held beside them, and its number.
fn most(bytes: &[u8]) -> (usize, u32) {
    let before = HELD.load(Relaxed);
    MOST.store(before, Relaxed);
    let number = Grid::decode(bytes).map_or_else(|refusal| refusal.number(), |_| 0);
    (MOST.load(Relaxed) - before, number)
}

/// One test: two at once would count each other's memory.
#[test]
fn memory_is_bounded() {
    hostile_headers_cost_no_more_than_four_times_the_file();
    a_wrong_mark_costs_next_to_nothing();
}

fn hostile_headers_cost_no_more_than_four_times_the_file() {
    let mut all = std::collections::BTreeSet::new();
    for length in [832, 864, 10_000, 400_000, 3_000_000] {
        for counts in [[0; 3], [1; 3], [u32::MAX; 3], [1000, 0, 0], [0, 0, u32::MAX]] {
            for tiles in [0, 1, 2, 1000, u32::MAX] {
                let mut bytes = tile();
                resize(&mut bytes, length);
                put32(&mut bytes, 760, tiles);
                put64(&mut bytes, 808, 96);
                for (i, count) in counts.iter().enumerate() {
                    put32(&mut bytes, 704 + 4 * i, *count);
                }
                let (held, number) = most(&bytes);
                let what = format!("{length} bytes, counts {counts:?}, {tiles} tiles: {number}");
                assert!(held <= 4 * length + 1_000, "{what} held {held}");
                assert_ne!(number, 9, "{what}");
                all.insert(number);
            }
        }
    }
    // The cases are not all turned away at the door.
    assert_eq!(all.into_iter().collect::<Vec<_>>(), [0, 5, 6, 10]);
}

fn a_wrong_mark_costs_next_to_nothing() {
    let mut bytes = vec![0xff; 30_000_000];
    put64(&mut bytes, 696, 64);
    assert!(matches!(most(&bytes), (0..=1_000, 3)));
}
