//! What a box maximum reads, written from document 02 alone (A10): each root whose block meets the box and, below each counted child,
//! each entry or value whose coordinates meet it, anew on every path. Every slot of a node that is entered is tested.

/// The links of a grid: 0 is a tile, and n + 1 child n.
#[derive(Clone, Copy)]
pub struct Links<'a> {
    pub blocks: &'a [i32],
    pub root: &'a [u32],
    pub upper: &'a [u32],
    pub lower: &'a [u32],
}

/// Root entries, upper entries, lower entries, leaf values.
pub type Counts = [u128; 4];

struct Walk<'a> {
    links: Links<'a>,
    low: [i64; 3],
    high: [i64; 3],
    counts: Counts,
}

impl Walk<'_> {
    /// Some coordinate of the cube of `side` from `at` on lies in the box.
    fn meets(&self, at: [i64; 3], side: i64) -> bool {
        (0..3).all(|axis| {
            let (first, last) =
                (at[axis].max(self.low[axis]), (at[axis] + side - 1).min(self.high[axis]));
            first <= last
        })
    }

    /// Node k of a level (1 upper, 2 lower, 3 leaf), whose first coordinate is `at`.
    fn node(&mut self, level: usize, k: u32, at: [i64; 3]) {
        let (slots, side) = [(32, 128), (16, 8), (8, 1)][level - 1];
        for x in 0..slots {
            for y in 0..slots {
                for z in 0..slots {
                    let place = [at[0] + x * side, at[1] + y * side, at[2] + z * side];
                    if !self.meets(place, side) {
                        continue;
                    }
                    self.counts[level] += 1;
                    if level < 3 {
                        let slot = ((x * slots + y) * slots + z) as usize;
                        let all = (slots * slots * slots) as usize;
                        let links = [self.links.upper, self.links.lower][level - 1];
                        let link = links[k as usize * all + slot];
                        if link > 0 {
                            self.node(level + 1, link - 1, place);
                        }
                    }
                }
            }
        }
    }
}

pub fn counts(links: Links, low: [i32; 3], high: [i32; 3]) -> Counts {
    let mut walk =
        Walk { links, low: low.map(i64::from), high: high.map(i64::from), counts: [0; 4] };
    for (i, link) in links.root.iter().enumerate() {
        let at = [0, 1, 2].map(|axis| 4096 * i64::from(links.blocks[3 * i + axis]));
        if walk.meets(at, 4096) {
            walk.counts[0] += 1;
            if *link > 0 {
                walk.node(1, link - 1, at);
            }
        }
    }
    walk.counts
}

/// The most for a cube of n coordinates a side: R^3, U^3, L^3 and n^3.
pub fn most(n: u32) -> Counts {
    let n = u128::from(n);
    [(n + 4094) / 4096 + 1, (n + 126) / 128 + 1, (n + 6) / 8 + 1, n].map(|c| c * c * c)
}
