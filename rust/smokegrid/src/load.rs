//! What a box maximum reads: its load.

/// The maximum of a box, and what was read for it: each root whose block meets the box and, below each of its children, each
/// entry or value whose coordinates meet it, anew on every path.
#[derive(Clone, Copy, Debug, PartialEq)]
pub struct Load {
    pub maximum: f32,
    pub roots: u64,
    pub upper: u64,
    pub lower: u64,
    pub leaf: u128,
}

impl Load {
    pub(crate) fn new(maximum: f32, [roots, upper, lower, high, low]: [u64; 5]) -> Load {
        Load { maximum, roots, upper, lower, leaf: u128::from(high) << 64 | u128::from(low) }
    }

    /// All entries and values together.
    pub fn total(&self) -> u128 {
        u128::from(self.roots) + u128::from(self.upper) + u128::from(self.lower) + self.leaf
    }

    /// The most that `total` can be for a cube of `side` coordinates a side, whatever the grid and wherever the cube lies; some
    /// grid and place reach it for every side from 1 to 4,096. Nothing is read for a side of none.
    pub fn most(side: u32) -> u128 {
        if side == 0 {
            return 0;
        }
        let n = u128::from(side);
        let cells = |size: u128| (n + size - 2) / size + 1;
        [cells(4096), cells(128), cells(8), n].iter().map(|c| c * c * c).sum()
    }
}
