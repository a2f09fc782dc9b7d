//! Which level a lookup of the Rust's tables stops at, by document 02's words. The Rust's own lookup
//! gives the value alone.

use crate::source::SparseScalarGrid;
use crate::walk;

/// 0 background, 1 root tile, 2 upper tile, 3 lower tile, 4 leaf. Only for lookups that are not refused.
pub fn of(grid: &SparseScalarGrid, at: [i32; 3]) -> u32 {
    let Some(root) = grid.roots.iter().find(|root| root.block == at.map(|c| c.div_euclid(4096)))
    else {
        return 0;
    };
    let Some(upper) = root.entry.child_index else { return 1 };
    let entry = upper as usize * walk::entries(2) + walk::slot(at, 2);
    let Some(lower) = grid.upper_entries[entry].child_index else { return 2 };
    let entry = lower as usize * walk::entries(1) + walk::slot(at, 1);
    if grid.lower_entries[entry].child_index.is_none() {
        3
    } else {
        4
    }
}
