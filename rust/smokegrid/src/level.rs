//! Where a lookup stopped.

use std::fmt;

/// The level that spoke: where the lookup stopped, whatever the value is. A root tile whose value is
/// the background's is a root tile.
#[derive(Clone, Copy, Debug, PartialEq, Eq, Hash)]
pub enum Level {
    /// No root has the coordinate's block.
    Background,
    /// A value for a whole block of 4,096 coordinates a side.
    RootTile,
    /// A value for 128 coordinates a side.
    UpperTile,
    /// A value for 8 coordinates a side.
    LowerTile,
    /// A voxel of its own.
    Leaf,
}

/// A density, and the level that it was read at.
#[derive(Clone, Copy, Debug, PartialEq)]
pub struct Reading {
    pub value: f32,
    pub level: Level,
}

impl Level {
    /// By the numbers of smokegrid.h: 0 to 3, and 4 for a leaf.
    pub(crate) fn of(number: u32) -> Level {
        match number {
            0 => Level::Background,
            1 => Level::RootTile,
            2 => Level::UpperTile,
            3 => Level::LowerTile,
            _ => Level::Leaf,
        }
    }
}

impl fmt::Display for Level {
    fn fmt(&self, f: &mut fmt::Formatter) -> fmt::Result {
        f.write_str(match self {
            Level::Background => "background",
            Level::RootTile => "root tile",
            Level::UpperTile => "upper tile",
            Level::LowerTile => "lower tile",
            Level::Leaf => "leaf",
        })
    }
}
