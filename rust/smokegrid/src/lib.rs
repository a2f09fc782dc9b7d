//! A proved loader of NanoVDB density grids (ABI 32) and of the majorant cells built over them. The
//! work is done by the static library that `rust/library` makes; here stand the types. It is looked
//! for in target/staticlib of the repository, or in the folder SMOKEGRID_LIB_DIR.
//!
//! ```no_run
//! let bytes = std::fs::read("hall.grid")?;
//! let grid = smokegrid::Grid::decode(&bytes)?;
//! let cells = grid.build_majorant()?;
//! println!("{} of {} cells are clear air", cells.clear(), cells.figures().len());
//! # Ok::<(), Box<dyn std::error::Error>>(())
//! ```
//!
//! A second grid for temperature stands beside it by `Grid::with_temperature`; `Grid::temperature` reads it.
//!
//! Of a whole .nvdb file `Contents::of` lists the grids, and `Grid::from_file` loads one of them.

mod contents;
mod enclosing;
mod ffi;
mod grid;
mod interface;
mod layer;
mod level;
mod load;
mod majorant;
mod ray;
mod refusal;
mod tables;
mod temperature;
mod window;

pub use contents::{grid_name, grid_part, Contents, Listed};
pub use grid::{Counts, Grid, Maxima, Medium};
pub use layer::layer;
pub use level::{Level, Reading};
pub use load::Load;
pub use majorant::Majorant;
pub use ray::{Beam, Piece, Pieces};
pub use refusal::Refusal;
pub use window::Window;
