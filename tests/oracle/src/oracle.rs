//! The oracle: sparse_grid.rs and flatten/nanovdb.rs as they stand in the source folder, with
//! stand-ins for what they import. Their text is included when this crate is compiled (SMOKE_SOURCE
//! names the folder) and is not changed. For other numbers of cells than 64, which the source knows alone,
//! a copy is built in which they stand in place of 64 (document 02, A6; CELLS_SOURCE names it, cells.sed makes it).

pub mod cells;
pub mod file;
pub mod generate;
pub mod heat;
pub mod level;
#[cfg(linked)]
pub mod linked;
pub mod loader;
pub mod numbers;
pub mod random;
pub mod samples;
pub mod source;
pub mod spoil;
pub mod walk;
pub mod zones;

pub mod util {
    pub mod error {
        /// The message of a refusal; `numbers` gives it its number.
        #[derive(Clone, Debug)]
        pub struct PbrtError(String);

        impl PbrtError {
            pub fn error(message: &str) -> Self {
                PbrtError(message.to_string())
            }
        }

        impl std::fmt::Display for PbrtError {
            fn fmt(&self, f: &mut std::fmt::Formatter) -> std::fmt::Result {
                f.write_str(&self.0)
            }
        }
    }
}

pub mod paramdict {
    /// A dictionary that holds nothing: every question gets its default.
    pub struct ParameterDictionary;

    impl ParameterDictionary {
        pub fn get_one_filename(&self, _name: &str, default: &str) -> String {
            default.to_string()
        }

        pub fn get_one_string(&self, _name: &str, default: &str) -> String {
            default.to_string()
        }

        pub fn get_one_bool(&self, _name: &str, default: bool) -> bool {
            default
        }

        pub fn get_one_float(&self, _name: &str, default: f32) -> f32 {
            default
        }

        pub fn get_floats_ref(&self, _name: &str) -> Option<&[f32]> {
            None
        }
    }
}

pub mod gpu {
    pub mod flat {
        pub mod medium {
            use super::sparse_grid::SparseScalarGrid;

            pub struct NanoVDBScalarGrid {
                pub values: SparseScalarGrid,
                pub index_bbox_min: [i32; 3],
                pub index_bbox_max: [i32; 3],
                pub inverse_map_f: [[f32; 3]; 3],
                pub translation_f: [f32; 3],
            }

            pub struct NanoVDBMedium {
                pub density: SparseScalarGrid,
                pub temperature: Option<NanoVDBScalarGrid>,
                pub temperature_offset: f32,
                pub temperature_scale: f32,
                pub le_scale: f32,
                pub index_bbox_min: [i32; 3],
                pub index_bbox_max: [i32; 3],
                pub inverse_map_f: [[f32; 3]; 3],
                pub translation_f: [f32; 3],
                pub bounds_min: [f32; 3],
                pub bounds_max: [f32; 3],
                pub majorant_resolution: [u32; 3],
                pub majorant: Vec<f32>,
            }
        }

        pub mod sparse_grid {
            include!(concat!(env!("SMOKE_SOURCE"), "/src/gpu/flat/sparse_grid.rs"));
        }

        pub mod flatten {
            /// The copy whose build takes its cells from the record.
            #[allow(dead_code)]
            pub mod any_cells {
                include!(env!("CELLS_SOURCE"));
            }

            /// The text, and beside it the ways to its private functions.
            #[allow(dead_code)]
            pub mod nanovdb {
                include!(concat!(env!("SMOKE_SOURCE"), "/src/gpu/flat/flatten/nanovdb.rs"));

                pub mod reach {
                    use super::*;

                    pub fn decode_scalar_grid(
                        bytes: &[u8],
                    ) -> Result<(NanoVDBScalarGrid, [[f32; 3]; 2]), PbrtError> {
                        super::decode_scalar_grid(bytes)
                    }

                    pub fn range_max(
                        grid: &SparseScalarGrid,
                        lo: [i32; 3],
                        hi: [i32; 3],
                    ) -> Result<f32, PbrtError> {
                        super::range_max(grid, lo, hi)
                    }

                    pub fn validate_file_envelope(filename: &str) -> Result<(), PbrtError> {
                        super::validate_file_envelope(filename)
                    }

                    pub fn majorant_index(medium: &NanoVDBMedium, point: [f32; 3]) -> [f32; 3] {
                        super::majorant_index(medium, point)
                    }
                }
            }
        }
    }
}
