//! Stands in for nanovdb_rs. The header of a raw grid is read, and that of a segment; the tree check
//! accepts everything; what else concerns whole files is here only so that the source compiles, and
//! finds nothing.

const HEADER_SIZE: usize = 672;

#[derive(Clone, Copy, Debug, PartialEq)]
pub struct Version(pub u32);

impl Version {
    pub fn major(self) -> u32 {
        self.0 >> 21
    }
}

#[derive(Clone, Copy, Debug, PartialEq)]
pub struct Vec3d {
    pub x: f64,
    pub y: f64,
    pub z: f64,
}

pub struct GridDataHeader {
    pub magic: u64,
    pub version: Version,
    pub grid_index: u32,
    pub grid_count: u32,
    pub grid_size: u64,
    pub grid_name: String,
    pub world_bbox_min: Vec3d,
    pub world_bbox_max: Vec3d,
    pub grid_class: u32,
    pub grid_type: u32,
}

impl GridDataHeader {
    /// Refuses fewer than 672 bytes and otherwise reads the fields, whatever they hold.
    pub fn parse(bytes: &[u8]) -> Option<Self> {
        if bytes.len() < HEADER_SIZE {
            return None;
        }
        let u32_at = |at: usize| u32::from_le_bytes(bytes[at..at + 4].try_into().unwrap());
        let u64_at = |at: usize| u64::from_le_bytes(bytes[at..at + 8].try_into().unwrap());
        let corner = |at: usize| Vec3d {
            x: f64::from_bits(u64_at(at)),
            y: f64::from_bits(u64_at(at + 8)),
            z: f64::from_bits(u64_at(at + 16)),
        };
        Some(GridDataHeader {
            magic: u64_at(0),
            version: Version(u32_at(16)),
            grid_index: u32_at(24),
            grid_count: u32_at(28),
            grid_size: u64_at(32),
            grid_name: String::new(),
            world_bbox_min: corner(560),
            world_bbox_max: corner(584),
            grid_class: u32_at(632),
            grid_type: u32_at(636),
        })
    }
}

pub struct ValidatedFloatTree;

impl ValidatedFloatTree {
    pub fn new(_bytes: &[u8]) -> Option<Self> {
        Some(ValidatedFloatTree)
    }
}

#[derive(Clone, Copy, Debug, PartialEq)]
pub enum GridType {
    Unknown = 0,
    Float = 1,
}

#[derive(Clone, Copy, Debug, PartialEq)]
pub enum Codec {
    None = 0,
    Zip = 1,
    Blosc = 2,
}

pub struct SegmentHeader {
    pub version: Version,
    pub grid_count: u16,
    pub codec: Codec,
}

impl SegmentHeader {
    /// The marks are document 02's, and the codecs those of the enum.
    pub fn parse(bytes: &[u8; 16], _at: u64) -> Result<Self, String> {
        let u16_at = |at: usize| u16::from_le_bytes([bytes[at], bytes[at + 1]]);
        let codec = match (&bytes[..8], u16_at(14)) {
            (b"NanoVDB0" | b"NanoVDB2", 0) => Codec::None,
            (b"NanoVDB0" | b"NanoVDB2", 1) => Codec::Zip,
            (b"NanoVDB0" | b"NanoVDB2", 2) => Codec::Blosc,
            _ => return Err("Another mark or codec.".to_string()),
        };
        let version = Version(u32::from_le_bytes(bytes[8..12].try_into().unwrap()));
        Ok(SegmentHeader { version, grid_count: u16_at(12), codec })
    }
}

pub struct GridMetadata {
    pub version: Version,
    pub name: String,
    pub grid_class: u32,
    pub grid_size: u64,
    pub world_bbox_min: Vec3d,
    pub world_bbox_max: Vec3d,
    pub index_bbox_min: [i32; 3],
    pub index_bbox_max: [i32; 3],
    pub node_count: [u32; 3],
}

pub struct Grid {
    metadata: GridMetadata,
}

impl Grid {
    pub fn name(&self) -> &str {
        &self.metadata.name
    }

    pub fn value_type(&self) -> GridType {
        GridType::Unknown
    }

    pub fn raw_bytes(&self) -> &[u8] {
        &[]
    }

    pub fn grid_metadata(&self) -> &GridMetadata {
        &self.metadata
    }
}

pub struct NvdbFile;

impl NvdbFile {
    pub fn open(_filename: &str) -> Result<Self, String> {
        Err("Files are not read here.".to_string())
    }

    pub fn grids(&self) -> &[Grid] {
        &[]
    }
}
