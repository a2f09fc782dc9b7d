//! The number of each message of the two Rust modules.

/// A message that stands for none of the numbers, or a panic that is not the known one.
pub const UNKNOWN: u32 = 255;

/// What a message says, and the numbers it stands for. Where there is more than one, the caller
/// finds the number from the record that was refused.
pub const MESSAGES: &[(&str, &[u32])] = &[
    ("Truncated GridData.", &[2]),
    ("Unsupported or inconsistent Float grid header", &[3]),
    ("Invalid world bounds.", &[4]),
    ("Truncated source grid.", &[5]),
    ("Source offset overflow.", &[5]),
    ("Root offset exceeds usize.", &[5]),
    ("Root offset overflow.", &[5]),
    ("Root table size overflow.", &[5]),
    ("Node range exceeds raw grid.", &[5]),
    ("Source node ranges overlap or reference a different level.", &[6]),
    ("Invalid root coordinate key.", &[7]),
    ("Internal child offset is zero.", &[8]),
    ("Invalid source child offset.", &[8]),
    ("Source offset exceeds i128.", &[8]),
    ("Tree node count disagrees with reachable nodes.", &[10]),
    ("Invalid or duplicate sparse grid root block.", &[11]),
    ("Invalid sparse child reference or child value.", &[11]),
    ("Invalid sparse node reference.", &[11]),
    ("Invalid sparse leaf reference.", &[11]),
    ("Invalid sparse upper node reference.", &[11]),
    ("Invalid sparse lower node reference.", &[11]),
    ("Sparse grid values must be finite.", &[12]),
    ("Scalar grid requires a finite positive diagonal inverse map", &[13]),
    ("Empty scalar index bounds.", &[14]),
    ("Sparse density values must be non-negative.", &[15]),
    ("Grid coordinate exceeds i32.", &[16]),
    ("v4 majorant does not bound density in cell", &[17]),
    ("Invalid sparse grid array length.", &[18]),
    ("Sparse grid root count exceeds u32.", &[18]),
    ("Invalid NanoVDB bounds or map.", &[4, 14, 13]),
];

/// The numbers that a message stands for, in the order in which the faults are looked for.
pub fn numbers_of(message: &str) -> &'static [u32] {
    let text = message.strip_prefix("GPU nanovdb: ").unwrap_or(message);
    MESSAGES
        .iter()
        .find(|(start, _)| text.starts_with(start))
        .map_or(&[UNKNOWN], |(_, numbers)| numbers)
}

pub fn number_of(message: &str) -> u32 {
    numbers_of(message)[0]
}
