//! Raw grids made by hand (NanoVDB.h, ABI 32).

pub fn put32(bytes: &mut [u8], at: usize, word: u32) {
    bytes[at..at + 4].copy_from_slice(&word.to_le_bytes());
}

pub fn put64(bytes: &mut [u8], at: usize, word: u64) {
    bytes[at..at + 8].copy_from_slice(&word.to_le_bytes());
}

pub fn put_float(bytes: &mut [u8], at: usize, value: f32) {
    put32(bytes, at, value.to_bits());
}

/// One tile 0.5 at block (-1, 0, 0), background 0, index box (-8, 0, 0) to (-1, 7, 7), map 1.
pub fn tile() -> Vec<u8> {
    let mut bytes = vec![0; 832];
    put64(&mut bytes, 0, 0x304244566f6e614e);
    put32(&mut bytes, 16, 32 << 21);
    put32(&mut bytes, 28, 1);
    put64(&mut bytes, 32, 832);
    for axis in 0..3 {
        let low = if axis == 0 { -8 } else { 0 };
        put_float(&mut bytes, 332 + 16 * axis, 1.0);
        put64(&mut bytes, 560 + 8 * axis, f64::from(low).to_bits());
        put64(&mut bytes, 584 + 8 * axis, f64::from(low + 8).to_bits());
        put32(&mut bytes, 736 + 4 * axis, low as u32);
        put32(&mut bytes, 748 + 4 * axis, (low + 7) as u32);
    }
    put32(&mut bytes, 632, 2);
    put32(&mut bytes, 636, 1);
    put64(&mut bytes, 696, 64);
    put32(&mut bytes, 760, 1);
    put64(&mut bytes, 800, 0x3ffffc0000000000);
    put_float(&mut bytes, 820, 0.5);
    bytes
}

/// Where the nodes of `chain` stand.
pub const UPPER: usize = 832;
pub const LOWER: usize = UPPER + 270_400;
pub const LEAF: usize = LOWER + 33_856;

/// The tile's block with an upper node instead: its first slot has a lower node, whose first slot has
/// a leaf with 0.25 at its first voxel. Other values: 0.125 at the upper node's last slot, 0.75 at the
/// lower node's.
#[allow(dead_code)]
pub fn chain() -> Vec<u8> {
    let mut bytes = tile();
    resize(&mut bytes, LEAF + 2_144);
    for (at, count) in [(704, 1), (708, 1), (712, 1)] {
        put32(&mut bytes, at, count);
    }
    put64(&mut bytes, 808, (UPPER - 736) as u64);
    bytes[UPPER + 4_128] = 1;
    put64(&mut bytes, UPPER + 8_256, (LOWER - UPPER) as u64);
    put_float(&mut bytes, UPPER + 8_256 + 8 * 32_767, 0.125);
    bytes[LOWER + 544] = 1;
    put64(&mut bytes, LOWER + 1_088, (LEAF - LOWER) as u64);
    put_float(&mut bytes, LOWER + 1_088 + 8 * 4_095, 0.75);
    put_float(&mut bytes, LEAF + 96, 0.25);
    bytes
}

/// Another length, with the size field to match.
pub fn resize(bytes: &mut Vec<u8>, length: usize) {
    bytes.resize(length, 0);
    put64(bytes, 32, length as u64);
}

/// A segment of an .nvdb file: each grid's name, as it stands there, and its bytes.
#[allow(dead_code)]
pub fn segment(mark: &[u8; 8], codec: u16, grids: &[(&str, &[u8])]) -> Vec<u8> {
    let version = 32u32 << 21 | 4 << 10 | 2;
    let mut bytes = mark.to_vec();
    bytes.extend(version.to_le_bytes());
    bytes.extend((grids.len() as u16).to_le_bytes());
    bytes.extend(codec.to_le_bytes());
    for (name, grid) in grids {
        let mut entry = vec![0; 176];
        put64(&mut entry, 0, grid.len() as u64);
        put32(&mut entry, 136, name.len() as u32);
        entry[168..170].copy_from_slice(&codec.to_le_bytes());
        put32(&mut entry, 172, version);
        bytes.extend(entry);
        bytes.extend(name.as_bytes());
    }
    bytes.extend(grids.iter().flat_map(|(_, grid)| *grid));
    bytes
}
