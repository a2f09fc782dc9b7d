//! Cases by hand, with the numbers that are due: the grid of 832 bytes and what lies next to it.

use super::Case;
use crate::walk::{MASK, SIZE, TABLE};

/// A case with the number of its decode and of the build of what was decoded.
pub struct Due {
    pub case: Case,
    pub decode: u32,
    pub build: u32,
}

/// One tile 0.5 at block (-1, 0, 0), background 0, index box (-8, 0, 0) to (-1, 7, 7), map 1.
pub fn sample() -> Vec<u8> {
    let mut bytes = vec![0; 832];
    put64(&mut bytes, 0, 0x304244566f6e614e);
    put32(&mut bytes, 16, 67_108_864);
    put32(&mut bytes, 28, 1);
    put64(&mut bytes, 32, 832);
    for axis in 0..3 {
        put32(&mut bytes, 332 + 16 * axis, 1f32.to_bits());
        let low = if axis == 0 { -8.0f64 } else { 0.0 };
        put64(&mut bytes, 560 + 8 * axis, low.to_bits());
        put64(&mut bytes, 584 + 8 * axis, (low + 8.0).to_bits());
        put32(&mut bytes, 736 + 4 * axis, low as i32 as u32);
        put32(&mut bytes, 748 + 4 * axis, (low as i32 + 7) as u32);
    }
    put32(&mut bytes, 632, 2);
    put32(&mut bytes, 636, 1);
    put64(&mut bytes, 696, 64);
    put32(&mut bytes, 760, 1);
    put64(&mut bytes, 800, 0x3ffffc0000000000);
    put32(&mut bytes, 820, 0.5f32.to_bits());
    bytes
}

/// The sample without its tile.
fn empty() -> Vec<u8> {
    let mut bytes = sample();
    put32(&mut bytes, 760, 0);
    cut(&mut bytes, 800);
    bytes
}

/// The sample with an upper node of no children right behind its root.
fn upper() -> Vec<u8> {
    let mut bytes = sample();
    cut(&mut bytes, 832 + SIZE[2]);
    put64(&mut bytes, 808, 96);
    put32(&mut bytes, 712, 1);
    put32(&mut bytes, 832 + TABLE[2] + 8 * 32767, 0.25f32.to_bits());
    bytes
}

/// An upper node that names itself as a lower node.
fn itself() -> Vec<u8> {
    let mut bytes = upper();
    bytes[832 + MASK[2]] = 1;
    put64(&mut bytes, 832 + TABLE[2], 32);
    bytes
}

pub fn bench() -> Vec<Due> {
    let with = |mut bytes: Vec<u8>, edit: &dyn Fn(&mut Vec<u8>)| {
        edit(&mut bytes);
        bytes
    };
    let marked = |mark: [u8; 8]| with(sample(), &|b| b[..8].copy_from_slice(&mark));
    let low_x = |x: f64| with(sample(), &|b| put64(b, 560, x.to_bits()));
    vec![
        due("sample", sample(), 0, 0),
        due("no tiles", empty(), 0, 0),
        due("an upper node", upper(), 0, 0),
        due("version 33", with(sample(), &|b| put32(b, 16, 69_206_016)), 3, 0),
        due("mark NanoVDB1", marked(*b"NanoVDB1"), 0, 0),
        due("mark NanoVDB2, of a file", marked(*b"NanoVDB2"), 3, 0),
        due("mark NanoVDB3", marked(*b"NanoVDB3"), 3, 0),
        due("mark nanoVDB1", marked(*b"nanoVDB1"), 3, 0),
        due("bit 62 alone", with(sample(), &|b| put64(b, 800, 1 << 62)), 7, 0),
        due("child at 832, past the end", with(sample(), &|b| put64(b, 808, 96)), 5, 0),
        due("child at 816", with(sample(), &|b| put64(b, 808, 80)), 8, 0),
        due(
            "child at 0, short file",
            with(sample(), &|b| put64(b, 808, 0u64.wrapping_sub(736))),
            5,
            0,
        ),
        due(
            "child at 0, long file",
            with(upper(), &|b| put64(b, 808, 0u64.wrapping_sub(736))),
            6,
            0,
        ),
        due("child is its parent", itself(), 6, 0),
        due("root offset 63, one tile", with(sample(), &|b| put64(b, 696, 63)), 5, 0),
        due("root offset 63, no tiles", with(empty(), &|b| put64(b, 696, 63)), 6, 0),
        due("root past 2^64", with(sample(), &|b| put64(b, 696, u64::MAX)), 5, 0),
        due("root field past 2^64", with(sample(), &|b| put64(b, 696, u64::MAX - 680)), 5, 0),
        due("one node too many", with(sample(), &|b| put32(b, 712, 1)), 10, 0),
        due("one node too few", with(upper(), &|b| put32(b, 712, 0)), 10, 0),
        due("background -2", with(empty(), &|b| put32(b, 764, (-2f32).to_bits())), 15, 0),
        due("background -0.0", with(empty(), &|b| put32(b, 764, (-0f32).to_bits())), 0, 0),
        due("low index 0.5", with(low_x(0.5), &|b| put64(b, 584, 8f64.to_bits())), 0, 0),
        due("low index -2147483520", low_x(-2147483520.0), 0, 0),
        due("low index -2147483648", low_x(-2147483648.0), 0, 16),
    ]
}

fn due(name: &str, bytes: Vec<u8>, decode: u32, build: u32) -> Due {
    let name = format!("bench list, {name}");
    Due {
        case: Case { name, bytes, near: vec![[-8, 0, 0], [0, 0, 0]], builds: true },
        decode,
        build,
    }
}

fn put32(bytes: &mut [u8], at: usize, word: u32) {
    bytes[at..at + 4].copy_from_slice(&word.to_le_bytes());
}

fn put64(bytes: &mut [u8], at: usize, word: u64) {
    bytes[at..at + 8].copy_from_slice(&word.to_le_bytes());
}

fn cut(bytes: &mut Vec<u8>, length: usize) {
    bytes.resize(length, 0);
    put64(bytes, 32, length as u64);
}
