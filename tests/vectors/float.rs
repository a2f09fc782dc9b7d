// Writes the vectors that the program replay_float replays: for each function 2,048 patterns with the answer of Rust's own operation.
//
//     rustc -O -o target/vectors tests/vectors/float.rs && target/vectors > crates/replay_float/stdin
//
// A record has two little-endian words of 64 bits. The functions follow one another:
//     widen               the f32 pattern; the f64 pattern
//     narrow              the f64 pattern; the f32 pattern
//     mul_add             a, and b in the upper half; c, and the answer in the upper half
//     floor, trunc        the f64 pattern; the f64 pattern
//     checked_coordinate  the f64 pattern; the i32 as an f64's pattern, or 16 where it is refused
// A NaN's answer is written as 7fc00000 or 7ff8000000000000, since Rust leaves its bits open.
// Each list has picked edges first, with either sign, and is filled up by a seeded generator.
mod random;

use random::Random;
use std::io::Write;

const RECORDS: usize = 2048;

impl Random {
    // A pattern with an exponent's field from low to high.
    fn f32_at(&mut self, low: u64, high: u64) -> u32 {
        let field = low + self.below(high - low + 1);
        ((self.next() as u32) & 0x807f_ffff) | (field as u32) << 23
    }

    fn f64_at(&mut self, low: u64, high: u64) -> u64 {
        let field = low + self.below(high - low + 1);
        (self.next() & 0x800f_ffff_ffff_ffff) | field << 52
    }
}

fn bits32(x: f32) -> u32 {
    if x.is_nan() { 0x7fc0_0000 } else { x.to_bits() }
}

fn bits64(x: f64) -> u64 {
    if x.is_nan() { 0x7ff8_0000_0000_0000 } else { x.to_bits() }
}

// Zeros, subnormals, the ends of the normal range, numbers about 1 and about the overflow, infinities and NaNs.
fn edges32() -> Vec<u32> {
    let plain = [
        0, 1, 2, 3, 0x003f_ffff, 0x0040_0000, 0x007f_fffe, 0x007f_ffff, 0x0080_0000, 0x0080_0001, 0x0100_0000, 0x2480_0000,
        0x2480_0001, 0x337f_ffff, 0x3380_0000, 0x3f00_0000, 0x3f7f_ffff, 0x3f80_0000, 0x3f80_0001, 0x3f80_0002, 0x4000_0000,
        0x4b7f_ffff, 0x4b80_0000, 0x4eff_ffff, 0x4f00_0000, 0x7e80_0000, 0x7f00_0000, 0x7f7f_fffe, 0x7f7f_ffff, 0x7f80_0000,
        0x7f80_0001, 0x7fbf_ffff, 0x7fc0_0000, 0x7fff_ffff,
    ];
    plain.iter().flat_map(|&b| [b, b | 0x8000_0000]).collect()
}

fn edges64() -> Vec<u64> {
    let plain = [
        0, 1, 2, 0x0008_0000_0000_0000, 0x000f_ffff_ffff_ffff, 0x0010_0000_0000_0000, 0x0010_0000_0000_0001,
        0x3690_0000_0000_0000, 0x3690_0000_0000_0001, 0x368f_ffff_ffff_ffff, 0x3800_0000_0000_0000, 0x3c90_0000_0000_0000,
        0x3fdf_ffff_ffff_ffff, 0x3fe0_0000_0000_0000, 0x3fef_ffff_ffff_ffff, 0x3ff0_0000_0000_0000, 0x3ff0_0000_0000_0001,
        0x3ff0_0000_1000_0000, 0x3ff0_0000_3000_0000, 0x3ff8_0000_0000_0000, 0x432f_ffff_ffff_ffff, 0x4330_0000_0000_0000,
        0x433f_ffff_ffff_ffff, 0x4340_0000_0000_0000, 0x47ef_ffff_e000_0000, 0x47ef_ffff_efff_ffff, 0x47ef_ffff_f000_0000,
        0x47f0_0000_0000_0000, 0x7fef_ffff_ffff_ffff, 0x7ff0_0000_0000_0000, 0x7ff0_0000_0000_0001, 0x7ff0_0000_2000_0000,
        0x7ff7_ffff_ffff_ffff, 0x7ff8_0000_0000_0000, 0x7fff_ffff_ffff_ffff,
    ];
    plain.iter().flat_map(|&b| [b, b | 0x8000_0000_0000_0000]).collect()
}

fn widen(random: &mut Random) -> Vec<u32> {
    let mut list = edges32();
    for k in 0..23 {
        list.extend([1 << k, (1 << k) | 0x8000_0000]);
    }
    while list.len() < 600 {
        list.push(random.f32_at(0, 0));
    }
    while list.len() < RECORDS {
        list.push(random.next() as u32);
    }
    list
}

// An f64 at the middle of two neighbouring f32, and just beside it.
fn beside_tie(random: &mut Random, pattern: u32) -> u64 {
    let low = f32::from_bits(pattern & 0x7fff_ffff) as f64;
    let high = f32::from_bits((pattern & 0x7fff_ffff) + 1) as f64;
    let middle = ((low + high) / 2.0).to_bits() + random.below(3) - 1;
    middle | ((pattern as u64) >> 31) << 63
}

fn narrow(random: &mut Random) -> Vec<u64> {
    let mut list = edges64();
    for b in edges32() {
        list.push((f32::from_bits(b) as f64).to_bits());
    }
    while list.len() < 900 {
        let pattern = random.f32_at(1, 253);
        list.push(beside_tie(random, pattern));
    }
    while list.len() < 1300 {
        let pattern = random.f32_at(0, 0);
        list.push(beside_tie(random, pattern));
    }
    while list.len() < 1500 {
        list.push(random.f64_at(870, 900));
    }
    while list.len() < 1600 {
        list.push(random.f64_at(1148, 1154));
    }
    while list.len() < 1800 {
        list.push(random.f64_at(890, 1160));
    }
    while list.len() < RECORDS {
        list.push(random.next());
    }
    list
}

fn mul_add(random: &mut Random) -> Vec<[u32; 3]> {
    let mut list = vec![[0x3f80_0001, 0x3f80_0001, 0xbf80_0002]];
    let few = [
        0, 0x8000_0000, 1, 0x8000_0001, 0x3f80_0000, 0xbf80_0000, 0x7f7f_ffff, 0xff7f_ffff, 0x7f80_0000, 0xff80_0000, 0x7fc0_0000,
    ];
    for a in [0, 0x8000_0000, 1, 0x3f80_0000, 0xbf80_0000, 0x7f7f_ffff, 0x7f80_0000, 0xff80_0000, 0xffc0_0001] {
        for b in [0, 1, 0x3f80_0000, 0xbf80_0000, 0x7f7f_ffff, 0x7f80_0000] {
            for c in few {
                list.push([a, b, c]);
            }
        }
    }
    // the product's own rounding taken away: what is left was lost
    while list.len() < 900 {
        let (a, b) = (random.f32_at(60, 190), random.f32_at(60, 190));
        let product = f32::from_bits(a) * f32::from_bits(b);
        let near = (-product).to_bits().wrapping_add(random.below(5) as u32).wrapping_sub(2);
        list.push([a, b, near]);
    }
    // an addend about as large as the product, or far below or above it: ties and the sticky digit
    while list.len() < 1400 {
        let (a, b) = (random.f32_at(40, 210), random.f32_at(40, 210));
        let field = ((a >> 23) & 255) + ((b >> 23) & 255);
        let at = (field as i64 - 127 + random.below(120) as i64 - 60).clamp(0, 254) as u32;
        let mut c = ((random.next() as u32) & 0x807f_ffff) | at << 23;
        if random.below(2) == 0 {
            c &= 0xff80_0000;
        }
        list.push([a & 0xffff_f000, b & 0xffff_f000, c]);
    }
    // small products and addends, then large ones
    while list.len() < 1600 {
        let a = random.f32_at(0, 70);
        list.push([a, random.f32_at(0, 70), random.f32_at(0, 3)]);
    }
    while list.len() < 1750 {
        let a = random.f32_at(185, 200);
        list.push([a, random.f32_at(185, 195), random.f32_at(245, 254)]);
    }
    while list.len() < RECORDS {
        let r = random.next();
        list.push([r as u32, (r >> 32) as u32, random.next() as u32]);
    }
    list
}

fn whole(random: &mut Random) -> Vec<u64> {
    let mut list = edges64();
    for k in 0..54 {
        for d in [-2i64, -1, 0, 1, 2] {
            let b = ((1u64 << k) as f64).to_bits().wrapping_add(d as u64);
            list.extend([b, b | 0x8000_0000_0000_0000]);
        }
    }
    for k in -5..6 {
        for d in [-1i64, 0, 1] {
            list.push((k as f64 + 0.5).to_bits().wrapping_add(d as u64));
        }
    }
    while list.len() < 1700 {
        list.push(random.f64_at(1018, 1078));
    }
    while list.len() < RECORDS {
        list.push(random.next());
    }
    list
}

fn coordinates(random: &mut Random) -> Vec<u64> {
    let mut list = edges64();
    for end in [-2147483649.0f64, -2147483648.0, -2147483647.0, 2147483646.0, 2147483647.0, 2147483648.0, -1.0, 1.0] {
        for d in -3i64..4 {
            list.push(end.to_bits().wrapping_add(d as u64));
        }
        list.extend([(end - 0.5).to_bits(), (end + 0.5).to_bits()]);
    }
    while list.len() < 1500 {
        list.push(random.f64_at(1018, 1054));
    }
    while list.len() < RECORDS {
        list.push(random.next());
    }
    list
}

// The source's checked_coordinate.
fn coordinate(v: f64) -> u64 {
    if !v.is_finite() || v < i32::MIN as f64 || v > i32::MAX as f64 { 16 } else { (v as i32 as f64).to_bits() }
}

fn main() {
    let mut random = Random(0x736d_6f6b_6567_7269);
    let mut out: Vec<[u64; 2]> = Vec::new();
    out.extend(widen(&mut random).iter().map(|&b| [b as u64, bits64(f32::from_bits(b) as f64)]));
    out.extend(narrow(&mut random).iter().map(|&b| [b, bits32(f64::from_bits(b) as f32) as u64]));
    out.extend(mul_add(&mut random).iter().map(|&[a, b, c]| {
        let r = bits32(f32::from_bits(a).mul_add(f32::from_bits(b), f32::from_bits(c)));
        [a as u64 | (b as u64) << 32, c as u64 | (r as u64) << 32]
    }));
    out.extend(whole(&mut random).iter().map(|&b| [b, bits64(f64::from_bits(b).floor())]));
    out.extend(whole(&mut random).iter().map(|&b| [b, bits64(f64::from_bits(b).trunc())]));
    out.extend(coordinates(&mut random).iter().map(|&b| [b, coordinate(f64::from_bits(b))]));
    assert_eq!(out.len(), 6 * RECORDS);
    let bytes: Vec<u8> = out.iter().flatten().flat_map(|w| w.to_le_bytes()).collect();
    std::io::stdout().write_all(&bytes).unwrap();
}
